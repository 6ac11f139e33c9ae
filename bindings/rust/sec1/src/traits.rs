//! Key types that are read from, and written as, private keys in DER.

use crate::Result;
#[cfg(feature = "alloc")]
use crate::der::SecretDocument;
#[cfg(feature = "pem")]
use crate::pem::PemLabel;
#[cfg(feature = "pem")]
use crate::{EcPrivateKey, LineEnding, zeroize::Zeroizing};
#[cfg(feature = "pem")]
use alloc::string::String;
#[cfg(feature = "std")]
use std::path::Path;

/// A key type that is read from a private key in DER.
///
/// # Examples
///
/// ```
/// use sec1::{DecodeEcPrivateKey, EcPrivateKey, Error, Result};
///
/// struct SecretKey([u8; 32]);
///
/// impl DecodeEcPrivateKey for SecretKey {
///     fn from_sec1_der(bytes: &[u8]) -> Result<Self> {
///         let key = EcPrivateKey::try_from(bytes)?;
///         key.private_key.try_into().map(SecretKey).map_err(|_| Error::Crypto)
///     }
/// }
///
/// assert!(SecretKey::from_sec1_der(&[0x30, 6, 2, 1, 1, 4, 1, 9]).is_err());
/// ```
pub trait DecodeEcPrivateKey: Sized {
    /// Reads the key from DER.
    ///
    /// # Errors
    ///
    /// An error if the bytes aren't such a key.
    fn from_sec1_der(bytes: &[u8]) -> Result<Self>;

    /// Reads the key from the first block of PEM in a text whose label is EC PRIVATE KEY. Other
    /// blocks may be around it.
    ///
    /// # Errors
    ///
    /// An error of the kind [`Pem`](crate::der::ErrorKind::Pem) if there is none, or it isn't whole
    /// or is encrypted, and any other if it isn't such a key.
    #[cfg(feature = "pem")]
    fn from_sec1_pem(s: &str) -> Result<Self> {
        Self::from_sec1_der(SecretDocument::of_pem(s, EcPrivateKey::PEM_LABEL)?.as_bytes())
    }

    /// Reads the key from a file of DER.
    ///
    /// # Errors
    ///
    /// An error if the file can't be read, isn't one element, or isn't such a key.
    #[cfg(feature = "std")]
    fn read_sec1_der_file(path: impl AsRef<Path>) -> Result<Self> {
        Self::from_sec1_der(SecretDocument::read_der_file(path)?.as_bytes())
    }

    /// Reads the key from a file of PEM, as `from_sec1_pem` does.
    ///
    /// # Errors
    ///
    /// An error if the file can't be read, and those of `from_sec1_pem`.
    #[cfg(all(feature = "pem", feature = "std"))]
    fn read_sec1_pem_file(path: impl AsRef<Path>) -> Result<Self> {
        Self::from_sec1_pem(&crate::pem::read_file(path)?)
    }
}

/// A key type that is written as a private key in DER.
///
/// # Examples
///
/// ```
/// use sec1::der::SecretDocument;
/// use sec1::{EcPrivateKey, EncodeEcPrivateKey, Result};
///
/// struct SecretKey([u8; 32]);
///
/// impl EncodeEcPrivateKey for SecretKey {
///     fn to_sec1_der(&self) -> Result<SecretDocument> {
///         EcPrivateKey { private_key: &self.0, parameters: None, public_key: None }.try_into()
///     }
/// }
///
/// assert_eq!(SecretKey([7; 32]).to_sec1_der()?.as_bytes().len(), 39);
/// # Ok::<(), sec1::Error>(())
/// ```
#[cfg(feature = "alloc")]
pub trait EncodeEcPrivateKey {
    /// Returns the key in DER.
    ///
    /// # Errors
    ///
    /// An error if the key can't be written.
    fn to_sec1_der(&self) -> Result<SecretDocument>;

    /// Returns the key in PEM, with the label EC PRIVATE KEY.
    ///
    /// # Errors
    ///
    /// An error if the key can't be written.
    #[cfg(feature = "pem")]
    fn to_sec1_pem(&self, line_ending: LineEnding) -> Result<Zeroizing<String>> {
        Ok(self.to_sec1_der()?.to_pem(EcPrivateKey::PEM_LABEL, line_ending)?)
    }

    /// Writes the key in DER to a file.
    ///
    /// # Errors
    ///
    /// An error if the key or the file can't be written.
    #[cfg(feature = "std")]
    fn write_sec1_der_file(&self, path: impl AsRef<Path>) -> Result<()> {
        Ok(self.to_sec1_der()?.write_der_file(path)?)
    }

    /// Writes the key in PEM to a file.
    ///
    /// # Errors
    ///
    /// An error if the key or the file can't be written.
    #[cfg(all(feature = "pem", feature = "std"))]
    fn write_sec1_pem_file(&self, path: impl AsRef<Path>, line_ending: LineEnding) -> Result<()> {
        Ok(self.to_sec1_der()?.write_pem_file(path, EcPrivateKey::PEM_LABEL, line_ending)?)
    }
}
