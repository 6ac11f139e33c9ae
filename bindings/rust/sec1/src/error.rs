//! Why a call of this crate refuses.

use crate::der::{self, print_status};
use core::fmt;

/// A `Result` with this crate's [`Error`].
///
/// # Examples
///
/// ```
/// use sec1::{EcPrivateKey, Result};
///
/// fn length(bytes: &[u8]) -> Result<usize> {
///     Ok(EcPrivateKey::try_from(bytes)?.private_key.len())
/// }
///
/// assert_eq!(length(&[0x30, 6, 2, 1, 1, 4, 1, 9]), Ok(1));
/// ```
pub type Result<T> = core::result::Result<T, Error>;

/// Why a call refused.
///
/// # Examples
///
/// ```
/// use sec1::der::ErrorKind;
/// use sec1::{EcPrivateKey, EncodedPoint, Error, consts::U32};
///
/// // The header announces two bytes, and one is there.
/// let error = EcPrivateKey::try_from(&[0x30, 2, 0][..]).unwrap_err();
/// assert!(matches!(error, Error::Asn1(e) if e.kind() == ErrorKind::Truncated));
/// assert_eq!(EncodedPoint::<U32>::from_bytes([1]), Err(Error::PointEncoding));
/// ```
#[derive(Clone, Copy, Debug, Eq, PartialEq)]
#[non_exhaustive]
pub enum Error {
    /// The input isn't DER of the expected form, or can't be written as DER.
    Asn1(der::Error),

    /// A part of the document isn't valid for cryptographic reasons. It is there for the traits of
    /// key types: no call of this crate returns it.
    Crypto,

    /// The bytes aren't the encoding of a point.
    PointEncoding,

    /// A version that isn't supported. It is there for the traits of key types: no call of this
    /// crate returns it.
    Version,
}

impl core::error::Error for Error {}

impl fmt::Display for Error {
    fn fmt(&self, f: &mut fmt::Formatter<'_>) -> fmt::Result {
        match self {
            Error::Asn1(error) => write!(f, "SEC1 ASN.1 error: {error}"),
            Error::Crypto => f.write_str("SEC1 cryptographic error"),
            Error::PointEncoding => print_status(sec1_sys::SEC1_POINT_ENCODING, f),
            Error::Version => f.write_str("SEC1 version error"),
        }
    }
}

impl From<der::Error> for Error {
    fn from(error: der::Error) -> Error {
        Error::Asn1(error)
    }
}
