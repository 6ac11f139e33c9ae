//! Keys in PEM (RFC 7468), with the names of the feature `pem` of `sec1`.
//!
//! # Examples
//!
//! ```
//! # #[cfg(feature = "pem")] {
//! use sec1::pem::{LineEnding, room_len};
//! use sec1::{Curve, EcPublicKey};
//!
//! let curve = Curve::new("P-256")?.identifier();
//! let key = EcPublicKey { curve, public_key: &[2; 33] };
//! let text = key.to_pem(LineEnding::LF)?;
//! assert!(text.starts_with("-----BEGIN PUBLIC KEY-----\nMDkwEwYHKoZIzj0CAQYIKoZIzj0DAQcDIgACAg"));
//! let mut room = vec![0; room_len(&text)];
//! assert_eq!(EcPublicKey::from_pem(&text, &mut room)?, key);
//! # }
//! # Ok::<(), sec1::Error>(())
//! ```

#[cfg(feature = "pem")]
mod text;

use crate::der::{Error, ErrorKind, Result};
use crate::{EcPrivateKey, raw};

#[cfg(all(feature = "pem", feature = "std"))]
pub(crate) use text::read_file;
#[cfg(feature = "pem")]
pub(crate) use text::{encode, first_label, with_bytes};

/// What ends each line of a text that is written.
///
/// # Examples
///
/// ```
/// use sec1::pem::LineEnding;
///
/// assert_eq!(LineEnding::CRLF.as_str(), "\r\n");
/// ```
#[derive(Clone, Copy, Debug, Eq, PartialEq)]
pub enum LineEnding {
    /// A carriage return.
    CR,
    /// A line feed.
    LF,
    /// Both, as on Windows.
    CRLF,
}

impl LineEnding {
    /// Returns the end of a line as a text.
    ///
    /// # Examples
    ///
    /// ```
    /// use sec1::pem::LineEnding;
    ///
    /// assert_eq!(LineEnding::LF.as_str(), "\n");
    /// ```
    pub const fn as_str(self) -> &'static str {
        match self {
            LineEnding::CR => "\r",
            LineEnding::LF => "\n",
            LineEnding::CRLF => "\r\n",
        }
    }
}

/// That of the system.
impl Default for LineEnding {
    fn default() -> LineEnding {
        if cfg!(windows) { LineEnding::CRLF } else { LineEnding::LF }
    }
}

/// A type whose values have a label in PEM.
///
/// # Examples
///
/// ```
/// use sec1::EcPrivateKey;
/// use sec1::pem::PemLabel;
///
/// assert_eq!(EcPrivateKey::PEM_LABEL, "EC PRIVATE KEY");
/// ```
pub trait PemLabel {
    /// The label.
    const PEM_LABEL: &'static str;

    /// Compares a label with that of the type.
    ///
    /// # Errors
    ///
    /// [`ErrorKind::Pem`] if it is another one.
    ///
    /// # Examples
    ///
    /// ```
    /// use sec1::EcPrivateKey;
    /// use sec1::pem::PemLabel;
    ///
    /// assert!(EcPrivateKey::validate_pem_label("PRIVATE KEY").is_err());
    /// ```
    fn validate_pem_label(actual: &str) -> Result<()> {
        match actual == Self::PEM_LABEL {
            true => Ok(()),
            false => Err(Error::of_kind(ErrorKind::Pem)),
        }
    }
}

impl PemLabel for EcPrivateKey<'_> {
    const PEM_LABEL: &'static str = "EC PRIVATE KEY";
}

/// The label of PKCS #8 containers.
pub(crate) const CONTAINER: &str = "PRIVATE KEY";
/// The label of public keys.
pub(crate) const PUBLIC_KEY: &str = "PUBLIC KEY";

/// Returns the number of bytes of room that decoding a text needs.
///
/// # Examples
///
/// ```
/// use sec1::pem::room_len;
///
/// assert_eq!(room_len("-----BEGIN A-----"), 36);
/// ```
pub fn room_len(text: &str) -> usize {
    text.len().saturating_mul(2).saturating_add(2)
}

/// Decodes the first block of a text that has one of these labels, and returns the label, and what
/// the block encodes, which is at the beginning of the room.
pub(crate) fn decode<'a, 'l>(
    text: &str,
    labels: &[&'l str],
    room: &'a mut [u8],
) -> Result<(&'l str, &'a [u8])> {
    let mut first = None;
    for label in labels {
        let line = line_of(text, label, room)?.map(|line| (line, *label));
        first = first.into_iter().chain(line).min();
    }
    let (_, label) = first.ok_or(Error::of_kind(ErrorKind::Pem))?;
    let (len, _) = raw::pem_decode(text, label, room).map_err(|(status, _)| Error::of(status))?;
    Ok((label, room.get(..len).ok_or(Error::of_kind(ErrorKind::Failed))?))
}

/// Returns the number of the first line of the first block that has this label, if one has.
fn line_of(text: &str, label: &str, room: &mut [u8]) -> Result<Option<usize>> {
    let line = match raw::pem_decode(text, label, room) {
        Ok((_, line)) => line,
        Err((status, line)) if status.get() == sec1_sys::SEC1_PEM => line,
        Err((status, _)) => return Err(Error::of(status)),
    };
    Ok(Some(line).filter(|line| *line > 0))
}
