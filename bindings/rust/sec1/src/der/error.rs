//! Why a call of this module refuses.

use super::Length;
use crate::raw::{self, Status};
use core::fmt;
use core::str;
#[cfg(feature = "std")]
use std::io;

/// Why a call refused, and where in the bytes.
///
/// # Examples
///
/// ```
/// use sec1::EcPrivateKey;
/// use sec1::der::{Decode, ErrorKind};
///
/// // The length, the second byte, announces more than there is.
/// let error = EcPrivateKey::from_der(&[0x30, 9, 2, 1, 1]).unwrap_err();
/// assert_eq!(error.kind(), ErrorKind::Truncated);
/// assert_eq!(error.to_string(), "input ends inside an element at DER byte 1");
/// ```
#[derive(Clone, Copy, Debug, Eq, PartialEq)]
pub struct Error {
    kind: ErrorKind,
    position: Option<Length>,
}

/// The kinds of refusals. All but the last three are statuses of the library.
///
/// # Examples
///
/// ```
/// use sec1::der::{Error, ErrorKind};
///
/// let error = Error::from(ErrorKind::Buffer);
/// assert_eq!(error.kind(), ErrorKind::Buffer);
/// assert_eq!(error.to_string(), ErrorKind::Buffer.to_string());
/// ```
#[derive(Clone, Copy, Debug, Eq, PartialEq)]
#[non_exhaustive]
pub enum ErrorKind {
    /// The input, or the element around a part, ends too early.
    Truncated,
    /// A tag that isn't the expected one, or that no element has.
    Tag,
    /// A length that isn't in the form of DER, or is above 268,435,455.
    Length,
    /// Bytes after the last part.
    TrailingData,
    /// A content that isn't valid for its tag, or a text that isn't an identifier's.
    Value,
    /// A content to write is above 268,435,455 bytes.
    Overlength,
    /// The buffer to write into is too short.
    Buffer,
    /// More than 64 nested elements.
    Depth,
    /// No curve of the library's table has this identifier or this name.
    Curve,
    /// A private key names another curve than its container.
    OtherCurve,
    /// A text has no block of PEM with the label, or the first one has headers, no last line, or a
    /// body that isn't base64.
    Pem,
    /// The library returned what its contract rules out.
    Failed,
    /// The memory for the result couldn't be allocated.
    Memory,
    /// A file couldn't be read or written.
    #[cfg(feature = "std")]
    Io(io::ErrorKind),
}

/// The kinds that are statuses of the library.
const STATUSES: [(u32, ErrorKind); 11] = [
    (sec1_sys::SEC1_TRUNCATED, ErrorKind::Truncated),
    (sec1_sys::SEC1_TAG, ErrorKind::Tag),
    (sec1_sys::SEC1_LENGTH, ErrorKind::Length),
    (sec1_sys::SEC1_TRAILING_DATA, ErrorKind::TrailingData),
    (sec1_sys::SEC1_VALUE, ErrorKind::Value),
    (sec1_sys::SEC1_OVERLENGTH, ErrorKind::Overlength),
    (sec1_sys::SEC1_BUFFER, ErrorKind::Buffer),
    (sec1_sys::SEC1_DEPTH, ErrorKind::Depth),
    (sec1_sys::SEC1_CURVE, ErrorKind::Curve),
    (sec1_sys::SEC1_OTHER_CURVE, ErrorKind::OtherCurve),
    (sec1_sys::SEC1_PEM, ErrorKind::Pem),
];

impl Error {
    /// Returns the error of this kind, at this offset in the bytes.
    ///
    /// # Examples
    ///
    /// ```
    /// use sec1::der::{Error, ErrorKind, Length};
    ///
    /// let error = Error::new(ErrorKind::Value, Length::try_from(4_usize)?);
    /// assert_eq!(error.to_string(), "content not valid for its tag at DER byte 4");
    /// # Ok::<(), sec1::der::Error>(())
    /// ```
    pub const fn new(kind: ErrorKind, position: Length) -> Error {
        Error { kind, position: Some(position) }
    }

    /// Returns the error of this kind, without an offset.
    pub(crate) const fn of_kind(kind: ErrorKind) -> Error {
        Error { kind, position: None }
    }

    /// Returns the error of a status, which isn't one of points.
    pub(crate) fn of(status: Status) -> Error {
        let known = STATUSES.iter().find(|(number, _)| *number == status.get());
        Error::of_kind(known.map_or(ErrorKind::Failed, |(_, kind)| *kind))
    }

    /// Returns the error of a status, at the offset that the library stored.
    pub(crate) fn at(status: Status, offset: usize) -> Error {
        Error { position: Length::try_from(offset).ok(), ..Error::of(status) }
    }

    /// Returns the kind of the error.
    ///
    /// # Examples
    ///
    /// ```
    /// use sec1::der::{ErrorKind, asn1::ObjectIdentifier};
    ///
    /// let error = ObjectIdentifier::new("3.1").unwrap_err();
    /// assert_eq!(error.kind(), ErrorKind::Value);
    /// ```
    pub fn kind(self) -> ErrorKind {
        self.kind
    }

    /// Returns the offset of the first fault in the bytes that were read, for a private key, a
    /// certificate or a tree; otherwise, and above 4,294,967,295, `None`.
    ///
    /// It is the offset of the tag byte, of the first byte of the length or of the content that is
    /// refused, of the first byte after the last part, or the number of bytes if they end before a
    /// tag. For [`ErrorKind::Curve`] it is that of the container's algorithm, and for
    /// [`ErrorKind::OtherCurve`] that of the identifier's content in the key.
    ///
    /// # Examples
    ///
    /// ```
    /// use sec1::EcPrivateKey;
    /// use sec1::der::Decode;
    ///
    /// // The tag of the version, at offset 2, isn't that of an integer.
    /// let error = EcPrivateKey::from_der(&[0x30, 6, 5, 1, 1, 4, 1, 9]).unwrap_err();
    /// assert_eq!(error.position().map(u32::from), Some(2));
    /// ```
    pub fn position(self) -> Option<Length> {
        self.position
    }
}

impl core::error::Error for Error {}

impl fmt::Display for Error {
    fn fmt(&self, f: &mut fmt::Formatter<'_>) -> fmt::Result {
        match self.position {
            Some(position) => write!(f, "{} at DER byte {position}", self.kind),
            None => self.kind.fmt(f),
        }
    }
}

impl ErrorKind {
    /// Returns the error of this kind, at this offset in the bytes.
    ///
    /// # Examples
    ///
    /// ```
    /// use sec1::der::{ErrorKind, Length};
    ///
    /// assert_eq!(ErrorKind::Value.at(Length::ONE).position(), Some(Length::ONE));
    /// ```
    pub const fn at(self, position: Length) -> Error {
        Error::new(self, position)
    }
}

impl fmt::Display for ErrorKind {
    fn fmt(&self, f: &mut fmt::Formatter<'_>) -> fmt::Result {
        if let Some((number, _)) = STATUSES.iter().find(|(_, kind)| kind == self) {
            return print_status(*number, f);
        }
        f.write_str(match self {
            ErrorKind::Memory => "out of memory",
            #[cfg(feature = "std")]
            ErrorKind::Io(_) => "read or write failed",
            _ => "the library broke its contract",
        })
    }
}

/// Prints the text that the library has for a status.
pub(crate) fn print_status(number: u32, f: &mut fmt::Formatter<'_>) -> fmt::Result {
    let mut text = [0; sec1_sys::SEC1_STATUS_TEXT_MAX];
    // The length counts the byte 0 at the end.
    let len = raw::status_to_text(number, &mut text).unwrap_or_default().saturating_sub(1);
    let text = text.get(..len).unwrap_or_default();
    f.write_str(str::from_utf8(text).unwrap_or_default())
}

impl From<ErrorKind> for Error {
    fn from(kind: ErrorKind) -> Error {
        Error::of_kind(kind)
    }
}

#[cfg(feature = "std")]
impl From<io::Error> for Error {
    fn from(error: io::Error) -> Error {
        Error::of_kind(ErrorKind::Io(error.kind()))
    }
}
