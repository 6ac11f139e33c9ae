//! The part of DER (X.690) that private keys need: errors, lengths, the traits of elements and of
//! contents, readers, writers, identifiers and documents, with the names of the crate `der`; and
//! elements and trees, which are this crate's own.

pub mod asn1;
#[cfg(feature = "alloc")]
mod document;
mod element;
mod error;
mod header;
pub mod oid;
mod optional;
mod reader;
mod value;
mod writer;

#[cfg(feature = "alloc")]
pub use document::SecretDocument;
pub use element::{Element, check_tree};
pub(crate) use error::print_status;
pub use error::{Error, ErrorKind};
#[cfg(feature = "alloc")]
pub(crate) use header::content_len_of;
pub use header::{Header, Tag};
pub use optional::Choice;
pub use reader::{Reader, SliceReader};
pub use value::{DecodeValue, EncodeValue, FixedTag, Sequence, Tagged};
pub use writer::{SliceWriter, Writer};

#[cfg(feature = "alloc")]
use alloc::vec::Vec;
use core::fmt;
use core::ops::{Add, Sub};

/// A `Result` with the error of this module.
///
/// # Examples
///
/// ```
/// use sec1::der::{Length, Result};
///
/// fn double(len: u32) -> Result<Length> {
///     usize::try_from(len).unwrap_or(0).saturating_mul(2).try_into()
/// }
///
/// assert!(double(60).is_ok());
/// ```
pub type Result<T, E = Error> = core::result::Result<T, E>;

/// The length of an element in bytes.
///
/// # Examples
///
/// ```
/// use sec1::der::Length;
///
/// let len = Length::try_from(121_usize)?;
/// assert_eq!(u32::from(len), 121);
/// assert_eq!(usize::try_from(len), Ok(121));
/// assert_eq!(len.to_string(), "121");
/// # Ok::<(), sec1::der::Error>(())
/// ```
#[derive(Clone, Copy, Debug, Default, Eq, Hash, Ord, PartialEq, PartialOrd)]
pub struct Length(u32);

impl Length {
    /// No bytes.
    pub const ZERO: Length = Length(0);
    /// One byte.
    pub const ONE: Length = Length(1);
    /// The greatest length of a content, 268,435,455.
    pub const MAX: Length = Length(0x0FFF_FFFF);

    /// Returns the length of this number of bytes.
    ///
    /// # Examples
    ///
    /// ```
    /// use sec1::der::Length;
    ///
    /// const POINT: Length = Length::new(65);
    /// assert_eq!(POINT.to_string(), "65");
    /// ```
    pub const fn new(len: u32) -> Length {
        Length(len)
    }

    /// Returns `true` if there are no bytes.
    ///
    /// # Examples
    ///
    /// ```
    /// use sec1::der::Length;
    ///
    /// assert!(Length::ZERO.is_zero() && !Length::ONE.is_zero());
    /// ```
    pub const fn is_zero(self) -> bool {
        self.0 == 0
    }

    /// Returns the sum, or 4,294,967,295 if it is greater.
    ///
    /// # Examples
    ///
    /// ```
    /// use sec1::der::Length;
    ///
    /// assert_eq!(Length::new(2).saturating_add(Length::ONE), Length::new(3));
    /// assert_eq!(Length::new(u32::MAX).saturating_add(Length::ONE), Length::new(u32::MAX));
    /// ```
    pub const fn saturating_add(self, other: Length) -> Length {
        Length(self.0.saturating_add(other.0))
    }

    /// Returns the difference, or 0 if the other length is greater.
    ///
    /// # Examples
    ///
    /// ```
    /// use sec1::der::Length;
    ///
    /// assert_eq!(Length::new(2).saturating_sub(Length::ONE), Length::ONE);
    /// assert_eq!(Length::ONE.saturating_sub(Length::new(2)), Length::ZERO);
    /// ```
    pub const fn saturating_sub(self, other: Length) -> Length {
        Length(self.0.saturating_sub(other.0))
    }

    /// Returns the sum.
    #[inline]
    pub(crate) fn plus(self, other: Length) -> Result<Length> {
        let sum = self.0.checked_add(other.0).map(Length);
        sum.ok_or(Error::of_kind(ErrorKind::Overlength))
    }

    /// Returns the length of a content, which is at most [`MAX`](Self::MAX).
    #[inline]
    pub(crate) fn of_content(len: usize) -> Result<Length> {
        let overlength = Error::of_kind(ErrorKind::Overlength);
        Length::try_from(len).ok().filter(|len| *len <= Length::MAX).ok_or(overlength)
    }
}

/// The sum, or an error of [`ErrorKind::Overlength`].
///
/// # Examples
///
/// ```
/// use sec1::der::{Length, Result};
///
/// let sum: Result<Length> = Length::ONE + Length::ONE + Length::ONE;
/// assert_eq!(sum.map(u32::from), Ok(3));
/// ```
impl Add for Length {
    type Output = Result<Length>;

    fn add(self, other: Length) -> Result<Length> {
        self.plus(other)
    }
}

impl Add<Length> for Result<Length> {
    type Output = Result<Length>;

    fn add(self, other: Length) -> Result<Length> {
        self?.plus(other)
    }
}

/// The difference, or an error of [`ErrorKind::Overlength`] if the other length is greater.
///
/// # Examples
///
/// ```
/// use sec1::der::Length;
///
/// assert_eq!(Length::new(3) - Length::ONE, Ok(Length::new(2)));
/// assert!((Length::ZERO - Length::ONE).is_err());
/// ```
impl Sub for Length {
    type Output = Result<Length>;

    fn sub(self, other: Length) -> Result<Length> {
        let difference = self.0.checked_sub(other.0).map(Length);
        difference.ok_or(Error::of_kind(ErrorKind::Overlength))
    }
}

impl From<u8> for Length {
    fn from(len: u8) -> Length {
        Length(len.into())
    }
}

impl From<u16> for Length {
    fn from(len: u16) -> Length {
        Length(len.into())
    }
}

impl From<u32> for Length {
    fn from(len: u32) -> Length {
        Length(len)
    }
}

impl TryFrom<usize> for Length {
    type Error = Error;

    fn try_from(len: usize) -> Result<Length> {
        u32::try_from(len).map(Length).map_err(|_| Error::of_kind(ErrorKind::Overlength))
    }
}

impl From<Length> for u32 {
    fn from(len: Length) -> u32 {
        len.0
    }
}

impl TryFrom<Length> for usize {
    type Error = Error;

    fn try_from(len: Length) -> Result<usize> {
        usize::try_from(len.0).map_err(|_| Error::of_kind(ErrorKind::Overlength))
    }
}

impl fmt::Display for Length {
    fn fmt(&self, f: &mut fmt::Formatter<'_>) -> fmt::Result {
        self.0.fmt(f)
    }
}

/// A value that is read from DER.
///
/// # Examples
///
/// ```
/// use sec1::EcPrivateKey;
/// use sec1::der::Decode;
///
/// let key = EcPrivateKey::from_der(&[0x30, 6, 2, 1, 1, 4, 1, 9])?;
/// assert_eq!(key.private_key, [9]);
/// # Ok::<(), sec1::der::Error>(())
/// ```
pub trait Decode<'a>: Sized + 'a {
    /// The error of a refusal.
    type Error: From<Error> + 'static;

    /// Reads the value from its encoding, which is all of the bytes.
    ///
    /// # Errors
    ///
    /// An error if the bytes aren't the encoding of such a value. The kind and the position are
    /// those of the first fault.
    ///
    /// # Examples
    ///
    /// ```
    /// use sec1::EcPrivateKey;
    /// use sec1::der::{Decode, ErrorKind};
    ///
    /// let error = EcPrivateKey::from_der(&[0x30, 6, 2, 1, 2, 4, 1, 9]).unwrap_err();
    /// assert_eq!(error.kind(), ErrorKind::Value);
    /// assert_eq!(error.position().map(u32::from), Some(4));
    /// ```
    fn from_der(bytes: &'a [u8]) -> Result<Self, Self::Error>;

    /// Reads the value from the next element of a reader.
    ///
    /// # Errors
    ///
    /// Those of [`Header::decode`], and those of `from_der` on the bytes of that element, in which
    /// a position is counted from its beginning. On an error the reader is unchanged.
    ///
    /// # Examples
    ///
    /// ```
    /// use sec1::EcPrivateKey;
    /// use sec1::der::{Decode, Reader, SliceReader};
    ///
    /// let mut reader = SliceReader::new(&[0x30, 6, 2, 1, 1, 4, 1, 9, 5, 0])?;
    /// assert_eq!(EcPrivateKey::decode(&mut reader)?.private_key, [9]);
    /// assert_eq!(u32::from(reader.position()), 8);
    /// # Ok::<(), sec1::der::Error>(())
    /// ```
    fn decode<R: Reader<'a>>(reader: &mut R) -> Result<Self, Self::Error> {
        let mut ahead = reader.clone();
        let header = Header::decode(&mut ahead)?;
        let value = Self::from_der(header.element(&mut ahead)?)?;
        *reader = ahead;
        Ok(value)
    }
}

/// A type that says how its content is read, and what its tag is, is read by that. For a type of
/// this crate the library reads the whole element.
impl<'a, T: DecodeValue<'a> + FixedTag + 'a> Decode<'a> for T {
    type Error = <T as DecodeValue<'a>>::Error;

    #[inline]
    fn from_der(bytes: &'a [u8]) -> Result<Self, Self::Error> {
        T::of_element(bytes)
    }
}

/// A value that is written as DER.
///
/// # Examples
///
/// ```
/// use sec1::EcPrivateKey;
/// use sec1::der::{Encode, Length};
///
/// let key = EcPrivateKey { private_key: &[9], parameters: None, public_key: None };
/// let der = [0x30, 6, 2, 1, 1, 4, 1, 9];
/// assert_eq!(key.encoded_len()?, Length::new(8));
/// assert_eq!(key.encode_to_slice(&mut [0; 10])?, der);
/// assert!(key.encode_to_slice(&mut [0; 7]).is_err());
/// # Ok::<(), sec1::der::Error>(())
/// ```
pub trait Encode {
    /// Returns the length of the encoding.
    ///
    /// # Errors
    ///
    /// [`ErrorKind::Overlength`] if the value is too long to be encoded.
    ///
    /// # Examples
    ///
    /// ```
    /// use sec1::EcPrivateKey;
    /// use sec1::der::Encode;
    ///
    /// let key = EcPrivateKey { private_key: &[9; 32], parameters: None, public_key: None };
    /// assert_eq!(key.encoded_len().map(u32::from), Ok(39));
    /// ```
    fn encoded_len(&self) -> Result<Length>;

    /// Writes the encoding at the beginning of a slice, and returns what was written.
    ///
    /// # Errors
    ///
    /// [`ErrorKind::Overlength`], or [`ErrorKind::Buffer`] if the slice is too short.
    ///
    /// # Examples
    ///
    /// ```
    /// use sec1::EcPrivateKey;
    /// use sec1::der::{Encode, ErrorKind};
    ///
    /// let key = EcPrivateKey { private_key: &[9], parameters: None, public_key: None };
    /// assert_eq!(key.encode_to_slice(&mut [0; 9])?, [0x30, 6, 2, 1, 1, 4, 1, 9]);
    /// assert_eq!(key.encode_to_slice(&mut [0; 7]).unwrap_err().kind(), ErrorKind::Buffer);
    /// # Ok::<(), sec1::der::Error>(())
    /// ```
    fn encode_to_slice<'b>(&self, buf: &'b mut [u8]) -> Result<&'b [u8]>;

    /// Writes the encoding to a writer. The copy that is made first is wiped.
    ///
    /// # Errors
    ///
    /// [`ErrorKind::Overlength`], [`ErrorKind::Memory`] if there is no memory, and those of the
    /// writer.
    ///
    /// # Examples
    ///
    /// ```
    /// use sec1::der::{Encode, SliceWriter, asn1::ObjectIdentifier};
    ///
    /// let mut room = [0; 10];
    /// let mut writer = SliceWriter::new(&mut room);
    /// ObjectIdentifier::new("1.2")?.encode(&mut writer)?;
    /// assert_eq!(writer.finish()?, [6, 1, 0x2A]);
    /// # Ok::<(), sec1::der::Error>(())
    /// ```
    #[cfg(feature = "alloc")]
    fn encode(&self, writer: &mut impl Writer) -> Result<()> {
        writer.write(SecretDocument::encode_msg(self)?.as_bytes())
    }

    /// Appends the encoding to a vector, and returns its length. On an error the vector is as
    /// before.
    ///
    /// # Errors
    ///
    /// [`ErrorKind::Overlength`], or [`ErrorKind::Memory`] if there is no memory.
    ///
    /// # Examples
    ///
    /// ```
    /// use sec1::EcPrivateKey;
    /// use sec1::der::Encode;
    ///
    /// let key = EcPrivateKey { private_key: &[9], parameters: None, public_key: None };
    /// let mut bytes = vec![1];
    /// key.encode_to_vec(&mut bytes)?;
    /// assert_eq!(bytes, [1, 0x30, 6, 2, 1, 1, 4, 1, 9]);
    /// # Ok::<(), sec1::der::Error>(())
    /// ```
    #[cfg(feature = "alloc")]
    fn encode_to_vec(&self, buf: &mut Vec<u8>) -> Result<Length> {
        let (len, start) = (self.encoded_len()?, buf.len());
        let more = usize::try_from(len)?;
        buf.try_reserve(more).map_err(|_| Error::of_kind(ErrorKind::Memory))?;
        buf.resize(start.saturating_add(more), 0);
        let written = match buf.get_mut(start..) {
            Some(room) => self.encode_to_slice(room).map(<[u8]>::len),
            None => Err(Error::of_kind(ErrorKind::Failed)),
        };
        match written {
            Ok(written) if written == more => Ok(len),
            other => {
                buf.truncate(start);
                Err(other.err().unwrap_or(Error::of_kind(ErrorKind::Failed)))
            }
        }
    }

    /// Returns the encoding.
    ///
    /// # Errors
    ///
    /// [`ErrorKind::Overlength`], or [`ErrorKind::Memory`] if there is no memory.
    ///
    /// # Examples
    ///
    /// ```
    /// use sec1::EcPrivateKey;
    /// use sec1::der::Encode;
    ///
    /// let key = EcPrivateKey { private_key: &[9], parameters: None, public_key: None };
    /// assert_eq!(key.to_der()?, [0x30, 6, 2, 1, 1, 4, 1, 9]);
    /// # Ok::<(), sec1::der::Error>(())
    /// ```
    #[cfg(feature = "alloc")]
    fn to_der(&self) -> Result<Vec<u8>> {
        let mut buf = Vec::new();
        let len = usize::try_from(self.encoded_len()?)?;
        buf.try_reserve_exact(len).map_err(|_| Error::of_kind(ErrorKind::Memory))?;
        buf.resize(len, 0);
        match self.encode_to_slice(&mut buf)?.len() == len {
            true => Ok(buf),
            false => Err(Error::of_kind(ErrorKind::Failed)),
        }
    }
}

/// A type that says how its content is written, and what its tag is, is written by that. For a key
/// the library writes the whole element.
impl<T: EncodeValue + Tagged + ?Sized> Encode for T {
    #[inline]
    fn encoded_len(&self) -> Result<Length> {
        self.element_len()
    }

    #[inline]
    fn encode_to_slice<'b>(&self, buf: &'b mut [u8]) -> Result<&'b [u8]> {
        self.write_element(buf)
    }
}
