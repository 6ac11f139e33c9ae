//! Elements that may be absent.

use super::{Decode, Encode, Error, ErrorKind, FixedTag, Length, Reader, Result, Tag, Tagged};

/// A type that knows by an element's tag whether the element may be one of its values.
///
/// # Examples
///
/// ```
/// use sec1::der::{Choice, Tag, asn1::ObjectIdentifier};
///
/// assert!(ObjectIdentifier::can_decode(Tag::ObjectIdentifier));
/// assert!(!ObjectIdentifier::can_decode(Tag::Null));
/// ```
pub trait Choice<'a>: Decode<'a> + Tagged {
    /// Returns `true` if an element with this tag may be a value of the type.
    ///
    /// # Examples
    ///
    /// ```
    /// use sec1::der::{Choice, Tag, asn1::BitStringRef};
    ///
    /// assert!(BitStringRef::can_decode(Tag::BitString));
    /// ```
    fn can_decode(tag: Tag) -> bool;
}

impl<'a, T: Decode<'a> + FixedTag> Choice<'a> for T {
    fn can_decode(tag: Tag) -> bool {
        tag == T::TAG
    }
}

/// The value, or `None` if no bytes are left, or the next element has another tag.
///
/// # Examples
///
/// ```
/// use sec1::der::{Reader, SliceReader, asn1::{BitStringRef, ObjectIdentifier}};
///
/// let mut reader = SliceReader::new(&[6, 1, 0x2A])?;
/// assert_eq!(reader.decode::<Option<BitStringRef<'_>>>()?, None);
/// let identifier: Option<ObjectIdentifier> = reader.decode()?;
/// assert_eq!(identifier, Some(ObjectIdentifier::new("1.2")?));
/// assert_eq!(reader.decode::<Option<BitStringRef<'_>>>()?, None);
/// # Ok::<(), sec1::der::Error>(())
/// ```
impl<'a, T: Choice<'a>> Decode<'a> for Option<T> {
    type Error = T::Error;

    fn from_der(bytes: &'a [u8]) -> Result<Self, T::Error> {
        match bytes.first() {
            None => Ok(None),
            Some(tag) if T::can_decode(Tag::try_from(*tag)?) => T::from_der(bytes).map(Some),
            Some(_) => Err(Error::new(ErrorKind::TrailingData, Length::ZERO).into()),
        }
    }

    fn decode<R: Reader<'a>>(reader: &mut R) -> Result<Self, T::Error> {
        if reader.is_finished() || !T::can_decode(reader.peek_tag()?) {
            return Ok(None);
        }
        T::decode(reader).map(Some)
    }
}

/// The value, or no bytes.
///
/// # Examples
///
/// ```
/// use sec1::ALGORITHM_OID;
/// use sec1::der::Encode;
///
/// assert_eq!(Some(ALGORITHM_OID).encoded_len().map(u32::from), Ok(9));
/// assert_eq!(None::<sec1::EcParameters>.encode_to_slice(&mut [])?, []);
/// # Ok::<(), sec1::der::Error>(())
/// ```
impl<T: Encode> Encode for Option<T> {
    fn encoded_len(&self) -> Result<Length> {
        self.as_ref().map_or(Ok(Length::ZERO), T::encoded_len)
    }

    fn encode_to_slice<'b>(&self, buf: &'b mut [u8]) -> Result<&'b [u8]> {
        match self {
            Some(value) => value.encode_to_slice(buf),
            None => Ok(&[]),
        }
    }
}
