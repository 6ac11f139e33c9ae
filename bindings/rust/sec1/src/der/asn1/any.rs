//! Elements with any tag.

use super::super::{
    Choice, Decode, DecodeValue, Element, EncodeValue, Error, ErrorKind, FixedTag, Header, Length,
    Reader, Result, SliceReader, Tag, Tagged, Writer,
};
use super::ObjectIdentifier;
use crate::{EcParameters, raw};
use core::fmt;

/// An element with any tag and any content, which is borrowed. Its `Debug` leaves the content out.
///
/// # Examples
///
/// ```
/// use sec1::der::{Decode, Encode, Tag, asn1::AnyRef};
///
/// let any = AnyRef::from_der(&[4, 1, 9])?;
/// assert_eq!((any.tag(), any.value()), (Tag::OctetString, &[9][..]));
/// assert_eq!(any.encode_to_slice(&mut [0; 5])?, [4, 1, 9]);
/// # Ok::<(), sec1::der::Error>(())
/// ```
#[derive(Clone, Copy, Eq, PartialEq)]
pub struct AnyRef<'a> {
    tag: Tag,
    value: &'a [u8],
}

impl<'a> AnyRef<'a> {
    /// Returns the element with this tag and this content.
    ///
    /// # Errors
    ///
    /// [`ErrorKind::Overlength`] if the content is above 268,435,455 bytes.
    ///
    /// # Examples
    ///
    /// ```
    /// use sec1::der::{Encode, Tag, asn1::AnyRef};
    ///
    /// let any = AnyRef::new(Tag::OctetString, &[9; 200])?;
    /// assert_eq!(any.encoded_len().map(u32::from), Ok(203));
    /// # Ok::<(), sec1::der::Error>(())
    /// ```
    pub fn new(tag: Tag, bytes: &'a [u8]) -> Result<Self> {
        raw::element_len(tag.into(), bytes).map_err(Error::of)?;
        Ok(AnyRef { tag, value: bytes })
    }

    /// Returns the tag.
    ///
    /// # Examples
    ///
    /// ```
    /// use sec1::der::{Tag, asn1::AnyRef};
    ///
    /// assert_eq!(AnyRef::new(Tag::Sequence, &[])?.tag(), Tag::Sequence);
    /// # Ok::<(), sec1::der::Error>(())
    /// ```
    pub fn tag(self) -> Tag {
        self.tag
    }

    /// Borrows the content.
    ///
    /// # Examples
    ///
    /// ```
    /// use sec1::der::{Tag, asn1::AnyRef};
    ///
    /// assert_eq!(AnyRef::new(Tag::OctetString, &[9])?.value(), [9]);
    /// # Ok::<(), sec1::der::Error>(())
    /// ```
    pub fn value(self) -> &'a [u8] {
        self.value
    }

    /// Reads a value from the content.
    ///
    /// A private key isn't read so, since its own header has to stand before its content: use
    /// [`Decode::from_der`] on the bytes of the element.
    ///
    /// # Errors
    ///
    /// [`ErrorKind::Tag`] if elements of the type have another tag, those of
    /// [`DecodeValue::decode_value`], and [`ErrorKind::TrailingData`] if it leaves bytes.
    ///
    /// # Examples
    ///
    /// ```
    /// use sec1::der::{Tag, asn1::{AnyRef, ObjectIdentifier}};
    ///
    /// let any = AnyRef::new(Tag::ObjectIdentifier, &[0x2A])?;
    /// assert_eq!(any.decode_as::<ObjectIdentifier>()?.to_string(), "1.2");
    /// # Ok::<(), sec1::der::Error>(())
    /// ```
    pub fn decode_as<T>(self) -> Result<T, <T as DecodeValue<'a>>::Error>
    where
        T: Choice<'a> + DecodeValue<'a>,
    {
        if !T::can_decode(self.tag) {
            return Err(Error::of_kind(ErrorKind::Tag).into());
        }
        let mut reader = SliceReader::new(self.value)?;
        let header = Header::new(self.tag, self.value.len().try_into()?)?;
        let value = T::decode_value(&mut reader, header)?;
        reader.finish()?;
        Ok(value)
    }
}

impl<'a> Decode<'a> for AnyRef<'a> {
    type Error = Error;

    fn from_der(bytes: &'a [u8]) -> Result<Self> {
        raw::document_len(bytes).map_err(Error::of)?;
        let (element, _) = Element::read(bytes)?;
        Ok(AnyRef { tag: Tag::accepted(element.tag()), value: element.content() })
    }
}

impl<'a> DecodeValue<'a> for AnyRef<'a> {
    type Error = Error;

    fn decode_value<R: Reader<'a>>(reader: &mut R, header: Header) -> Result<Self> {
        Ok(AnyRef { tag: header.tag(), value: reader.read_slice(header.length())? })
    }
}

impl Tagged for AnyRef<'_> {
    fn tag(&self) -> Tag {
        self.tag
    }
}

impl EncodeValue for AnyRef<'_> {
    fn value_len(&self) -> Result<Length> {
        self.value.len().try_into()
    }

    fn encode_value(&self, writer: &mut impl Writer) -> Result<()> {
        writer.write(self.value)
    }

    fn element_len(&self) -> Result<Length> {
        raw::element_len(self.tag.into(), self.value).map_err(Error::of)?.try_into()
    }

    fn write_element<'b>(&self, buf: &'b mut [u8]) -> Result<&'b [u8]> {
        let len = raw::element_write(self.tag.into(), self.value, buf).map_err(Error::of)?;
        buf.get(..len).ok_or(Error::of_kind(ErrorKind::Failed))
    }
}

impl<'a> TryFrom<&'a [u8]> for AnyRef<'a> {
    type Error = Error;

    fn try_from(bytes: &'a [u8]) -> Result<AnyRef<'a>> {
        AnyRef::from_der(bytes)
    }
}

impl<'a> From<&'a ObjectIdentifier> for AnyRef<'a> {
    fn from(identifier: &'a ObjectIdentifier) -> AnyRef<'a> {
        AnyRef { tag: ObjectIdentifier::TAG, value: identifier.as_bytes() }
    }
}

impl<'a> From<&'a EcParameters> for AnyRef<'a> {
    fn from(parameters: &'a EcParameters) -> AnyRef<'a> {
        match parameters {
            EcParameters::NamedCurve(identifier) => identifier.into(),
        }
    }
}

impl TryFrom<AnyRef<'_>> for ObjectIdentifier {
    type Error = Error;

    fn try_from(any: AnyRef<'_>) -> Result<ObjectIdentifier> {
        match any.tag {
            ObjectIdentifier::TAG => ObjectIdentifier::from_bytes(any.value),
            _ => Err(Error::of_kind(ErrorKind::Tag)),
        }
    }
}

impl fmt::Debug for AnyRef<'_> {
    fn fmt(&self, f: &mut fmt::Formatter<'_>) -> fmt::Result {
        f.debug_struct("AnyRef").field("tag", &self.tag).finish_non_exhaustive()
    }
}

/// Implements the traits of elements and of contents for a type whose elements are those of an
/// identifier.
macro_rules! as_identifier {
    ($name:ty, $read:expr) => {
        impl FixedTag for $name {
            const TAG: Tag = Tag::ObjectIdentifier;
        }

        impl<'a> DecodeValue<'a> for $name {
            type Error = Error;

            fn decode_value<R: Reader<'a>>(reader: &mut R, header: Header) -> Result<Self> {
                let content = reader.read_slice(header.length())?;
                ObjectIdentifier::from_bytes(content).map($read)
            }

            fn of_element(bytes: &'a [u8]) -> Result<Self> {
                AnyRef::from_der(bytes)?.try_into().map($read)
            }
        }

        impl EncodeValue for $name {
            fn value_len(&self) -> Result<Length> {
                AnyRef::from(self).value_len()
            }

            fn encode_value(&self, writer: &mut impl Writer) -> Result<()> {
                AnyRef::from(self).encode_value(writer)
            }

            fn element_len(&self) -> Result<Length> {
                AnyRef::from(self).element_len()
            }

            fn write_element<'b>(&self, buf: &'b mut [u8]) -> Result<&'b [u8]> {
                AnyRef::from(self).write_element(buf)
            }
        }
    };
}

as_identifier!(ObjectIdentifier, |identifier: ObjectIdentifier| identifier);
as_identifier!(EcParameters, EcParameters::NamedCurve);
