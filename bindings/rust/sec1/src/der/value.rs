//! The contents of elements.

use super::reader::Input;
use super::{
    Error, ErrorKind, Header, Length, Reader, Result, SliceReader, SliceWriter, Tag, Writer,
};

/// A type whose elements have one tag.
///
/// # Examples
///
/// ```
/// use sec1::der::{FixedTag, Tag};
/// use sec1::{EcParameters, EcPrivateKey};
///
/// assert_eq!(EcParameters::TAG, Tag::ObjectIdentifier);
/// assert_eq!(EcPrivateKey::TAG, Tag::Sequence);
/// ```
pub trait FixedTag {
    /// The tag.
    const TAG: Tag;
}

/// A value that knows the tag of its element.
///
/// # Examples
///
/// ```
/// use sec1::ALGORITHM_OID;
/// use sec1::der::{Tag, Tagged};
///
/// assert_eq!(ALGORITHM_OID.tag(), Tag::ObjectIdentifier);
/// ```
pub trait Tagged {
    /// Returns the tag.
    ///
    /// # Examples
    ///
    /// ```
    /// use sec1::der::{Tag, Tagged, asn1::AnyRef};
    ///
    /// fn is_sequence(value: &impl Tagged) -> bool {
    ///     value.tag() == Tag::Sequence
    /// }
    ///
    /// assert!(is_sequence(&AnyRef::new(Tag::Sequence, &[])?));
    /// # Ok::<(), sec1::der::Error>(())
    /// ```
    fn tag(&self) -> Tag;
}

impl<T: FixedTag + ?Sized> Tagged for T {
    #[inline]
    fn tag(&self) -> Tag {
        T::TAG
    }
}

/// A value that is read from the content of an element.
///
/// # Examples
///
/// ```
/// use sec1::EcParameters;
/// use sec1::der::{DecodeValue, Header, SliceReader};
///
/// let mut reader = SliceReader::new(&[6, 1, 0x2A])?;
/// let header = Header::decode(&mut reader)?;
/// let parameters = EcParameters::decode_value(&mut reader, header)?;
/// assert_eq!(parameters.named_curve().map(|curve| curve.to_string()).as_deref(), Some("1.2"));
/// # Ok::<(), sec1::der::Error>(())
/// ```
pub trait DecodeValue<'a>: Sized {
    /// The error of a refusal.
    type Error: From<Error> + 'static;

    /// Reads the value from the content after a header, which the reader has just read.
    ///
    /// # Errors
    ///
    /// An error if the bytes aren't the content of such a value.
    ///
    /// # Examples
    ///
    /// ```
    /// use sec1::EcPrivateKey;
    /// use sec1::der::{DecodeValue, Header, SliceReader};
    ///
    /// let mut reader = SliceReader::new(&[0x30, 6, 2, 1, 1, 4, 1, 9])?;
    /// let header = Header::decode(&mut reader)?;
    /// assert_eq!(EcPrivateKey::decode_value(&mut reader, header)?.private_key, [9]);
    /// # Ok::<(), sec1::der::Error>(())
    /// ```
    fn decode_value<R: Reader<'a>>(reader: &mut R, header: Header) -> Result<Self, Self::Error>;

    /// Reads the value from its element, which is all of the bytes. The types whose elements the
    /// library reads have a body of their own.
    #[doc(hidden)]
    fn of_element(bytes: &'a [u8]) -> Result<Self, Self::Error>
    where
        Self: FixedTag,
    {
        let mut reader = SliceReader::new(bytes)?;
        let header = Header::decode(&mut reader)?;
        if header.tag() != Self::TAG {
            return Err(Error::new(ErrorKind::Tag, Length::ZERO).into());
        }
        // The content ends where the value has to, so that a part of it reads nothing behind.
        let mut content = reader.to_content(header.length())?;
        let value = Self::decode_value(&mut content, header)?;
        reader.read_slice(header.length())?;
        content.finish()?;
        reader.finish()?;
        Ok(value)
    }
}

/// A value that is written as the content of an element.
///
/// # Examples
///
/// ```
/// use sec1::der::{EncodeValue, SliceWriter, asn1::ObjectIdentifier};
///
/// let identifier = ObjectIdentifier::new("1.3.132.0.34")?;
/// let mut room = [0; 20];
/// let mut writer = SliceWriter::new(&mut room);
/// identifier.encode_value(&mut writer)?;
/// assert_eq!(writer.finish()?, identifier.as_bytes());
/// # Ok::<(), sec1::der::Error>(())
/// ```
pub trait EncodeValue {
    /// Returns the length of the content.
    ///
    /// # Errors
    ///
    /// An error if the value can't be encoded.
    ///
    /// # Examples
    ///
    /// ```
    /// use sec1::der::{EncodeValue, asn1::ObjectIdentifier};
    ///
    /// assert_eq!(ObjectIdentifier::new("1.2")?.value_len().map(u32::from), Ok(1));
    /// # Ok::<(), sec1::der::Error>(())
    /// ```
    fn value_len(&self) -> Result<Length>;

    /// Writes the content.
    ///
    /// # Errors
    ///
    /// An error if the value can't be encoded, or the writer can't write it.
    ///
    /// # Examples
    ///
    /// ```
    /// use sec1::der::{EncodeValue, ErrorKind, SliceWriter, asn1::ObjectIdentifier};
    ///
    /// let identifier = ObjectIdentifier::new("1.3.132.0.34")?;
    /// let error = identifier.encode_value(&mut SliceWriter::new(&mut [0; 4])).unwrap_err();
    /// assert_eq!(error.kind(), ErrorKind::Buffer);
    /// # Ok::<(), sec1::der::Error>(())
    /// ```
    fn encode_value(&self, writer: &mut impl Writer) -> Result<()>;

    /// Returns the header of the element with this content.
    ///
    /// # Errors
    ///
    /// Those of [`value_len`](Self::value_len) and of [`Header::new`].
    ///
    /// # Examples
    ///
    /// ```
    /// use sec1::ALGORITHM_OID;
    /// use sec1::der::{EncodeValue, Header, Length, Tag};
    ///
    /// let length = Length::try_from(7_usize)?;
    /// assert_eq!(ALGORITHM_OID.header(), Header::new(Tag::ObjectIdentifier, length));
    /// # Ok::<(), sec1::der::Error>(())
    /// ```
    fn header(&self) -> Result<Header>
    where
        Self: Tagged,
    {
        Header::new(self.tag(), self.value_len()?)
    }

    /// Returns the length of the element.
    #[doc(hidden)]
    fn element_len(&self) -> Result<Length>
    where
        Self: Tagged,
    {
        let header = self.header()?;
        header.encoded_len().plus(header.length())
    }

    /// Writes the element at the beginning of a slice, and returns what was written.
    #[doc(hidden)]
    fn write_element<'b>(&self, buf: &'b mut [u8]) -> Result<&'b [u8]>
    where
        Self: Tagged,
    {
        let mut writer = SliceWriter::new(buf);
        self.header()?.encode(&mut writer)?;
        self.encode_value(&mut writer)?;
        writer.finish()
    }
}

/// A value whose element is a SEQUENCE.
///
/// # Examples
///
/// ```
/// use sec1::der::{FixedTag, Sequence, Tag};
///
/// fn tag<'a, T: Sequence<'a>>() -> Tag {
///     T::TAG
/// }
///
/// # #[cfg(feature = "alloc")]
/// assert_eq!(tag::<sec1::EcPrivateKey<'_>>(), Tag::Sequence);
/// ```
pub trait Sequence<'a>: DecodeValue<'a> + EncodeValue {}

impl<'a, T: Sequence<'a>> FixedTag for T {
    const TAG: Tag = Tag::Sequence;
}
