//! The tags and the headers of elements.

use super::{Error, ErrorKind, Length, Reader, Result, Writer};
use crate::raw;
use core::fmt;

/// The tag of an element (X.690 section 8.1.2), which is one byte.
///
/// # Examples
///
/// ```
/// use sec1::der::{FixedTag, Tag, asn1::ObjectIdentifier};
///
/// assert_eq!(ObjectIdentifier::TAG, Tag::ObjectIdentifier);
/// assert_eq!(Tag::try_from(0x30), Ok(Tag::Sequence));
/// assert_eq!(u8::from(Tag::Integer), 2);
/// // This byte begins a tag of several bytes.
/// assert!(Tag::try_from(0x1F).is_err());
/// ```
#[derive(Clone, Copy, Debug, Eq, Hash, Ord, PartialEq, PartialOrd)]
pub struct Tag(u8);

impl Tag {
    /// Returns the tag of an element that the library has accepted.
    pub(super) const fn accepted(byte: u8) -> Tag {
        Tag(byte)
    }

    /// Returns `true` if the content consists of elements (X.690 section 8.1.2.5).
    ///
    /// # Examples
    ///
    /// ```
    /// use sec1::der::Tag;
    ///
    /// assert!(Tag::Sequence.is_constructed() && !Tag::Integer.is_constructed());
    /// ```
    pub const fn is_constructed(self) -> bool {
        self.0 & 0x20 != 0
    }

    /// Returns `true` if the class is universal (X.690 section 8.1.2.2).
    ///
    /// # Examples
    ///
    /// ```
    /// use sec1::der::Tag;
    ///
    /// assert!(Tag::Set.is_universal());
    /// ```
    pub const fn is_universal(self) -> bool {
        self.0 >> 6 == 0
    }

    /// Returns `true` if the class is application.
    ///
    /// # Examples
    ///
    /// ```
    /// use sec1::der::Tag;
    ///
    /// assert!(Tag::try_from(0x41)?.is_application());
    /// # Ok::<(), sec1::der::Error>(())
    /// ```
    pub const fn is_application(self) -> bool {
        self.0 >> 6 == 1
    }

    /// Returns `true` if the class is context-specific.
    ///
    /// # Examples
    ///
    /// ```
    /// use sec1::der::Tag;
    ///
    /// assert!(Tag::try_from(0xA0)?.is_context_specific());
    /// # Ok::<(), sec1::der::Error>(())
    /// ```
    pub const fn is_context_specific(self) -> bool {
        self.0 >> 6 == 2
    }

    /// Returns `true` if the class is private.
    ///
    /// # Examples
    ///
    /// ```
    /// use sec1::der::Tag;
    ///
    /// assert!(Tag::try_from(0xC1)?.is_private());
    /// # Ok::<(), sec1::der::Error>(())
    /// ```
    pub const fn is_private(self) -> bool {
        self.0 >> 6 == 3
    }

    /// Returns the tag if it is this one.
    ///
    /// # Errors
    ///
    /// [`ErrorKind::Tag`] if it is another one.
    ///
    /// # Examples
    ///
    /// ```
    /// use sec1::der::Tag;
    ///
    /// assert!(Tag::Null.assert_eq(Tag::Null).is_ok());
    /// assert!(Tag::Null.assert_eq(Tag::Set).is_err());
    /// ```
    pub fn assert_eq(self, expected: Tag) -> Result<Tag> {
        match self == expected {
            true => Ok(self),
            false => Err(self.unexpected_error(Some(expected)).into()),
        }
    }

    /// Returns the kind of error of a tag that isn't the expected one.
    ///
    /// # Examples
    ///
    /// ```
    /// use sec1::der::{ErrorKind, Tag};
    ///
    /// assert_eq!(Tag::Null.unexpected_error(None), ErrorKind::Tag);
    /// ```
    pub const fn unexpected_error(self, _expected: Option<Tag>) -> ErrorKind {
        ErrorKind::Tag
    }

    /// Returns the kind of error of a length that isn't valid for this tag.
    ///
    /// # Examples
    ///
    /// ```
    /// use sec1::der::{ErrorKind, Tag};
    ///
    /// assert_eq!(Tag::Null.length_error(), ErrorKind::Length);
    /// ```
    pub const fn length_error(self) -> ErrorKind {
        ErrorKind::Length
    }

    /// Returns the kind of error of a content that isn't valid for this tag.
    ///
    /// # Examples
    ///
    /// ```
    /// use sec1::der::{Reader, SliceReader, Tag};
    ///
    /// let error = SliceReader::new(&[2, 1, 0])?.error(Tag::Integer.value_error());
    /// assert_eq!(error.to_string(), "content not valid for its tag at DER byte 0");
    /// # Ok::<(), sec1::der::Error>(())
    /// ```
    pub const fn value_error(self) -> ErrorKind {
        ErrorKind::Value
    }
}

macro_rules! universal_tags {
    ($($name:ident $byte:literal $text:literal)*) => {
        // The names of the crate `der`, where tags are an enum.
        #[allow(non_upper_case_globals)]
        impl Tag {
            $(
                #[doc = concat!($text, ".")]
                pub const $name: Tag = Tag($byte);
            )*

            /// Returns the name of the type with this tag, if it is universal and has one.
            fn name(self) -> Option<&'static str> {
                match self.0 {
                    $($byte => Some($text),)*
                    _ => None,
                }
            }
        }
    };
}

universal_tags! {
    Boolean 0x01 "BOOLEAN"
    Integer 0x02 "INTEGER"
    BitString 0x03 "BIT STRING"
    OctetString 0x04 "OCTET STRING"
    Null 0x05 "NULL"
    ObjectIdentifier 0x06 "OBJECT IDENTIFIER"
    Real 0x09 "REAL"
    Enumerated 0x0A "ENUMERATED"
    Utf8String 0x0C "UTF8String"
    NumericString 0x12 "NumericString"
    PrintableString 0x13 "PrintableString"
    TeletexString 0x14 "TeletexString"
    VideotexString 0x15 "VideotexString"
    Ia5String 0x16 "IA5String"
    UtcTime 0x17 "UTCTime"
    GeneralizedTime 0x18 "GeneralizedTime"
    VisibleString 0x1A "VisibleString"
    GeneralString 0x1B "GeneralString"
    BmpString 0x1E "BMPString"
    Sequence 0x30 "SEQUENCE"
    Set 0x31 "SET"
}

/// The name of a universal type, or the class and the number.
///
/// # Examples
///
/// ```
/// use sec1::der::Tag;
///
/// assert_eq!(Tag::OctetString.to_string(), "OCTET STRING");
/// assert_eq!(Tag::try_from(0xA1)?.to_string(), "CONTEXT-SPECIFIC [1] (constructed)");
/// # Ok::<(), sec1::der::Error>(())
/// ```
impl fmt::Display for Tag {
    fn fmt(&self, f: &mut fmt::Formatter<'_>) -> fmt::Result {
        if let Some(name) = self.name() {
            return f.write_str(name);
        }
        let class = match self.0 >> 6 {
            0 => "UNIVERSAL",
            1 => "APPLICATION",
            2 => "CONTEXT-SPECIFIC",
            _ => "PRIVATE",
        };
        let form = if self.is_constructed() { "constructed" } else { "primitive" };
        write!(f, "{class} [{}] ({form})", self.0 & 0x1F)
    }
}

impl TryFrom<u8> for Tag {
    type Error = Error;

    /// Returns the tag with this byte, or an error of [`ErrorKind::Tag`] if no element has it.
    fn try_from(byte: u8) -> Result<Tag> {
        // Whether the byte is a tag doesn't depend on the content.
        raw::element_len(byte, &[]).map_err(Error::of)?;
        Ok(Tag(byte))
    }
}

impl From<Tag> for u8 {
    fn from(tag: Tag) -> u8 {
        tag.0
    }
}

/// The tag and the length of an element, as they were read.
///
/// # Examples
///
/// ```
/// use sec1::der::{Header, Reader, SliceReader, Tag};
///
/// let mut reader = SliceReader::new(&[4, 2, 9, 8])?;
/// let header = Header::decode(&mut reader)?;
/// assert_eq!((header.tag(), u32::from(header.length())), (Tag::OctetString, 2));
/// assert_eq!(reader.read_slice(header.length())?, [9, 8]);
/// # Ok::<(), sec1::der::Error>(())
/// ```
#[derive(Clone, Copy, Debug, Eq, PartialEq)]
pub struct Header {
    tag: Tag,
    length: Length,
    // The length of the header itself.
    encoded_len: Length,
}

impl Header {
    /// Returns the header of the element with this tag, and with a content of this length.
    ///
    /// # Errors
    ///
    /// [`ErrorKind::Overlength`] if the length is above 268,435,455.
    ///
    /// # Examples
    ///
    /// ```
    /// use sec1::der::{Header, Length, Tag};
    ///
    /// let header = Header::new(Tag::OctetString, Length::ONE)?;
    /// assert_eq!((header.tag(), header.length()), (Tag::OctetString, Length::ONE));
    /// assert!(Header::new(Tag::OctetString, Length::new(1 << 28)).is_err());
    /// # Ok::<(), sec1::der::Error>(())
    /// ```
    pub fn new(tag: Tag, length: Length) -> Result<Header> {
        match length <= Length::MAX {
            true => Ok(Header { tag, length, encoded_len: Length(header_len(length)) }),
            false => Err(Error::of_kind(ErrorKind::Overlength)),
        }
    }

    /// Writes the header: the tag, and the length in the fewest bytes (X.690 section 10.1).
    ///
    /// # Errors
    ///
    /// Those of the writer.
    ///
    /// # Examples
    ///
    /// ```
    /// use sec1::der::{Header, Length, SliceWriter, Tag};
    ///
    /// let mut room = [0; 8];
    /// let mut writer = SliceWriter::new(&mut room);
    /// Header::new(Tag::Sequence, Length::try_from(200_usize)?)?.encode(&mut writer)?;
    /// assert_eq!(writer.finish()?, [0x30, 0x81, 200]);
    /// # Ok::<(), sec1::der::Error>(())
    /// ```
    pub fn encode(self, writer: &mut impl Writer) -> Result<()> {
        let bytes = self.length.0.to_be_bytes();
        let more = usize::try_from(self.encoded_len)?.saturating_sub(2);
        let begin = bytes.len().saturating_sub(more.max(1));
        writer.write_byte(self.tag.0)?;
        if more > 0 {
            // The first byte says how many follow.
            writer.write_byte(0x80 | u8::try_from(more).unwrap_or_default())?;
        }
        writer.write(bytes.get(begin..).unwrap_or_default())
    }

    /// Returns the length of the header itself.
    pub(super) fn encoded_len(self) -> Length {
        self.encoded_len
    }

    /// Reads the header of the next element. The content has to be there too.
    ///
    /// # Errors
    ///
    /// Those of [`Element::read`](super::Element::read). On an error the reader is unchanged.
    ///
    /// # Examples
    ///
    /// ```
    /// use sec1::der::{ErrorKind, Header, Reader, SliceReader};
    ///
    /// let mut reader = SliceReader::new(&[4, 2, 9])?;
    /// assert_eq!(Header::decode(&mut reader).unwrap_err().kind(), ErrorKind::Truncated);
    /// assert_eq!(u32::from(reader.position()), 0);
    /// # Ok::<(), sec1::der::Error>(())
    /// ```
    #[inline]
    pub fn decode<'r, R: Reader<'r>>(reader: &mut R) -> Result<Header> {
        let rest = unread(reader)?;
        let (header_len, content_len) = raw::element_read(rest).map_err(Error::of)?;
        let (encoded_len, length) = (header_len.try_into()?, content_len.try_into()?);
        let tag = *rest.first().ok_or(Error::of_kind(ErrorKind::Failed))?;
        reader.read_slice(encoded_len)?;
        Ok(Header { tag: Tag::accepted(tag), length, encoded_len })
    }

    /// Returns the tag.
    ///
    /// # Examples
    ///
    /// ```
    /// use sec1::der::{Header, SliceReader, Tag};
    ///
    /// let header = Header::decode(&mut SliceReader::new(&[2, 1, 9])?)?;
    /// assert_eq!(header.tag(), Tag::Integer);
    /// # Ok::<(), sec1::der::Error>(())
    /// ```
    pub fn tag(self) -> Tag {
        self.tag
    }

    /// Returns the length of the content.
    ///
    /// # Examples
    ///
    /// ```
    /// use sec1::der::{Header, SliceReader};
    ///
    /// let header = Header::decode(&mut SliceReader::new(&[2, 1, 9])?)?;
    /// assert_eq!(u32::from(header.length()), 1);
    /// # Ok::<(), sec1::der::Error>(())
    /// ```
    pub fn length(self) -> Length {
        self.length
    }

    /// Reads the content after this header, which the reader has just read, and borrows both.
    ///
    /// # Errors
    ///
    /// [`ErrorKind::Failed`] if the reader has read fewer bytes than the header has, and
    /// [`ErrorKind::Truncated`] if the content isn't there.
    #[inline]
    pub(crate) fn element<'r, R: Reader<'r>>(self, reader: &mut R) -> Result<&'r [u8]> {
        let failed = Error::of_kind(ErrorKind::Failed);
        let end = usize::try_from(reader.position())?;
        let start = end.checked_sub(self.encoded_len.try_into()?).ok_or(failed)?;
        reader.read_slice(self.length)?;
        reader.input().get(start..reader.position().try_into()?).ok_or(failed)
    }
}

/// Returns the length of the header before a content of this length (X.690 section 8.1.3): a tag
/// byte, and one byte below 128, otherwise one that says how many follow.
fn header_len(content_len: Length) -> u32 {
    match content_len.0 {
        ..0x80 => 2,
        0x80..0x100 => 3,
        0x100..0x1_0000 => 4,
        0x1_0000..0x100_0000 => 5,
        0x100_0000.. => 6,
    }
}

/// Returns the length of the content of an element of this length.
#[cfg(feature = "alloc")]
pub(crate) fn content_len_of(element_len: Length) -> Result<Length> {
    let content_len = |header: u32| element_len.0.checked_sub(header).map(Length);
    (2..=6)
        .find_map(|header| content_len(header).filter(|len| header_len(*len) == header))
        .ok_or(Error::of_kind(ErrorKind::Failed))
}

/// Borrows the bytes that haven't been read.
fn unread<'r, R: Reader<'r>>(reader: &R) -> Result<&'r [u8]> {
    let start = usize::try_from(reader.position())?;
    reader.input().get(start..).ok_or(Error::of_kind(ErrorKind::Failed))
}
