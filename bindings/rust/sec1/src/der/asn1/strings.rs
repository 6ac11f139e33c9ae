//! Octet strings and bit strings, which are borrowed.

use super::super::{
    DecodeValue, EncodeValue, Error, ErrorKind, FixedTag, Header, Length, Reader, Result, Tag,
    Writer,
};
use crate::raw;
use core::fmt;

/// An octet string (X.690 section 8.7), whose content is borrowed. Its `Debug` leaves the content
/// out.
///
/// # Examples
///
/// ```
/// use sec1::der::{Decode, Encode, asn1::OctetStringRef};
///
/// let octets = <&OctetStringRef>::from_der(&[4, 2, 8, 9])?;
/// assert_eq!(octets.as_bytes(), [8, 9]);
/// assert_eq!(OctetStringRef::new(&[8, 9])?.encode_to_slice(&mut [0; 9])?, [4, 2, 8, 9]);
/// # Ok::<(), sec1::der::Error>(())
/// ```
#[derive(Eq, Hash, Ord, PartialEq, PartialOrd)]
#[repr(transparent)]
pub struct OctetStringRef {
    content: [u8],
}

impl OctetStringRef {
    /// Borrows bytes as the content of an octet string.
    ///
    /// # Errors
    ///
    /// [`ErrorKind::Overlength`] if they are more than 268,435,455.
    ///
    /// # Examples
    ///
    /// ```
    /// use sec1::der::asn1::OctetStringRef;
    ///
    /// assert_eq!(OctetStringRef::new(&[8, 9])?.as_bytes(), [8, 9]);
    /// # Ok::<(), sec1::der::Error>(())
    /// ```
    pub fn new(content: &[u8]) -> Result<&Self> {
        Length::of_content(content.len())?;
        Ok(raw::octet_string(content))
    }

    /// Borrows the content.
    ///
    /// # Examples
    ///
    /// ```
    /// use sec1::der::asn1::OctetStringRef;
    ///
    /// assert_eq!(OctetStringRef::new(&[8, 9])?.as_bytes(), [8, 9]);
    /// # Ok::<(), sec1::der::Error>(())
    /// ```
    pub fn as_bytes(&self) -> &[u8] {
        &self.content
    }
}

impl AsRef<[u8]> for OctetStringRef {
    fn as_ref(&self) -> &[u8] {
        self.as_bytes()
    }
}

impl<'a> TryFrom<&'a [u8]> for &'a OctetStringRef {
    type Error = Error;

    fn try_from(content: &'a [u8]) -> Result<Self> {
        OctetStringRef::new(content)
    }
}

impl FixedTag for OctetStringRef {
    const TAG: Tag = Tag::OctetString;
}

impl FixedTag for &OctetStringRef {
    const TAG: Tag = Tag::OctetString;
}

impl<'a> DecodeValue<'a> for &'a OctetStringRef {
    type Error = Error;

    fn decode_value<R: Reader<'a>>(reader: &mut R, header: Header) -> Result<Self> {
        OctetStringRef::new(reader.read_slice(header.length())?)
    }
}

impl EncodeValue for OctetStringRef {
    fn value_len(&self) -> Result<Length> {
        self.content.len().try_into()
    }

    fn encode_value(&self, writer: &mut impl Writer) -> Result<()> {
        writer.write(&self.content)
    }
}

impl EncodeValue for &OctetStringRef {
    fn value_len(&self) -> Result<Length> {
        OctetStringRef::value_len(self)
    }

    fn encode_value(&self, writer: &mut impl Writer) -> Result<()> {
        OctetStringRef::encode_value(self, writer)
    }
}

impl fmt::Debug for OctetStringRef {
    fn fmt(&self, f: &mut fmt::Formatter<'_>) -> fmt::Result {
        f.debug_struct("OctetStringRef").finish_non_exhaustive()
    }
}

/// A bit string (X.690 section 8.6), whose bytes are borrowed. Its `Debug` leaves them out.
///
/// # Examples
///
/// ```
/// use sec1::der::{Decode, Encode, asn1::BitStringRef};
///
/// let bits = BitStringRef::from_der(&[3, 3, 4, 8, 0x90])?;
/// assert_eq!((bits.unused_bits(), bits.raw_bytes()), (4, &[8, 0x90][..]));
/// // Four of the bits of the last byte aren't there.
/// assert_eq!(bits.as_bytes(), None);
/// let whole = BitStringRef::from_bytes(&[8, 9])?;
/// assert_eq!(whole.encode_to_slice(&mut [0; 9])?, [3, 3, 0, 8, 9]);
/// # Ok::<(), sec1::der::Error>(())
/// ```
#[derive(Clone, Copy, Eq, Hash, PartialEq)]
pub struct BitStringRef<'a> {
    unused_bits: u8,
    bytes: &'a [u8],
}

impl<'a> BitStringRef<'a> {
    /// Returns the bit string of these bytes, of whose last one so many bits aren't there.
    ///
    /// # Errors
    ///
    /// [`ErrorKind::Value`] if they are more than 7, or aren't 0 (X.690 section 11.2.1), or there
    /// is no byte for them, and [`ErrorKind::Overlength`] if the bytes are more than 268,435,454.
    ///
    /// # Examples
    ///
    /// ```
    /// use sec1::der::asn1::BitStringRef;
    ///
    /// assert!(BitStringRef::new(4, &[0x90]).is_ok());
    /// assert!(BitStringRef::new(5, &[0x90]).is_err());
    /// ```
    pub fn new(unused_bits: u8, bytes: &'a [u8]) -> Result<Self> {
        let value = Error::of_kind(ErrorKind::Value);
        Length::of_content(bytes.len().saturating_add(1))?;
        let there = match unused_bits {
            0 => true,
            1..8 => bytes.last().is_some_and(|last| last.trailing_zeros() >= unused_bits.into()),
            _ => false,
        };
        there.then_some(BitStringRef { unused_bits, bytes }).ok_or(value)
    }

    /// Returns the bit string of these bytes, all of whose bits are there.
    ///
    /// # Errors
    ///
    /// [`ErrorKind::Overlength`] if they are more than 268,435,454.
    ///
    /// # Examples
    ///
    /// ```
    /// use sec1::der::asn1::BitStringRef;
    ///
    /// assert_eq!(BitStringRef::from_bytes(&[8, 9])?.as_bytes(), Some(&[8, 9][..]));
    /// # Ok::<(), sec1::der::Error>(())
    /// ```
    pub fn from_bytes(bytes: &'a [u8]) -> Result<Self> {
        Self::new(0, bytes)
    }

    /// Returns the number of bits of the last byte that aren't there, at most 7.
    ///
    /// # Examples
    ///
    /// ```
    /// use sec1::der::asn1::BitStringRef;
    ///
    /// assert_eq!(BitStringRef::new(1, &[2])?.unused_bits(), 1);
    /// # Ok::<(), sec1::der::Error>(())
    /// ```
    pub fn unused_bits(&self) -> u8 {
        self.unused_bits
    }

    /// Returns `true` if bits of the last byte aren't there.
    ///
    /// # Examples
    ///
    /// ```
    /// use sec1::der::asn1::BitStringRef;
    ///
    /// assert!(BitStringRef::new(1, &[2])?.has_unused_bits());
    /// # Ok::<(), sec1::der::Error>(())
    /// ```
    pub fn has_unused_bits(&self) -> bool {
        self.unused_bits != 0
    }

    /// Returns the number of bits.
    ///
    /// # Examples
    ///
    /// ```
    /// use sec1::der::asn1::BitStringRef;
    ///
    /// assert_eq!(BitStringRef::new(1, &[9, 2])?.bit_len(), 15);
    /// # Ok::<(), sec1::der::Error>(())
    /// ```
    pub fn bit_len(&self) -> usize {
        self.bytes.len().saturating_mul(8).saturating_sub(self.unused_bits.into())
    }

    /// Returns the number of bytes.
    ///
    /// # Examples
    ///
    /// ```
    /// use sec1::der::asn1::BitStringRef;
    ///
    /// assert_eq!(BitStringRef::new(1, &[9, 2])?.byte_len().map(u32::from), Ok(2));
    /// # Ok::<(), sec1::der::Error>(())
    /// ```
    pub fn byte_len(&self) -> Result<Length> {
        self.bytes.len().try_into()
    }

    /// Returns `true` if there are no bytes.
    ///
    /// # Examples
    ///
    /// ```
    /// use sec1::der::asn1::BitStringRef;
    ///
    /// assert!(BitStringRef::from_bytes(&[])?.is_empty());
    /// # Ok::<(), sec1::der::Error>(())
    /// ```
    pub fn is_empty(&self) -> bool {
        self.bytes.is_empty()
    }

    /// Borrows the bytes, if all of their bits are there.
    ///
    /// # Examples
    ///
    /// ```
    /// use sec1::der::asn1::BitStringRef;
    ///
    /// assert_eq!(BitStringRef::new(1, &[2])?.as_bytes(), None);
    /// # Ok::<(), sec1::der::Error>(())
    /// ```
    pub fn as_bytes(&self) -> Option<&'a [u8]> {
        (self.unused_bits == 0).then_some(self.bytes)
    }

    /// Borrows the bytes.
    ///
    /// # Examples
    ///
    /// ```
    /// use sec1::der::asn1::BitStringRef;
    ///
    /// assert_eq!(BitStringRef::new(1, &[2])?.raw_bytes(), [2]);
    /// # Ok::<(), sec1::der::Error>(())
    /// ```
    pub fn raw_bytes(&self) -> &'a [u8] {
        self.bytes
    }
}

impl FixedTag for BitStringRef<'_> {
    const TAG: Tag = Tag::BitString;
}

impl<'a> DecodeValue<'a> for BitStringRef<'a> {
    type Error = Error;

    fn decode_value<R: Reader<'a>>(reader: &mut R, header: Header) -> Result<Self> {
        let content = reader.read_slice(header.length())?;
        let (unused_bits, bytes) = content.split_first().ok_or(Error::of_kind(ErrorKind::Value))?;
        Self::new(*unused_bits, bytes)
    }
}

impl EncodeValue for BitStringRef<'_> {
    fn value_len(&self) -> Result<Length> {
        self.bytes.len().saturating_add(1).try_into()
    }

    fn encode_value(&self, writer: &mut impl Writer) -> Result<()> {
        writer.write_byte(self.unused_bits)?;
        writer.write(self.bytes)
    }
}

impl fmt::Debug for BitStringRef<'_> {
    fn fmt(&self, f: &mut fmt::Formatter<'_>) -> fmt::Result {
        f.debug_struct("BitStringRef")
            .field("unused_bits", &self.unused_bits)
            .finish_non_exhaustive()
    }
}
