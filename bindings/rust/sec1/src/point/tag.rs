//! The first byte of a point's encoding.

use crate::{Error, Result, raw};

/// The first byte of a point's encoding.
///
/// # Examples
///
/// ```
/// use sec1::point::Tag;
///
/// assert_eq!(Tag::from_u8(4), Ok(Tag::Uncompressed));
/// assert_eq!(Tag::Uncompressed.message_len(32), 65);
/// assert!(Tag::from_u8(1).is_err());
/// ```
#[derive(Clone, Copy, Debug, Eq, PartialEq)]
#[repr(u8)]
pub enum Tag {
    /// The point at infinity.
    Identity = sec1_sys::SEC1_POINT_IDENTITY,

    /// A compressed point whose y-coordinate is even.
    CompressedEvenY = sec1_sys::SEC1_POINT_COMPRESSED_EVEN,

    /// A compressed point whose y-coordinate is odd.
    CompressedOddY = sec1_sys::SEC1_POINT_COMPRESSED_ODD,

    /// An uncompressed point.
    Uncompressed = sec1_sys::SEC1_POINT_UNCOMPRESSED,

    /// A compact point.
    Compact = sec1_sys::SEC1_POINT_COMPACT,
}

impl Tag {
    /// Returns the tag with this byte.
    ///
    /// # Errors
    ///
    /// [`Error::PointEncoding`] if no tag has this byte. That includes 6 and 7, the tags of hybrid
    /// points, as in the crate `sec1`: [`HybridPoint`](super::HybridPoint) reads these.
    ///
    /// # Examples
    ///
    /// ```
    /// use sec1::{Error, point::Tag};
    ///
    /// assert_eq!(Tag::from_u8(3), Ok(Tag::CompressedOddY));
    /// assert_eq!(Tag::from_u8(6), Err(Error::PointEncoding));
    /// ```
    #[inline]
    pub fn from_u8(byte: u8) -> Result<Self> {
        // Whether the byte is a tag doesn't depend on the length of field elements.
        raw::point_len(byte, 1).map_err(|_| Error::PointEncoding)?;
        Self::of_number(byte)
    }

    /// Returns the name of a tag that the library has accepted, if `sec1` has one for it.
    #[inline]
    pub(super) fn of_number(number: u8) -> Result<Self> {
        match number {
            sec1_sys::SEC1_POINT_IDENTITY => Ok(Tag::Identity),
            sec1_sys::SEC1_POINT_COMPRESSED_EVEN => Ok(Tag::CompressedEvenY),
            sec1_sys::SEC1_POINT_COMPRESSED_ODD => Ok(Tag::CompressedOddY),
            sec1_sys::SEC1_POINT_UNCOMPRESSED => Ok(Tag::Uncompressed),
            sec1_sys::SEC1_POINT_COMPACT => Ok(Tag::Compact),
            _ => Err(Error::PointEncoding),
        }
    }

    /// Returns `true` if this is the tag of compact points.
    ///
    /// # Examples
    ///
    /// ```
    /// use sec1::point::Tag;
    ///
    /// assert!(Tag::Compact.is_compact());
    /// ```
    #[inline]
    pub fn is_compact(self) -> bool {
        self == Tag::Compact
    }

    /// Returns `true` if this is a tag of compressed points.
    ///
    /// # Examples
    ///
    /// ```
    /// use sec1::point::Tag;
    ///
    /// assert!(Tag::CompressedEvenY.is_compressed());
    /// assert!(!Tag::Compact.is_compressed());
    /// ```
    #[inline]
    pub fn is_compressed(self) -> bool {
        matches!(self, Tag::CompressedEvenY | Tag::CompressedOddY)
    }

    /// Returns `true` if this is the tag of the point at infinity.
    ///
    /// # Examples
    ///
    /// ```
    /// use sec1::point::Tag;
    ///
    /// assert!(Tag::Identity.is_identity());
    /// ```
    #[inline]
    pub fn is_identity(self) -> bool {
        self == Tag::Identity
    }

    /// Returns the length of an encoding with this tag over a field whose elements have this
    /// length, at most `usize::MAX`.
    ///
    /// # Examples
    ///
    /// ```
    /// use sec1::point::Tag;
    ///
    /// assert_eq!(Tag::Uncompressed.message_len(48), 97);
    /// assert_eq!(Tag::Identity.message_len(48), 1);
    /// ```
    #[inline]
    pub fn message_len(self, field_element_size: usize) -> usize {
        let tag = self.into();
        raw::point_len(tag, field_element_size).unwrap_or_else(|_| {
            // Elements of a length that the library doesn't support: the same number of them.
            let coordinates = raw::point_len(tag, 1).map_or(0, |len| len.saturating_sub(1));
            field_element_size.saturating_mul(coordinates).saturating_add(1)
        })
    }
}

impl TryFrom<u8> for Tag {
    type Error = Error;

    fn try_from(byte: u8) -> Result<Self> {
        Self::from_u8(byte)
    }
}

impl From<Tag> for u8 {
    fn from(tag: Tag) -> u8 {
        tag as u8
    }
}
