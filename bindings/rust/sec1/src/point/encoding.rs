//! The encoding of a point, as the library has accepted or written it.

use super::ModulusSize;
use crate::consts::{Array, ArraySize};
use crate::raw::{self, Status};
use crate::{Error, Result};
use core::{fmt, str};

/// Room for an encoding.
type Room<Size> = Array<u8, <Size as ModulusSize>::UncompressedPointSize>;

/// The encoding of a point of any tag.
#[derive(Clone, Copy)]
pub(super) struct Encoding<Size: ModulusSize> {
    // The encoding, followed by zeros.
    bytes: Room<Size>,
    len: u8,
}

impl<Size: ModulusSize> Encoding<Size> {
    /// Reads a point of any tag.
    #[inline]
    pub(super) fn read(input: &[u8]) -> Result<Self> {
        raw::point_check(input, Size::USIZE).map_err(|_| Error::PointEncoding)?;
        let mut bytes = Room::<Size>::default();
        bytes.get_mut(..input.len()).ok_or(Error::PointEncoding)?.copy_from_slice(input);
        Self::of_len(bytes, input.len())
    }

    /// Returns what a function of the library writes.
    #[inline]
    fn written(
        write: impl FnOnce(&mut [u8]) -> core::result::Result<usize, Status>,
    ) -> Result<Self> {
        let mut bytes = Room::<Size>::default();
        let len = write(&mut bytes).map_err(|_| Error::PointEncoding)?;
        Self::of_len(bytes, len)
    }

    /// Returns the encoding that has this length.
    #[inline]
    fn of_len(bytes: Room<Size>, len: usize) -> Result<Self> {
        Ok(Self { bytes, len: u8::try_from(len).map_err(|_| Error::PointEncoding)? })
    }

    /// Returns the point at infinity, which is one byte 0.
    #[inline]
    pub(super) fn identity() -> Self {
        Self { bytes: Room::<Size>::default(), len: 1 }
    }

    /// Returns the uncompressed point with these coordinates, or its compressed form.
    #[inline]
    pub(super) fn from_coordinates(x: &[u8], y: &[u8], compress: bool) -> Result<Self> {
        Self::written(|out| raw::point_from_coordinates(x, y, compress, out))
    }

    /// Reads a hexadecimal text.
    #[inline]
    pub(super) fn from_hex(text: &str) -> Result<Self> {
        Self::written(|out| raw::point_from_hex(text, Size::USIZE, out))
    }

    /// Returns the compressed form of a point with both coordinates, and whether y is odd, which
    /// its tag says (SEC1 v2.0 section 2.3.3). Returns `None` for any other point.
    #[inline]
    pub(super) fn compressed(&self) -> Option<(Self, bool)> {
        let y_is_odd = self.y()?.last()? % 2 == 1;
        let mut bytes = self.bytes;
        let (tag, rest) = bytes.split_first_mut()?;
        *tag = match y_is_odd {
            false => sec1_sys::SEC1_POINT_COMPRESSED_EVEN,
            true => sec1_sys::SEC1_POINT_COMPRESSED_ODD,
        };
        rest.get_mut(Size::USIZE..)?.fill(0);
        let len = u8::try_from(Size::CompressedPointSize::USIZE).ok()?;
        Some((Self { bytes, len }, y_is_odd))
    }

    /// Returns the hybrid form of an uncompressed point, and any other point as it is.
    #[inline]
    pub(super) fn to_hybrid(self) -> Result<Self> {
        Self::written(|out| raw::point_to_hybrid(self.as_bytes(), Size::USIZE, out))
    }

    /// Returns the first byte.
    #[inline]
    pub(super) fn tag(&self) -> u8 {
        self.bytes.first().copied().unwrap_or_default()
    }

    /// Borrows the bytes.
    #[inline]
    pub(super) fn as_bytes(&self) -> &[u8] {
        self.bytes.get(..usize::from(self.len)).unwrap_or_default()
    }

    /// Borrows the x-coordinate, which is after the tag of each point but the identity.
    #[inline]
    pub(super) fn x(&self) -> Option<&Array<u8, Size>> {
        match self.tag() {
            sec1_sys::SEC1_POINT_IDENTITY => None,
            _ => self.after_tag()?.get(..Size::USIZE)?.try_into().ok(),
        }
    }

    /// Borrows the y-coordinate, which is after x in uncompressed and in hybrid points.
    #[inline]
    pub(super) fn y(&self) -> Option<&Array<u8, Size>> {
        match self.tag() {
            sec1_sys::SEC1_POINT_UNCOMPRESSED
            | sec1_sys::SEC1_POINT_HYBRID_EVEN
            | sec1_sys::SEC1_POINT_HYBRID_ODD => {
                self.after_tag()?.get(Size::USIZE..)?.try_into().ok()
            }
            _ => None,
        }
    }

    /// Borrows the room after the tag.
    #[inline]
    fn after_tag(&self) -> Option<&[u8]> {
        self.bytes.get(1..)
    }

    /// Prints the bytes in hexadecimal.
    pub(super) fn write_hex(&self, lower_case: bool, f: &mut fmt::Formatter<'_>) -> fmt::Result {
        let mut text = [0; sec1_sys::SEC1_POINT_TEXT_MAX];
        let len = raw::point_to_hex(self.as_bytes(), Size::USIZE, lower_case, &mut text)
            .map_err(|_| fmt::Error)?;
        // The length counts the byte 0 at the end.
        let digits = text.get(..len).and_then(<[u8]>::split_last).ok_or(fmt::Error)?.1;
        f.write_str(str::from_utf8(digits).map_err(|_| fmt::Error)?)
    }

    /// Overwrites the bytes with zeros.
    pub(super) fn wipe(&mut self) {
        raw::wipe(&mut self.bytes);
    }
}

/// Implements the traits that a type with a field `encoding` has by its bytes.
macro_rules! by_encoding {
    ($name:ident) => {
        impl<Size: ModulusSize> AsRef<[u8]> for $name<Size> {
            #[inline]
            fn as_ref(&self) -> &[u8] {
                self.as_bytes()
            }
        }

        impl<Size: ModulusSize> Eq for $name<Size> {}

        impl<Size: ModulusSize> PartialEq for $name<Size> {
            #[inline]
            fn eq(&self, other: &Self) -> bool {
                self.as_bytes() == other.as_bytes()
            }
        }

        impl<Size: ModulusSize> Hash for $name<Size> {
            #[inline]
            fn hash<H: Hasher>(&self, state: &mut H) {
                self.as_bytes().hash(state);
            }
        }

        impl<Size: ModulusSize> PartialOrd for $name<Size> {
            #[inline]
            fn partial_cmp(&self, other: &Self) -> Option<Ordering> {
                Some(self.cmp(other))
            }
        }

        impl<Size: ModulusSize> Ord for $name<Size> {
            #[inline]
            fn cmp(&self, other: &Self) -> Ordering {
                self.as_bytes().cmp(other.as_bytes())
            }
        }

        impl<Size: ModulusSize> TryFrom<&[u8]> for $name<Size> {
            type Error = Error;

            #[inline]
            fn try_from(bytes: &[u8]) -> Result<Self> {
                Self::from_bytes(bytes)
            }
        }

        impl<Size: ModulusSize> fmt::Display for $name<Size> {
            fn fmt(&self, f: &mut fmt::Formatter<'_>) -> fmt::Result {
                fmt::UpperHex::fmt(self, f)
            }
        }

        impl<Size: ModulusSize> fmt::LowerHex for $name<Size> {
            fn fmt(&self, f: &mut fmt::Formatter<'_>) -> fmt::Result {
                self.encoding.write_hex(true, f)
            }
        }

        impl<Size: ModulusSize> fmt::UpperHex for $name<Size> {
            fn fmt(&self, f: &mut fmt::Formatter<'_>) -> fmt::Result {
                self.encoding.write_hex(false, f)
            }
        }

        /// Reads a point from the hexadecimal text of its encoding, whose letters are all of one
        /// case.
        impl<Size: ModulusSize> FromStr for $name<Size> {
            type Err = Error;

            fn from_str(text: &str) -> Result<Self> {
                Encoding::from_hex(text).and_then(Self::of)
            }
        }
    };
}

pub(super) use by_encoding;
