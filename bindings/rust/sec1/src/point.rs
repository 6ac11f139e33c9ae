//! Points of elliptic curves in their encodings (SEC1 v2.0 section 2.3.3).

mod encoding;
mod hybrid;
mod size;
mod tag;

pub use hybrid::HybridPoint;
pub use size::ModulusSize;
pub use tag::Tag;

use crate::consts::Array;
use crate::subtle::{Choice, ConditionallySelectable};
use crate::{Error, Result};
#[cfg(feature = "alloc")]
use alloc::boxed::Box;
use core::cmp::Ordering;
use core::fmt::{self, Debug};
use core::hash::{Hash, Hasher};
use core::str::FromStr;
use encoding::{Encoding, by_encoding};

/// A point in its encoding. It isn't tested that it lies on a curve.
///
/// Points are ordered by tag, then by coordinates as whole numbers.
///
/// # Examples
///
/// ```
/// use sec1::point::{Coordinates, EncodedPoint, Tag};
/// use sec1::consts::U32;
///
/// let (x, y) = ([1; 32].into(), [2; 32].into());
/// let point = EncodedPoint::<U32>::from_affine_coordinates(&x, &y, false);
/// assert_eq!(point.tag(), Tag::Uncompressed);
/// assert_eq!(point.len(), 65);
///
/// let compressed = point.compress();
/// assert_eq!(compressed.as_bytes(), [&[2][..], &[1; 32]].concat());
/// assert_eq!(compressed.y(), None);
/// assert_eq!(compressed.to_string().parse(), Ok(compressed));
/// assert!(compressed < point);
/// ```
#[derive(Clone, Copy)]
pub struct EncodedPoint<Size: ModulusSize> {
    encoding: Encoding<Size>,
    tag: Tag,
}

#[allow(clippy::len_without_is_empty)]
impl<Size: ModulusSize> EncodedPoint<Size> {
    /// Reads a point from its encoding, which is all of the bytes.
    ///
    /// # Errors
    ///
    /// [`Error::PointEncoding`] if they aren't the encoding of a point, or that of a hybrid point,
    /// which [`HybridPoint`] reads.
    ///
    /// # Examples
    ///
    /// ```
    /// use sec1::{EncodedPoint, Error, consts::U32};
    ///
    /// assert!(EncodedPoint::<U32>::from_bytes([3; 33])?.is_compressed());
    /// assert_eq!(EncodedPoint::<U32>::from_bytes([3; 34]), Err(Error::PointEncoding));
    /// # Ok::<(), Error>(())
    /// ```
    #[inline]
    pub fn from_bytes(input: impl AsRef<[u8]>) -> Result<Self> {
        Encoding::read(input.as_ref()).and_then(Self::of)
    }

    /// Returns the point of an encoding that doesn't have the tag of a hybrid point.
    #[inline]
    fn of(encoding: Encoding<Size>) -> Result<Self> {
        Ok(Self { encoding, tag: Tag::of_number(encoding.tag())? })
    }

    /// Returns the uncompressed point with these coordinates, x and then y.
    ///
    /// # Examples
    ///
    /// ```
    /// use sec1::{EncodedPoint, consts::U1};
    ///
    /// let point = EncodedPoint::<U1>::from_untagged_bytes(&[8, 9].into());
    /// assert_eq!(point.as_bytes(), [4, 8, 9]);
    /// ```
    #[inline]
    pub fn from_untagged_bytes(bytes: &Array<u8, Size::UntaggedPointSize>) -> Self {
        let (x, y) = bytes.split_at_checked(Size::USIZE).unwrap_or_default();
        Self::of_coordinates(x, y, false)
    }

    /// Returns the uncompressed point with these coordinates, or its compressed form.
    ///
    /// # Examples
    ///
    /// ```
    /// use sec1::{EncodedPoint, consts::U1};
    ///
    /// let (x, y) = ([8].into(), [9].into());
    /// let point = EncodedPoint::<U1>::from_affine_coordinates(&x, &y, false);
    /// assert_eq!(point.as_bytes(), [4, 8, 9]);
    /// let point = EncodedPoint::<U1>::from_affine_coordinates(&x, &y, true);
    /// assert_eq!(point.as_bytes(), [3, 8]);
    /// ```
    #[inline]
    pub fn from_affine_coordinates(
        x: &Array<u8, Size>,
        y: &Array<u8, Size>,
        compress: bool,
    ) -> Self {
        Self::of_coordinates(x, y, compress)
    }

    /// Returns the point that the library makes of these coordinates.
    #[inline]
    fn of_coordinates(x: &[u8], y: &[u8], compress: bool) -> Self {
        // The identity isn't reached: by the types the coordinates have the length of the field.
        Encoding::from_coordinates(x, y, compress).and_then(Self::of).unwrap_or_default()
    }

    /// Returns the point at infinity.
    ///
    /// # Examples
    ///
    /// ```
    /// use sec1::{EncodedPoint, consts::U32};
    ///
    /// assert_eq!(EncodedPoint::<U32>::identity().as_bytes(), [0]);
    /// ```
    #[inline]
    pub fn identity() -> Self {
        Self { encoding: Encoding::identity(), tag: Tag::Identity }
    }

    /// Returns the length of the encoding.
    ///
    /// # Examples
    ///
    /// ```
    /// use sec1::{EncodedPoint, consts::U32};
    ///
    /// assert_eq!(EncodedPoint::<U32>::from_bytes([2; 33])?.len(), 33);
    /// # Ok::<(), sec1::Error>(())
    /// ```
    #[inline]
    pub fn len(&self) -> usize {
        self.as_bytes().len()
    }

    /// Borrows the encoding.
    ///
    /// # Examples
    ///
    /// ```
    /// use sec1::{EncodedPoint, consts::U32};
    ///
    /// assert_eq!(EncodedPoint::<U32>::from_bytes([2; 33])?.as_bytes(), [2; 33]);
    /// # Ok::<(), sec1::Error>(())
    /// ```
    #[inline]
    pub fn as_bytes(&self) -> &[u8] {
        self.encoding.as_bytes()
    }

    /// Returns a copy of the encoding.
    ///
    /// # Examples
    ///
    /// ```
    /// use sec1::{EncodedPoint, consts::U32};
    ///
    /// assert_eq!(*EncodedPoint::<U32>::from_bytes([2; 33])?.to_bytes(), [2; 33]);
    /// # Ok::<(), sec1::Error>(())
    /// ```
    #[cfg(feature = "alloc")]
    pub fn to_bytes(&self) -> Box<[u8]> {
        self.as_bytes().into()
    }

    /// Returns `true` if the point is compact.
    ///
    /// # Examples
    ///
    /// ```
    /// use sec1::{EncodedPoint, consts::U32};
    ///
    /// assert!(EncodedPoint::<U32>::from_bytes([5; 33])?.is_compact());
    /// # Ok::<(), sec1::Error>(())
    /// ```
    #[inline]
    pub fn is_compact(&self) -> bool {
        self.tag.is_compact()
    }

    /// Returns `true` if the point is compressed.
    ///
    /// # Examples
    ///
    /// ```
    /// use sec1::{EncodedPoint, consts::U32};
    ///
    /// assert!(EncodedPoint::<U32>::from_bytes([2; 33])?.is_compressed());
    /// assert!(!EncodedPoint::<U32>::from_bytes([5; 33])?.is_compressed());
    /// # Ok::<(), sec1::Error>(())
    /// ```
    #[inline]
    pub fn is_compressed(&self) -> bool {
        self.tag.is_compressed()
    }

    /// Returns `true` if the point is the one at infinity.
    ///
    /// # Examples
    ///
    /// ```
    /// use sec1::{EncodedPoint, consts::U32};
    ///
    /// assert!(EncodedPoint::<U32>::from_bytes([0])?.is_identity());
    /// # Ok::<(), sec1::Error>(())
    /// ```
    #[inline]
    pub fn is_identity(&self) -> bool {
        self.tag.is_identity()
    }

    /// Returns the compressed form of an uncompressed point, and any other point as it is.
    ///
    /// # Examples
    ///
    /// ```
    /// use sec1::{EncodedPoint, consts::U1};
    ///
    /// let point = EncodedPoint::<U1>::from_bytes([4, 8, 9])?.compress();
    /// assert_eq!(point.as_bytes(), [3, 8]);
    /// assert_eq!(point.compress(), point);
    /// # Ok::<(), sec1::Error>(())
    /// ```
    #[inline]
    pub fn compress(&self) -> Self {
        Self::of_compressed(&self.encoding).unwrap_or(*self)
    }

    /// Returns the compressed form of a point with both coordinates.
    #[inline]
    fn of_compressed(encoding: &Encoding<Size>) -> Option<Self> {
        let (encoding, y_is_odd) = encoding.compressed()?;
        let tag = if y_is_odd { Tag::CompressedOddY } else { Tag::CompressedEvenY };
        Some(Self { encoding, tag })
    }

    /// Returns the hybrid form of an uncompressed point, and `None` for any other.
    ///
    /// The crate `sec1` has no such call.
    ///
    /// # Examples
    ///
    /// ```
    /// use sec1::{EncodedPoint, consts::U1};
    ///
    /// let point = EncodedPoint::<U1>::from_bytes([4, 8, 9])?;
    /// assert_eq!(point.to_hybrid().map(|p| p.to_string()).as_deref(), Some("070809"));
    /// assert_eq!(point.compress().to_hybrid(), None);
    /// # Ok::<(), sec1::Error>(())
    /// ```
    #[inline]
    pub fn to_hybrid(&self) -> Option<HybridPoint<Size>> {
        self.encoding.to_hybrid().and_then(HybridPoint::of).ok()
    }

    /// Returns the tag.
    ///
    /// # Examples
    ///
    /// ```
    /// use sec1::{EncodedPoint, consts::U32, point::Tag};
    ///
    /// assert_eq!(EncodedPoint::<U32>::from_bytes([3; 33])?.tag(), Tag::CompressedOddY);
    /// # Ok::<(), sec1::Error>(())
    /// ```
    #[inline]
    pub fn tag(&self) -> Tag {
        self.tag
    }

    /// Borrows the coordinates.
    ///
    /// # Examples
    ///
    /// ```
    /// use sec1::{EncodedPoint, consts::U1, point::Coordinates};
    ///
    /// let point = EncodedPoint::<U1>::from_bytes([4, 8, 9])?;
    /// let (x, y) = (&[8].into(), &[9].into());
    /// assert_eq!(point.coordinates(), Coordinates::Uncompressed { x, y });
    /// # Ok::<(), sec1::Error>(())
    /// ```
    #[inline]
    pub fn coordinates(&self) -> Coordinates<'_, Size> {
        let Some(x) = self.encoding.x() else { return Coordinates::Identity };
        match (self.tag, self.encoding.y()) {
            (_, Some(y)) => Coordinates::Uncompressed { x, y },
            (Tag::Compact, None) => Coordinates::Compact { x },
            (tag, None) => Coordinates::Compressed { x, y_is_odd: tag == Tag::CompressedOddY },
        }
    }

    /// Borrows the x-coordinate; `None` for the point at infinity.
    ///
    /// # Examples
    ///
    /// ```
    /// use sec1::{EncodedPoint, consts::U1};
    ///
    /// assert_eq!(EncodedPoint::<U1>::from_bytes([2, 8])?.x(), Some(&[8].into()));
    /// # Ok::<(), sec1::Error>(())
    /// ```
    #[inline]
    pub fn x(&self) -> Option<&Array<u8, Size>> {
        self.encoding.x()
    }

    /// Borrows the y-coordinate; `None` unless the point is uncompressed.
    ///
    /// # Examples
    ///
    /// ```
    /// use sec1::{EncodedPoint, consts::U1};
    ///
    /// assert_eq!(EncodedPoint::<U1>::from_bytes([4, 8, 9])?.y(), Some(&[9].into()));
    /// assert_eq!(EncodedPoint::<U1>::from_bytes([2, 8])?.y(), None);
    /// # Ok::<(), sec1::Error>(())
    /// ```
    #[inline]
    pub fn y(&self) -> Option<&Array<u8, Size>> {
        self.encoding.y()
    }

    /// Turns this into the point at infinity, and overwrites its bytes with zeros.
    ///
    /// # Examples
    ///
    /// ```
    /// use sec1::{EncodedPoint, consts::U32};
    ///
    /// let mut point = EncodedPoint::<U32>::from_bytes([2; 33])?;
    /// point.zeroize();
    /// assert!(point.is_identity());
    /// # Ok::<(), sec1::Error>(())
    /// ```
    pub fn zeroize(&mut self) {
        self.encoding.wipe();
        *self = Self::identity();
    }
}

by_encoding!(EncodedPoint);

impl<Size: ModulusSize> Default for EncodedPoint<Size> {
    fn default() -> Self {
        Self::identity()
    }
}

impl<Size: ModulusSize> Debug for EncodedPoint<Size> {
    fn fmt(&self, f: &mut fmt::Formatter<'_>) -> fmt::Result {
        write!(f, "EncodedPoint({:?})", self.coordinates())
    }
}

impl<Size: ModulusSize> ConditionallySelectable for EncodedPoint<Size> {
    fn conditional_select(a: &Self, b: &Self, choice: Choice) -> Self {
        if bool::from(choice) { *b } else { *a }
    }
}

/// The coordinates of a point, borrowed from its encoding.
///
/// # Examples
///
/// ```
/// use sec1::point::{Coordinates, EncodedPoint, Tag};
/// use sec1::consts::U32;
///
/// let point = EncodedPoint::<U32>::from_bytes([3; 33])?;
/// let coordinates = point.coordinates();
/// assert_eq!(coordinates, Coordinates::Compressed { x: &[3; 32].into(), y_is_odd: true });
/// assert_eq!(coordinates.tag(), Tag::CompressedOddY);
/// # Ok::<(), sec1::Error>(())
/// ```
#[derive(Clone, Copy, Debug, Eq, PartialEq)]
pub enum Coordinates<'a, Size: ModulusSize> {
    /// The point at infinity.
    Identity,

    /// A compact point.
    Compact {
        /// The x-coordinate.
        x: &'a Array<u8, Size>,
    },

    /// A compressed point.
    Compressed {
        /// The x-coordinate.
        x: &'a Array<u8, Size>,

        /// Whether the y-coordinate is odd.
        y_is_odd: bool,
    },

    /// An uncompressed point.
    Uncompressed {
        /// The x-coordinate.
        x: &'a Array<u8, Size>,

        /// The y-coordinate.
        y: &'a Array<u8, Size>,
    },
}

impl<Size: ModulusSize> Coordinates<'_, Size> {
    /// Returns the tag of the point with these coordinates.
    ///
    /// # Examples
    ///
    /// ```
    /// use sec1::{consts::U1, point::{Coordinates, Tag}};
    ///
    /// let x = [8].into();
    /// let coordinates: Coordinates<'_, U1> = Coordinates::Compressed { x: &x, y_is_odd: true };
    /// assert_eq!(coordinates.tag(), Tag::CompressedOddY);
    /// ```
    #[inline]
    pub fn tag(&self) -> Tag {
        match self {
            Coordinates::Identity => Tag::Identity,
            Coordinates::Compact { .. } => Tag::Compact,
            Coordinates::Compressed { y_is_odd: false, .. } => Tag::CompressedEvenY,
            Coordinates::Compressed { y_is_odd: true, .. } => Tag::CompressedOddY,
            Coordinates::Uncompressed { .. } => Tag::Uncompressed,
        }
    }
}
