//! Hybrid points, which `sec1` doesn't have.

use super::encoding::{Encoding, by_encoding};
use super::{EncodedPoint, ModulusSize};
use crate::consts::Array;
use crate::{Error, Result};
#[cfg(feature = "alloc")]
use alloc::boxed::Box;
use core::cmp::Ordering;
use core::fmt::{self, Debug};
use core::hash::{Hash, Hasher};
use core::str::FromStr;

/// A hybrid point (ANSI X9.62): both coordinates after the tag 6 or 7, which says whether y is odd.
///
/// The crate `sec1` refuses these, and so does [`EncodedPoint`], whose tags are those of `sec1`. A
/// program that accepts them uses this type. An encoding whose tag isn't that of its y is refused.
/// It isn't tested that the point lies on a curve.
///
/// # Examples
///
/// ```
/// use sec1::point::HybridPoint;
/// use sec1::{EncodedPoint, Result, consts::U32};
///
/// /// Reads a point in any form.
/// fn read(bytes: &[u8]) -> Result<EncodedPoint<U32>> {
///     EncodedPoint::from_bytes(bytes).or_else(|_| Ok(HybridPoint::from_bytes(bytes)?.into()))
/// }
///
/// let mut bytes = [5; 65];
/// bytes[0] = 7;
/// assert!(EncodedPoint::<U32>::from_bytes(bytes).is_err());
/// assert_eq!(read(&bytes)?.y(), Some(&[5; 32].into()));
/// bytes[0] = 6;
/// assert!(read(&bytes).is_err());
/// # Ok::<(), sec1::Error>(())
/// ```
#[derive(Clone, Copy)]
pub struct HybridPoint<Size: ModulusSize> {
    encoding: Encoding<Size>,
    y_is_odd: bool,
}

impl<Size: ModulusSize> HybridPoint<Size> {
    /// Reads a hybrid point from its encoding, which is all of the bytes.
    ///
    /// # Errors
    ///
    /// [`Error::PointEncoding`] if they aren't the encoding of a hybrid point.
    ///
    /// # Examples
    ///
    /// ```
    /// use sec1::{Error, consts::U2, point::HybridPoint};
    ///
    /// assert!(HybridPoint::<U2>::from_bytes([7, 1, 2, 3, 5])?.y_is_odd());
    /// assert_eq!(HybridPoint::<U2>::from_bytes([4, 1, 2, 3, 5]), Err(Error::PointEncoding));
    /// # Ok::<(), Error>(())
    /// ```
    #[inline]
    pub fn from_bytes(input: impl AsRef<[u8]>) -> Result<Self> {
        Encoding::read(input.as_ref()).and_then(Self::of)
    }

    /// Returns the point of an encoding that has the tag of a hybrid one.
    #[inline]
    pub(super) fn of(encoding: Encoding<Size>) -> Result<Self> {
        match encoding.tag() {
            sec1_sys::SEC1_POINT_HYBRID_EVEN => Ok(HybridPoint { encoding, y_is_odd: false }),
            sec1_sys::SEC1_POINT_HYBRID_ODD => Ok(HybridPoint { encoding, y_is_odd: true }),
            _ => Err(Error::PointEncoding),
        }
    }

    /// Borrows the encoding.
    ///
    /// # Examples
    ///
    /// ```
    /// use sec1::{consts::U1, point::HybridPoint};
    ///
    /// assert_eq!(HybridPoint::<U1>::from_bytes([6, 1, 2])?.as_bytes(), [6, 1, 2]);
    /// # Ok::<(), sec1::Error>(())
    /// ```
    #[inline]
    pub fn as_bytes(&self) -> &[u8] {
        self.encoding.as_bytes()
    }

    /// Returns a copy of the encoding.
    ///
    /// # Examples
    ///
    /// ```
    /// use sec1::{consts::U1, point::HybridPoint};
    ///
    /// assert_eq!(*HybridPoint::<U1>::from_bytes([6, 1, 2])?.to_bytes(), [6, 1, 2]);
    /// # Ok::<(), sec1::Error>(())
    /// ```
    #[cfg(feature = "alloc")]
    #[inline]
    pub fn to_bytes(&self) -> Box<[u8]> {
        self.as_bytes().into()
    }

    /// Returns `true` if the y-coordinate is odd, which the tag says too.
    ///
    /// # Examples
    ///
    /// ```
    /// use sec1::{consts::U1, point::HybridPoint};
    ///
    /// assert!(!HybridPoint::<U1>::from_bytes([6, 1, 2])?.y_is_odd());
    /// # Ok::<(), sec1::Error>(())
    /// ```
    #[inline]
    pub fn y_is_odd(&self) -> bool {
        self.y_is_odd
    }

    /// Borrows the x-coordinate, which each hybrid point has.
    ///
    /// # Examples
    ///
    /// ```
    /// use sec1::{consts::U1, point::HybridPoint};
    ///
    /// assert_eq!(HybridPoint::<U1>::from_bytes([6, 1, 2])?.x(), Some(&[1].into()));
    /// # Ok::<(), sec1::Error>(())
    /// ```
    #[inline]
    pub fn x(&self) -> Option<&Array<u8, Size>> {
        self.encoding.x()
    }

    /// Borrows the y-coordinate, which each hybrid point has.
    ///
    /// # Examples
    ///
    /// ```
    /// use sec1::{consts::U1, point::HybridPoint};
    ///
    /// assert_eq!(HybridPoint::<U1>::from_bytes([6, 1, 2])?.y(), Some(&[2].into()));
    /// # Ok::<(), sec1::Error>(())
    /// ```
    #[inline]
    pub fn y(&self) -> Option<&Array<u8, Size>> {
        self.encoding.y()
    }

    /// Returns the compressed form.
    ///
    /// # Examples
    ///
    /// ```
    /// use sec1::{consts::U1, point::HybridPoint};
    ///
    /// let point = HybridPoint::<U1>::from_bytes([7, 1, 3])?;
    /// assert_eq!(point.compress().as_bytes(), [3, 1]);
    /// # Ok::<(), sec1::Error>(())
    /// ```
    #[inline]
    pub fn compress(&self) -> EncodedPoint<Size> {
        // Not reached: each hybrid point has both coordinates.
        EncodedPoint::of_compressed(&self.encoding).unwrap_or_default()
    }

    /// Returns the uncompressed form.
    ///
    /// # Examples
    ///
    /// ```
    /// use sec1::{consts::U1, point::HybridPoint};
    ///
    /// let point = HybridPoint::<U1>::from_bytes([7, 1, 3])?;
    /// assert_eq!(point.uncompress().as_bytes(), [4, 1, 3]);
    /// # Ok::<(), sec1::Error>(())
    /// ```
    #[inline]
    pub fn uncompress(&self) -> EncodedPoint<Size> {
        match (self.x(), self.y()) {
            (Some(x), Some(y)) => EncodedPoint::from_affine_coordinates(x, y, false),
            // Not reached: each hybrid point has both.
            _ => EncodedPoint::identity(),
        }
    }
}

impl<Size: ModulusSize> From<HybridPoint<Size>> for EncodedPoint<Size> {
    /// Returns the uncompressed form.
    fn from(point: HybridPoint<Size>) -> EncodedPoint<Size> {
        point.uncompress()
    }
}

impl<Size: ModulusSize> Debug for HybridPoint<Size> {
    fn fmt(&self, f: &mut fmt::Formatter<'_>) -> fmt::Result {
        f.debug_struct("HybridPoint").field("x", &self.x()).field("y", &self.y()).finish()
    }
}

by_encoding!(HybridPoint);
