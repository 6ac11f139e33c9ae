//! Values that are overwritten with zeros, with the names of the crate `zeroize`.
//!
//! # Examples
//!
//! ```
//! use sec1::zeroize::{Zeroize, Zeroizing};
//!
//! let mut bytes = Zeroizing::new([7_u8; 32]);
//! bytes.zeroize();
//! assert_eq!(*bytes, [0; 32]);
//! ```

use crate::EncodedPoint;
use crate::point::ModulusSize;
use crate::raw;
#[cfg(feature = "alloc")]
use alloc::{string::String, vec::Vec};
use core::fmt;
use core::ops::{Deref, DerefMut};

/// A value that can be overwritten.
///
/// # Examples
///
/// ```
/// use sec1::{EncodedPoint, consts::U1, zeroize::Zeroize};
///
/// fn wipe(secret: &mut impl Zeroize) {
///     secret.zeroize();
/// }
///
/// let mut point = EncodedPoint::<U1>::from_bytes([2, 8])?;
/// wipe(&mut point);
/// assert!(point.is_identity());
/// # Ok::<(), sec1::Error>(())
/// ```
pub trait Zeroize {
    /// Overwrites the value with zeros, even if nobody reads it again.
    ///
    /// # Examples
    ///
    /// ```
    /// use sec1::zeroize::Zeroize;
    ///
    /// let mut bytes = [7, 8];
    /// bytes.zeroize();
    /// assert_eq!(bytes, [0, 0]);
    /// ```
    fn zeroize(&mut self);
}

/// A type whose values are overwritten when they are dropped.
///
/// # Examples
///
/// ```
/// use sec1::zeroize::{ZeroizeOnDrop, Zeroizing};
///
/// fn keep<T: ZeroizeOnDrop>(secret: T) -> T {
///     secret
/// }
///
/// assert_eq!(*keep(Zeroizing::new([7_u8; 2])), [7, 7]);
/// ```
pub trait ZeroizeOnDrop {}

impl<Z: Zeroize> ZeroizeOnDrop for Zeroizing<Z> {}

impl<Z: Zeroize> Zeroize for Zeroizing<Z> {
    fn zeroize(&mut self) {
        self.0.zeroize();
    }
}

#[cfg(feature = "alloc")]
impl ZeroizeOnDrop for crate::der::SecretDocument {}

impl Zeroize for [u8] {
    fn zeroize(&mut self) {
        raw::wipe(self);
    }
}

impl<const N: usize> Zeroize for [u8; N] {
    fn zeroize(&mut self) {
        raw::wipe(self);
    }
}

/// The whole capacity is overwritten, and the vector is empty then.
#[cfg(feature = "alloc")]
impl Zeroize for Vec<u8> {
    fn zeroize(&mut self) {
        // The vector may have held more bytes before than it does now.
        let capacity = self.capacity();
        self.resize(capacity, 0);
        raw::wipe(self);
        self.clear();
    }
}

/// As of a vector.
#[cfg(feature = "alloc")]
impl Zeroize for String {
    fn zeroize(&mut self) {
        core::mem::take(self).into_bytes().zeroize();
    }
}

impl<Size: ModulusSize> Zeroize for EncodedPoint<Size> {
    fn zeroize(&mut self) {
        EncodedPoint::zeroize(self);
    }
}

/// A value that is overwritten when it is dropped. Its `Debug` leaves the value out.
///
/// # Examples
///
/// ```
/// use sec1::zeroize::Zeroizing;
///
/// let bytes = Zeroizing::new([7_u8; 32]);
/// assert_eq!(bytes[..2], [7, 7]);
/// assert_eq!(format!("{bytes:?}"), "Zeroizing { .. }");
/// ```
#[derive(Clone, Default, Eq, PartialEq)]
pub struct Zeroizing<Z: Zeroize>(Z);

impl<Z: Zeroize> Zeroizing<Z> {
    /// Returns the value, to be overwritten when it is dropped.
    ///
    /// # Examples
    ///
    /// ```
    /// use sec1::zeroize::Zeroizing;
    ///
    /// assert_eq!(*Zeroizing::new([7_u8]), [7]);
    /// ```
    pub fn new(value: Z) -> Self {
        Zeroizing(value)
    }
}

impl<Z: Zeroize> From<Z> for Zeroizing<Z> {
    fn from(value: Z) -> Self {
        Zeroizing(value)
    }
}

impl<Z: Zeroize> Deref for Zeroizing<Z> {
    type Target = Z;

    fn deref(&self) -> &Z {
        &self.0
    }
}

impl<Z: Zeroize> DerefMut for Zeroizing<Z> {
    fn deref_mut(&mut self) -> &mut Z {
        &mut self.0
    }
}

impl<Z: Zeroize + AsRef<[u8]>> AsRef<[u8]> for Zeroizing<Z> {
    fn as_ref(&self) -> &[u8] {
        self.0.as_ref()
    }
}

impl<Z: Zeroize> Drop for Zeroizing<Z> {
    fn drop(&mut self) {
        self.0.zeroize();
    }
}

impl<Z: Zeroize> fmt::Debug for Zeroizing<Z> {
    fn fmt(&self, f: &mut fmt::Formatter<'_>) -> fmt::Result {
        f.debug_struct("Zeroizing").finish_non_exhaustive()
    }
}
