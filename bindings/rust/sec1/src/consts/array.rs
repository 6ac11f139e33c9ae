//! Arrays whose size is a type, with the names of the crate `hybrid_array`.

use super::ArraySize;
use crate::raw;
use core::array::TryFromSliceError;
use core::borrow::{Borrow, BorrowMut};
use core::cmp::Ordering;
use core::fmt;
use core::hash::{Hash, Hasher};
use core::ops::{Deref, DerefMut, Index, IndexMut};
use core::slice;

/// An array whose size is a type. It is a slice by `Deref`, so that code over any size has the
/// calls of slices. An index out of range panics, as with slices.
///
/// # Examples
///
/// ```
/// use sec1::point::ModulusSize;
/// use sec1::{Array, EncodedPoint, Result, consts::U32};
///
/// /// Returns the first byte of x and the number of its bytes.
/// fn begins<Size: ModulusSize>(bytes: &[u8]) -> Result<Option<(u8, usize)>> {
///     let point = EncodedPoint::<Size>::from_bytes(bytes)?;
///     Ok(point.x().map(|x| (x[0], x.len())))
/// }
///
/// assert_eq!(begins::<U32>(&[2; 33]), Ok(Some((2, 32))));
///
/// let mut x = Array::<u8, U32>::from([7; 32]);
/// x[..2].copy_from_slice(&[1, 2]);
/// assert_eq!(&x[..3], [1, 2, 7]);
/// assert_eq!(Array::try_from(&x[..]).ok(), Some(x));
/// ```
#[derive(Clone, Copy)]
#[repr(transparent)]
pub struct Array<T: Copy, Size: ArraySize>(
    /// Rust's own array.
    pub Size::ArrayType<T>,
);

impl<T: Copy, Size: ArraySize> Array<T, Size> {
    /// Returns the array that holds what the function returns for each index.
    ///
    /// # Examples
    ///
    /// ```
    /// use sec1::{Array, consts::U3};
    ///
    /// assert_eq!(Array::<usize, U3>::from_fn(|index| index * 2), [0, 2, 4]);
    /// ```
    #[inline]
    pub fn from_fn(element: impl FnMut(usize) -> T) -> Self {
        Array(Size::made_by(element))
    }

    /// Returns the array of what an iterator returns.
    ///
    /// # Errors
    ///
    /// An error if it returns more elements or fewer than the array has.
    ///
    /// # Examples
    ///
    /// ```
    /// use sec1::{Array, consts::U2};
    ///
    /// assert_eq!(Array::<u8, U2>::try_from_iter(7..9), Ok([7, 8].into()));
    /// assert!(Array::<u8, U2>::try_from_iter(7..10).is_err());
    /// assert!(Array::<u8, U2>::try_from_iter(7..8).is_err());
    /// ```
    pub fn try_from_iter(iter: impl IntoIterator<Item = T>) -> Result<Self, TryFromIteratorError> {
        let mut iter = iter.into_iter();
        let first = iter.next().ok_or(TryFromIteratorError)?;
        let mut array = Self::from_fn(|_| first);
        for place in array.iter_mut().skip(1) {
            *place = iter.next().ok_or(TryFromIteratorError)?;
        }
        match iter.next() {
            None => Ok(array),
            Some(_) => Err(TryFromIteratorError),
        }
    }

    /// Returns the array of what the function returns for each element.
    ///
    /// # Examples
    ///
    /// ```
    /// use sec1::{Array, consts::U2};
    ///
    /// assert_eq!(Array::<u8, U2>::from([7, 8]).map(u32::from), [7, 8]);
    /// ```
    pub fn map<U: Copy>(self, change: impl FnMut(T) -> U) -> Array<U, Size> {
        Array(Size::mapped(self.0, change))
    }

    /// Borrows the elements.
    ///
    /// # Examples
    ///
    /// ```
    /// use sec1::{Array, consts::U2};
    ///
    /// assert_eq!(Array::<u8, U2>::from([7, 8]).as_slice(), [7, 8]);
    /// ```
    #[inline]
    pub fn as_slice(&self) -> &[T] {
        self.0.as_ref()
    }

    /// Borrows the elements to be written.
    ///
    /// # Examples
    ///
    /// ```
    /// use sec1::{Array, consts::U2};
    ///
    /// let mut array = Array::<u8, U2>::from([7, 8]);
    /// array.as_mut_slice().reverse();
    /// assert_eq!(array, [8, 7]);
    /// ```
    #[inline]
    pub fn as_mut_slice(&mut self) -> &mut [T] {
        self.0.as_mut()
    }
}

impl<T: Copy, Size: ArraySize> Deref for Array<T, Size> {
    type Target = [T];

    #[inline]
    fn deref(&self) -> &[T] {
        self.as_slice()
    }
}

impl<T: Copy, Size: ArraySize> DerefMut for Array<T, Size> {
    #[inline]
    fn deref_mut(&mut self) -> &mut [T] {
        self.as_mut_slice()
    }
}

impl<T: Copy, Size: ArraySize> AsRef<[T]> for Array<T, Size> {
    #[inline]
    fn as_ref(&self) -> &[T] {
        self.as_slice()
    }
}

impl<T: Copy, Size: ArraySize> AsMut<[T]> for Array<T, Size> {
    #[inline]
    fn as_mut(&mut self) -> &mut [T] {
        self.as_mut_slice()
    }
}

impl<T: Copy, Size: ArraySize> Borrow<[T]> for Array<T, Size> {
    #[inline]
    fn borrow(&self) -> &[T] {
        self.as_slice()
    }
}

impl<T: Copy, Size: ArraySize> BorrowMut<[T]> for Array<T, Size> {
    #[inline]
    fn borrow_mut(&mut self) -> &mut [T] {
        self.as_mut_slice()
    }
}

impl<T: Copy, Size: ArraySize, I> Index<I> for Array<T, Size>
where
    [T]: Index<I>,
{
    type Output = <[T] as Index<I>>::Output;

    #[inline]
    fn index(&self, index: I) -> &Self::Output {
        self.as_slice().index(index)
    }
}

impl<T: Copy, Size: ArraySize, I> IndexMut<I> for Array<T, Size>
where
    [T]: IndexMut<I>,
{
    #[inline]
    fn index_mut(&mut self, index: I) -> &mut Self::Output {
        self.as_mut_slice().index_mut(index)
    }
}

impl<T: Copy, Size, const N: usize> From<[T; N]> for Array<T, Size>
where
    Size: ArraySize<ArrayType<T> = [T; N]>,
{
    #[inline]
    fn from(array: [T; N]) -> Self {
        Array(array)
    }
}

impl<'a, T: Copy, Size, const N: usize> From<&'a [T; N]> for &'a Array<T, Size>
where
    Size: ArraySize<ArrayType<T> = [T; N]>,
{
    #[inline]
    fn from(array: &'a [T; N]) -> Self {
        raw::array(array)
    }
}

impl<T: Copy, Size, const N: usize> AsRef<[T; N]> for Array<T, Size>
where
    Size: ArraySize<ArrayType<T> = [T; N]>,
{
    #[inline]
    fn as_ref(&self) -> &[T; N] {
        &self.0
    }
}

impl<'a, T: Copy, Size: ArraySize> TryFrom<&'a [T]> for &'a Array<T, Size> {
    type Error = TryFromSliceError;

    #[inline]
    fn try_from(slice: &'a [T]) -> Result<Self, TryFromSliceError> {
        Size::borrowed(slice).map(raw::array)
    }
}

impl<T: Copy, Size: ArraySize> TryFrom<&[T]> for Array<T, Size> {
    type Error = TryFromSliceError;

    #[inline]
    fn try_from(slice: &[T]) -> Result<Self, TryFromSliceError> {
        Size::borrowed(slice).copied().map(Array)
    }
}

impl<'a, T: Copy, Size: ArraySize> TryFrom<&'a mut [T]> for &'a mut Array<T, Size> {
    type Error = TryFromSliceError;

    #[inline]
    fn try_from(slice: &'a mut [T]) -> Result<Self, TryFromSliceError> {
        Size::borrowed_mut(slice).map(raw::array_mut)
    }
}

impl<T: Copy + Default, Size: ArraySize> Default for Array<T, Size> {
    #[inline]
    fn default() -> Self {
        Self::from_fn(|_| T::default())
    }
}

impl<T: Copy + fmt::Debug, Size: ArraySize> fmt::Debug for Array<T, Size> {
    fn fmt(&self, f: &mut fmt::Formatter<'_>) -> fmt::Result {
        f.debug_tuple("Array").field(&self.as_slice()).finish()
    }
}

/// Two digits a byte.
impl<Size: ArraySize> fmt::LowerHex for Array<u8, Size> {
    fn fmt(&self, f: &mut fmt::Formatter<'_>) -> fmt::Result {
        self.iter().try_for_each(|byte| write!(f, "{byte:02x}"))
    }
}

/// Two digits a byte.
impl<Size: ArraySize> fmt::UpperHex for Array<u8, Size> {
    fn fmt(&self, f: &mut fmt::Formatter<'_>) -> fmt::Result {
        self.iter().try_for_each(|byte| write!(f, "{byte:02X}"))
    }
}

impl<T: Copy + Eq, Size: ArraySize> Eq for Array<T, Size> {}

impl<T: Copy + PartialEq, Size: ArraySize> PartialEq for Array<T, Size> {
    #[inline]
    fn eq(&self, other: &Self) -> bool {
        self.as_slice() == other.as_slice()
    }
}

impl<T: Copy + PartialEq, Size, const N: usize> PartialEq<[T; N]> for Array<T, Size>
where
    Size: ArraySize<ArrayType<T> = [T; N]>,
{
    #[inline]
    fn eq(&self, other: &[T; N]) -> bool {
        self.as_slice() == other
    }
}

impl<T: Copy + PartialEq, Size, const N: usize> PartialEq<Array<T, Size>> for [T; N]
where
    Size: ArraySize<ArrayType<T> = [T; N]>,
{
    #[inline]
    fn eq(&self, other: &Array<T, Size>) -> bool {
        self == other.as_slice()
    }
}

impl<T: Copy + Ord, Size: ArraySize> Ord for Array<T, Size> {
    #[inline]
    fn cmp(&self, other: &Self) -> Ordering {
        self.as_slice().cmp(other.as_slice())
    }
}

impl<T: Copy + PartialOrd, Size: ArraySize> PartialOrd for Array<T, Size> {
    #[inline]
    fn partial_cmp(&self, other: &Self) -> Option<Ordering> {
        self.as_slice().partial_cmp(other.as_slice())
    }
}

impl<T: Copy + Hash, Size: ArraySize> Hash for Array<T, Size> {
    #[inline]
    fn hash<H: Hasher>(&self, state: &mut H) {
        self.as_slice().hash(state);
    }
}

impl<T: Copy, Size: ArraySize> IntoIterator for Array<T, Size> {
    type Item = T;
    type IntoIter = <Size::ArrayType<T> as IntoIterator>::IntoIter;

    #[inline]
    fn into_iter(self) -> Self::IntoIter {
        self.0.into_iter()
    }
}

impl<'a, T: Copy, Size: ArraySize> IntoIterator for &'a Array<T, Size> {
    type Item = &'a T;
    type IntoIter = slice::Iter<'a, T>;

    #[inline]
    fn into_iter(self) -> slice::Iter<'a, T> {
        self.iter()
    }
}

impl<'a, T: Copy, Size: ArraySize> IntoIterator for &'a mut Array<T, Size> {
    type Item = &'a mut T;
    type IntoIter = slice::IterMut<'a, T>;

    #[inline]
    fn into_iter(self) -> slice::IterMut<'a, T> {
        self.iter_mut()
    }
}

/// An iterator had another number of elements than the array.
///
/// # Examples
///
/// ```
/// use sec1::{Array, consts::U2};
///
/// let error = Array::<u8, U2>::try_from_iter([7]).unwrap_err();
/// assert_eq!(error.to_string(), "the number of elements isn't the size of the array");
/// ```
#[derive(Clone, Copy, Debug, Eq, PartialEq)]
pub struct TryFromIteratorError;

impl core::error::Error for TryFromIteratorError {}

impl fmt::Display for TryFromIteratorError {
    fn fmt(&self, f: &mut fmt::Formatter<'_>) -> fmt::Result {
        f.write_str("the number of elements isn't the size of the array")
    }
}
