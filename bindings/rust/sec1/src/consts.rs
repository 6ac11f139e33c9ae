//! Sizes as types: those of field elements, of 1 to 66 bytes, and those of points over them.
//!
//! # Examples
//!
//! ```
//! use sec1::{Array, consts::{ArraySize, U32}};
//!
//! let x: Array<u8, U32> = [7; 32].into();
//! assert_eq!(x.len(), U32::USIZE);
//! ```

mod array;

pub use array::{Array, TryFromIteratorError};

use core::array::TryFromSliceError;

mod sealed {
    pub trait Sealed {}
}

/// A size of an array.
///
/// # Examples
///
/// ```
/// use sec1::consts::{ArraySize, U48};
///
/// fn is_long<Size: ArraySize>() -> bool {
///     Size::USIZE > 32
/// }
///
/// assert!(is_long::<U48>());
/// ```
pub trait ArraySize:
    sealed::Sealed + Copy + Default + Eq + Ord + core::hash::Hash + core::fmt::Debug + 'static
{
    /// The size as a number.
    ///
    /// # Examples
    ///
    /// ```
    /// use sec1::consts::{ArraySize, U66};
    ///
    /// assert_eq!(U66::USIZE, 66);
    /// ```
    const USIZE: usize;

    /// Rust's own array of this size.
    type ArrayType<T: Copy>: AsRef<[T]> + AsMut<[T]> + Copy + IntoIterator<Item = T>;

    /// Returns the size as a number.
    ///
    /// # Examples
    ///
    /// ```
    /// use sec1::consts::{ArraySize, U66};
    ///
    /// assert_eq!(U66::to_usize(), 66);
    /// ```
    #[inline]
    fn to_usize() -> usize {
        Self::USIZE
    }

    /// Returns the array that holds what the function returns for each index.
    ///
    /// # Examples
    ///
    /// ```
    /// use sec1::consts::{ArraySize, U3};
    ///
    /// assert_eq!(U3::made_by(|index| index * 2), [0, 2, 4]);
    /// ```
    fn made_by<T: Copy>(element: impl FnMut(usize) -> T) -> Self::ArrayType<T>;

    /// Borrows a slice of this size as an array.
    ///
    /// # Errors
    ///
    /// An error if the slice has another size.
    ///
    /// # Examples
    ///
    /// ```
    /// use sec1::consts::{ArraySize, U2};
    ///
    /// assert_eq!(U2::borrowed(&[1, 2]).ok(), Some(&[1, 2]));
    /// assert!(U2::borrowed(&[1, 2, 3]).is_err());
    /// ```
    fn borrowed<T: Copy>(slice: &[T]) -> Result<&Self::ArrayType<T>, TryFromSliceError>;

    /// Returns the array of what the function returns for each element.
    ///
    /// # Examples
    ///
    /// ```
    /// use sec1::consts::{ArraySize, U2};
    ///
    /// assert_eq!(U2::mapped([1, 2], |number| number * 2), [2, 4]);
    /// ```
    fn mapped<T: Copy, U: Copy>(
        array: Self::ArrayType<T>,
        change: impl FnMut(T) -> U,
    ) -> Self::ArrayType<U>;

    /// Borrows a slice of this size as an array that can be changed.
    ///
    /// # Errors
    ///
    /// An error if the slice has another size.
    ///
    /// # Examples
    ///
    /// ```
    /// use sec1::consts::{ArraySize, U2};
    ///
    /// assert_eq!(U2::borrowed_mut(&mut [1, 2]).ok(), Some(&mut [1, 2]));
    /// assert!(U2::borrowed_mut(&mut [1, 2, 3]).is_err());
    /// ```
    fn borrowed_mut<T: Copy>(slice: &mut [T])
    -> Result<&mut Self::ArrayType<T>, TryFromSliceError>;
}

macro_rules! sizes {
    ($($name:ident $size:literal)*) => {$(
        #[doc = concat!("The size ", stringify!($size), ".")]
        #[derive(Clone, Copy, Debug, Default, Eq, Hash, Ord, PartialEq, PartialOrd)]
        pub struct $name;

        impl sealed::Sealed for $name {}

        impl ArraySize for $name {
            const USIZE: usize = $size;
            type ArrayType<T: Copy> = [T; $size];

            #[inline]
            fn made_by<T: Copy>(element: impl FnMut(usize) -> T) -> [T; $size] {
                core::array::from_fn(element)
            }

            #[inline]
            fn borrowed<T: Copy>(slice: &[T]) -> Result<&[T; $size], TryFromSliceError> {
                slice.try_into()
            }

            #[inline]
            fn mapped<T: Copy, U: Copy>(
                array: [T; $size],
                change: impl FnMut(T) -> U,
            ) -> [U; $size] {
                array.map(change)
            }

            #[inline]
            fn borrowed_mut<T: Copy>(
                slice: &mut [T],
            ) -> Result<&mut [T; $size], TryFromSliceError> {
                slice.try_into()
            }
        }

        impl<T: Copy> From<Array<T, $name>> for [T; $size] {
            #[inline]
            fn from(array: Array<T, $name>) -> [T; $size] {
                array.0
            }
        }
    )*};
}

sizes! {
    U1 1 U2 2 U3 3 U4 4 U5 5 U6 6 U7 7 U8 8
    U9 9 U10 10 U11 11 U12 12 U13 13 U14 14 U15 15 U16 16
    U17 17 U18 18 U19 19 U20 20 U21 21 U22 22 U23 23 U24 24
    U25 25 U26 26 U27 27 U28 28 U29 29 U30 30 U31 31 U32 32
    U33 33 U34 34 U35 35 U36 36 U37 37 U38 38 U39 39 U40 40
    U41 41 U42 42 U43 43 U44 44 U45 45 U46 46 U47 47 U48 48
    U49 49 U50 50 U51 51 U52 52 U53 53 U54 54 U55 55 U56 56
    U57 57 U58 58 U59 59 U60 60 U61 61 U62 62 U63 63 U64 64
    U65 65 U66 66 U67 67 U68 68 U69 69 U70 70 U71 71 U72 72
    U73 73 U74 74 U75 75 U76 76 U77 77 U78 78 U79 79 U80 80
    U81 81 U82 82 U83 83 U84 84 U85 85 U86 86 U87 87 U88 88
    U89 89 U90 90 U91 91 U92 92 U93 93 U94 94 U95 95 U96 96
    U97 97 U98 98 U99 99 U100 100 U101 101 U102 102 U103 103 U104 104
    U105 105 U106 106 U107 107 U108 108 U109 109 U110 110 U111 111 U112 112
    U113 113 U114 114 U115 115 U116 116 U117 117 U118 118 U119 119 U120 120
    U121 121 U122 122 U123 123 U124 124 U125 125 U126 126 U127 127 U128 128
    U129 129 U130 130 U131 131 U132 132 U133 133
}
