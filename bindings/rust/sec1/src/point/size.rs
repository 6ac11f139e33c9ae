//! The sizes of points over a field.

use crate::consts::*;
use core::ops::{Add, Sub};

/// A length of field elements that the library supports, 1 to 66 bytes, with the sizes of points
/// over such a field.
///
/// # Examples
///
/// ```
/// use sec1::point::{EncodedPoint, ModulusSize};
/// use sec1::{Array, Result, consts::U48};
///
/// fn x_of<Size: ModulusSize>(bytes: &[u8]) -> Result<Option<Array<u8, Size>>> {
///     Ok(EncodedPoint::<Size>::from_bytes(bytes)?.x().copied())
/// }
///
/// assert_eq!(x_of::<U48>(&[2; 49]), Ok(Some([2; 48].into())));
/// ```
pub trait ModulusSize: ArraySize + Add<U1, Output = Self::CompressedPointSize> {
    /// The length of a compressed point.
    type CompressedPointSize: ArraySize + Add<Self, Output = Self::UncompressedPointSize>;

    /// The length of an uncompressed point.
    type UncompressedPointSize: ArraySize;

    /// The length of two coordinates without a tag.
    type UntaggedPointSize: ArraySize + Sub<Self, Output = Self>;
}

/// Implements an operator of two sizes, whose result is a size too.
macro_rules! operators {
    ($operator:ident $call:ident $(($left:ident $right:ident $result:ident))*) => {$(
        impl $operator<$right> for $left {
            type Output = $result;

            fn $call(self, _: $right) -> $result {
                $result
            }
        }
    )*};
}

macro_rules! modulus_sizes {
    ($(($size:ident $compressed:ident $uncompressed:ident $untagged:ident))*) => {
        $(
            impl ModulusSize for $size {
                type CompressedPointSize = $compressed;
                type UncompressedPointSize = $uncompressed;
                type UntaggedPointSize = $untagged;
            }
        )*
        operators! { Add add $(($size U1 $compressed))* }
        operators! { Sub sub $(($untagged $size $size))* }
    };
}

modulus_sizes! {
    (U1 U2 U3 U2) (U2 U3 U5 U4) (U3 U4 U7 U6) (U4 U5 U9 U8)
    (U5 U6 U11 U10) (U6 U7 U13 U12) (U7 U8 U15 U14) (U8 U9 U17 U16)
    (U9 U10 U19 U18) (U10 U11 U21 U20) (U11 U12 U23 U22) (U12 U13 U25 U24)
    (U13 U14 U27 U26) (U14 U15 U29 U28) (U15 U16 U31 U30) (U16 U17 U33 U32)
    (U17 U18 U35 U34) (U18 U19 U37 U36) (U19 U20 U39 U38) (U20 U21 U41 U40)
    (U21 U22 U43 U42) (U22 U23 U45 U44) (U23 U24 U47 U46) (U24 U25 U49 U48)
    (U25 U26 U51 U50) (U26 U27 U53 U52) (U27 U28 U55 U54) (U28 U29 U57 U56)
    (U29 U30 U59 U58) (U30 U31 U61 U60) (U31 U32 U63 U62) (U32 U33 U65 U64)
    (U33 U34 U67 U66) (U34 U35 U69 U68) (U35 U36 U71 U70) (U36 U37 U73 U72)
    (U37 U38 U75 U74) (U38 U39 U77 U76) (U39 U40 U79 U78) (U40 U41 U81 U80)
    (U41 U42 U83 U82) (U42 U43 U85 U84) (U43 U44 U87 U86) (U44 U45 U89 U88)
    (U45 U46 U91 U90) (U46 U47 U93 U92) (U47 U48 U95 U94) (U48 U49 U97 U96)
    (U49 U50 U99 U98) (U50 U51 U101 U100) (U51 U52 U103 U102) (U52 U53 U105 U104)
    (U53 U54 U107 U106) (U54 U55 U109 U108) (U55 U56 U111 U110) (U56 U57 U113 U112)
    (U57 U58 U115 U114) (U58 U59 U117 U116) (U59 U60 U119 U118) (U60 U61 U121 U120)
    (U61 U62 U123 U122) (U62 U63 U125 U124) (U63 U64 U127 U126) (U64 U65 U129 U128)
    (U65 U66 U131 U130) (U66 U67 U133 U132)
}

// Over field elements of one byte, the sum is the one of 2 and 1 above.
operators! { Add add
    (U3 U2 U5) (U4 U3 U7) (U5 U4 U9) (U6 U5 U11) (U7 U6 U13)
    (U8 U7 U15) (U9 U8 U17) (U10 U9 U19) (U11 U10 U21) (U12 U11 U23)
    (U13 U12 U25) (U14 U13 U27) (U15 U14 U29) (U16 U15 U31) (U17 U16 U33)
    (U18 U17 U35) (U19 U18 U37) (U20 U19 U39) (U21 U20 U41) (U22 U21 U43)
    (U23 U22 U45) (U24 U23 U47) (U25 U24 U49) (U26 U25 U51) (U27 U26 U53)
    (U28 U27 U55) (U29 U28 U57) (U30 U29 U59) (U31 U30 U61) (U32 U31 U63)
    (U33 U32 U65) (U34 U33 U67) (U35 U34 U69) (U36 U35 U71) (U37 U36 U73)
    (U38 U37 U75) (U39 U38 U77) (U40 U39 U79) (U41 U40 U81) (U42 U41 U83)
    (U43 U42 U85) (U44 U43 U87) (U45 U44 U89) (U46 U45 U91) (U47 U46 U93)
    (U48 U47 U95) (U49 U48 U97) (U50 U49 U99) (U51 U50 U101) (U52 U51 U103)
    (U53 U52 U105) (U54 U53 U107) (U55 U54 U109) (U56 U55 U111) (U57 U56 U113)
    (U58 U57 U115) (U59 U58 U117) (U60 U59 U119) (U61 U60 U121) (U62 U61 U123)
    (U63 U62 U125) (U64 U63 U127) (U65 U64 U129) (U66 U65 U131) (U67 U66 U133)
}
