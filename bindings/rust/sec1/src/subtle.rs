//! A choice between two values, with the names of the crate `subtle`. Constant time isn't promised.
//!
//! # Examples
//!
//! ```
//! use sec1::{EncodedPoint, consts::U32, subtle::ConditionallySelectable};
//!
//! let (a, b) = (EncodedPoint::<U32>::identity(), EncodedPoint::from_bytes([4; 65])?);
//! assert_eq!(EncodedPoint::conditional_select(&a, &b, 1.into()), b);
//! # Ok::<(), sec1::Error>(())
//! ```

use core::ops::{BitAnd, BitAndAssign, BitOr, BitOrAssign, BitXor, BitXorAssign, Not};

/// Yes or no, as 1 or 0. The operators of bits combine choices.
///
/// # Examples
///
/// ```
/// use sec1::subtle::Choice;
///
/// assert!(bool::from(Choice::from(1)));
/// assert!(bool::from(!Choice::from(0) & Choice::from(1)));
/// ```
#[derive(Clone, Copy, Debug)]
pub struct Choice(u8);

impl Choice {
    /// Returns 1 or 0.
    ///
    /// # Examples
    ///
    /// ```
    /// use sec1::subtle::Choice;
    ///
    /// assert_eq!(Choice::from(true).unwrap_u8(), 1);
    /// ```
    pub fn unwrap_u8(&self) -> u8 {
        self.0
    }
}

impl From<u8> for Choice {
    /// The choice of the lowest bit.
    fn from(number: u8) -> Choice {
        Choice(number & 1)
    }
}

impl From<bool> for Choice {
    fn from(choice: bool) -> Choice {
        Choice(u8::from(choice))
    }
}

impl From<Choice> for bool {
    fn from(choice: Choice) -> bool {
        choice.0 == 1
    }
}

impl Not for Choice {
    type Output = Choice;

    fn not(self) -> Choice {
        Choice(self.0 ^ 1)
    }
}

macro_rules! operators {
    ($($operator:ident $call:ident $assigning:ident $assign:ident $symbol:tt)*) => {$(
        impl $operator for Choice {
            type Output = Choice;

            fn $call(self, other: Choice) -> Choice {
                Choice(self.0 $symbol other.0)
            }
        }

        impl $assigning for Choice {
            fn $assign(&mut self, other: Choice) {
                *self = *self $symbol other;
            }
        }
    )*};
}

operators! {
    BitAnd bitand BitAndAssign bitand_assign &
    BitOr bitor BitOrAssign bitor_assign |
    BitXor bitxor BitXorAssign bitxor_assign ^
}

/// A value that can be compared with a [`Choice`] as the result.
///
/// # Examples
///
/// ```
/// use sec1::subtle::{Choice, ConstantTimeEq};
///
/// assert!(bool::from(Choice::from(1).ct_eq(&Choice::from(true))));
/// ```
pub trait ConstantTimeEq {
    /// Returns whether the values are equal.
    ///
    /// # Examples
    ///
    /// ```
    /// use sec1::subtle::{Choice, ConstantTimeEq};
    ///
    /// assert_eq!(Choice::from(1).ct_eq(&Choice::from(0)).unwrap_u8(), 0);
    /// ```
    fn ct_eq(&self, other: &Self) -> Choice;

    /// Returns whether the values differ.
    ///
    /// # Examples
    ///
    /// ```
    /// use sec1::subtle::{Choice, ConstantTimeEq};
    ///
    /// assert_eq!(Choice::from(1).ct_ne(&Choice::from(0)).unwrap_u8(), 1);
    /// ```
    fn ct_ne(&self, other: &Self) -> Choice {
        !self.ct_eq(other)
    }
}

impl ConstantTimeEq for Choice {
    fn ct_eq(&self, other: &Choice) -> Choice {
        !(*self ^ *other)
    }
}

/// A value that can be chosen.
///
/// # Examples
///
/// ```
/// use sec1::{EncodedPoint, consts::U1, subtle::ConditionallySelectable};
///
/// let (a, b) = (EncodedPoint::<U1>::identity(), EncodedPoint::from_bytes([2, 8])?);
/// assert_eq!(EncodedPoint::conditional_select(&a, &b, 0.into()), a);
/// # Ok::<(), sec1::Error>(())
/// ```
pub trait ConditionallySelectable: Copy {
    /// Returns `a` if the choice is 0, and `b` if it is 1.
    ///
    /// # Examples
    ///
    /// ```
    /// use sec1::{EncodedPoint, consts::U1, subtle::ConditionallySelectable};
    ///
    /// let (a, b) = (EncodedPoint::<U1>::identity(), EncodedPoint::from_bytes([2, 8])?);
    /// assert_eq!(EncodedPoint::conditional_select(&a, &b, 0.into()), a);
    /// # Ok::<(), sec1::Error>(())
    /// ```
    fn conditional_select(a: &Self, b: &Self, choice: Choice) -> Self;

    /// Replaces the value by another one if the choice is 1.
    ///
    /// # Examples
    ///
    /// ```
    /// use sec1::{EncodedPoint, consts::U1, subtle::ConditionallySelectable};
    ///
    /// let (mut a, b) = (EncodedPoint::<U1>::identity(), EncodedPoint::from_bytes([2, 8])?);
    /// a.conditional_assign(&b, 1.into());
    /// assert_eq!(a, b);
    /// # Ok::<(), sec1::Error>(())
    /// ```
    fn conditional_assign(&mut self, other: &Self, choice: Choice) {
        *self = Self::conditional_select(self, other, choice);
    }

    /// Exchanges two values if the choice is 1.
    ///
    /// # Examples
    ///
    /// ```
    /// use sec1::{EncodedPoint, consts::U1, subtle::ConditionallySelectable};
    ///
    /// let (mut a, mut b) = (EncodedPoint::<U1>::identity(), EncodedPoint::from_bytes([2, 8])?);
    /// EncodedPoint::conditional_swap(&mut a, &mut b, 1.into());
    /// assert_eq!((a.as_bytes(), b.is_identity()), (&[2, 8][..], true));
    /// # Ok::<(), sec1::Error>(())
    /// ```
    fn conditional_swap(a: &mut Self, b: &mut Self, choice: Choice) {
        let before = *a;
        a.conditional_assign(b, choice);
        b.conditional_assign(&before, choice);
    }
}
