//! The traits of other crates, for the package that depends on these: `../traits/Cargo.toml`.

#[cfg(feature = "of-subtle")]
mod of_subtle {
    use crate::EncodedPoint;
    use crate::point::ModulusSize;
    use crate::subtle::{Choice, ConditionallySelectable};

    impl From<subtle::Choice> for Choice {
        fn from(choice: subtle::Choice) -> Choice {
            Choice::from(choice.unwrap_u8())
        }
    }

    impl From<Choice> for subtle::Choice {
        fn from(choice: Choice) -> subtle::Choice {
            subtle::Choice::from(choice.unwrap_u8())
        }
    }

    impl<Size: ModulusSize> subtle::ConditionallySelectable for EncodedPoint<Size> {
        fn conditional_select(a: &Self, b: &Self, choice: subtle::Choice) -> Self {
            ConditionallySelectable::conditional_select(a, b, choice.into())
        }
    }
}

#[cfg(feature = "of-zeroize")]
mod of_zeroize {
    use crate::consts::ArraySize;
    use crate::point::ModulusSize;
    use crate::{Array, EncodedPoint, raw};

    impl<Size: ModulusSize> zeroize::Zeroize for EncodedPoint<Size> {
        fn zeroize(&mut self) {
            EncodedPoint::zeroize(self);
        }
    }

    impl<Size: ArraySize> zeroize::Zeroize for Array<u8, Size> {
        fn zeroize(&mut self) {
            raw::wipe(self);
        }
    }

    #[cfg(feature = "alloc")]
    impl zeroize::ZeroizeOnDrop for crate::der::SecretDocument {}
}

/// A point is its hexadecimal text in formats for readers, and its bytes in all others.
#[cfg(feature = "of-serde")]
mod of_serde {
    use crate::EncodedPoint;
    use crate::point::ModulusSize;
    use core::{fmt, marker::PhantomData};
    use serde::de::{Deserialize, Deserializer, Error, Visitor};
    use serde::ser::{Serialize, Serializer};

    impl<Size: ModulusSize> Serialize for EncodedPoint<Size> {
        fn serialize<S: Serializer>(&self, serializer: S) -> Result<S::Ok, S::Error> {
            match serializer.is_human_readable() {
                true => serializer.collect_str(self),
                false => serializer.serialize_bytes(self.as_bytes()),
            }
        }
    }

    struct Point<Size>(PhantomData<Size>);

    impl<Size: ModulusSize> Visitor<'_> for Point<Size> {
        type Value = EncodedPoint<Size>;

        fn expecting(&self, f: &mut fmt::Formatter<'_>) -> fmt::Result {
            f.write_str("the encoding of a point")
        }

        fn visit_str<E: Error>(self, text: &str) -> Result<Self::Value, E> {
            text.parse().map_err(E::custom)
        }

        fn visit_bytes<E: Error>(self, bytes: &[u8]) -> Result<Self::Value, E> {
            EncodedPoint::from_bytes(bytes).map_err(E::custom)
        }
    }

    impl<'de, Size: ModulusSize> Deserialize<'de> for EncodedPoint<Size> {
        fn deserialize<D: Deserializer<'de>>(deserializer: D) -> Result<Self, D::Error> {
            match deserializer.is_human_readable() {
                true => deserializer.deserialize_str(Point(PhantomData)),
                false => deserializer.deserialize_bytes(Point(PhantomData)),
            }
        }
    }
}
