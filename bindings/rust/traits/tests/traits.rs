//! The traits of other crates, as a program uses them that has these from elsewhere.

use sec1::consts::U2;
use sec1::der::SecretDocument;
use sec1::{Array, EncodedPoint};
use serde::de::value::{BytesDeserializer, Error, StrDeserializer};
use serde::{Deserialize, Serialize};
use std::fmt;
use subtle::{Choice, ConditionallySelectable};
use zeroize::{Zeroize, ZeroizeOnDrop, Zeroizing};

type Point = EncodedPoint<U2>;

fn points() -> [Point; 2] {
    [Point::from_bytes([2, 8, 9]), Point::from_bytes([4, 1, 2, 3, 0xAB])].map(Result::unwrap)
}

#[test]
fn of_subtle() {
    let [a, b] = points();
    assert_eq!(Point::conditional_select(&a, &b, Choice::from(0)), a);
    assert_eq!(Point::conditional_select(&a, &b, Choice::from(1)), b);
    let (mut first, mut second) = (a, b);
    Point::conditional_swap(&mut first, &mut second, Choice::from(1));
    assert_eq!((first, second), (b, a));
    assert_eq!(Choice::from(sec1::subtle::Choice::from(1)).unwrap_u8(), 1);
    assert_eq!(sec1::subtle::Choice::from(Choice::from(1)).unwrap_u8(), 1);
    assert_eq!(sec1::subtle::Choice::from(Choice::from(0)).unwrap_u8(), 0);
}

#[test]
fn of_zeroize() {
    fn wiped_when_dropped<T: ZeroizeOnDrop>() {}
    wiped_when_dropped::<SecretDocument>();
    let mut point = Zeroizing::new(points()[1]);
    point.zeroize();
    assert_eq!((point.as_bytes(), *point), (&[0][..], Point::identity()));
    let mut array: Array<u8, U2> = [7, 8].into();
    array.zeroize();
    assert_eq!(array, [0, 0]);
}

/// Prints what is serialized: serde has a formatter as a format.
struct Printed(Point);

impl fmt::Display for Printed {
    fn fmt(&self, f: &mut fmt::Formatter<'_>) -> fmt::Result {
        self.0.serialize(f)
    }
}

fn of_text(text: &str) -> Result<Point, Error> {
    Point::deserialize(StrDeserializer::new(text))
}

fn of_bytes(bytes: &[u8]) -> Result<Point, Error> {
    Point::deserialize(BytesDeserializer::new(bytes))
}

#[test]
fn of_serde() {
    for point in points() {
        let text = Printed(point).to_string();
        assert_eq!(text, point.to_string());
        assert_eq!(of_text(&text), Ok(point));
        assert_eq!(of_text(&text.to_lowercase()), Ok(point));
        assert!(of_text(&text[1..]).is_err());
        assert_eq!(of_bytes(point.as_bytes()), Ok(point));
        assert!(of_bytes(&point.as_bytes()[1..]).is_err());
    }
}
