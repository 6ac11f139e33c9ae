//! Random inputs, read and written by this crate and by plain Rust.
#![cfg(feature = "std")]
#![allow(
    clippy::eq_op,
    clippy::unwrap_used,
    clippy::indexing_slicing,
    clippy::arithmetic_side_effects,
    clippy::panic
)]

#[path = "support/plain.rs"]
mod plain;
#[path = "support/mod.rs"]
mod support;

use plain::Error as P;
use sec1::consts::{U1, U20, U28, U32, U48, U66};
use sec1::der::asn1::ObjectIdentifier;
use sec1::der::{Encode, ErrorKind, SecretDocument};
use sec1::point::{Coordinates, HybridPoint, ModulusSize, Tag};
use sec1::{ALGORITHM_OID, Array, EcParameters, EcPrivateKey, EncodedPoint, Error};
use std::collections::hash_map::DefaultHasher;
use std::hash::{Hash, Hasher};

/// A source of numbers that are the same in each run.
struct Draw(u64);

impl Draw {
    fn next(&mut self) -> u64 {
        self.0 ^= self.0 << 13;
        self.0 ^= self.0 >> 7;
        self.0 ^= self.0 << 17;
        self.0.wrapping_mul(0x2545_F491_4F6C_DD1D) >> 11
    }

    fn below(&mut self, n: usize) -> usize {
        (self.next() % n as u64) as usize
    }

    fn bytes(&mut self, len: usize) -> Vec<u8> {
        (0..len).map(|_| self.next() as u8).collect()
    }
}

fn kind(e: Error) -> P {
    match e {
        Error::PointEncoding => P::Point,
        Error::Asn1(e) => match e.kind() {
            ErrorKind::Truncated => P::Truncated,
            ErrorKind::Tag => P::Tag,
            ErrorKind::Length => P::Length,
            ErrorKind::TrailingData => P::TrailingData,
            ErrorKind::Value => P::Value,
            ErrorKind::Overlength => P::Overlength,
            ErrorKind::Buffer => P::Buffer,
            other => panic!("{other:?}"),
        },
        other => panic!("{other:?}"),
    }
}

fn hash(value: impl Hash) -> u64 {
    let mut hasher = DefaultHasher::new();
    value.hash(&mut hasher);
    hasher.finish()
}

/// Reads the bytes as a hybrid point, by X9.62: the tag is 6 or 7, by the lowest bit of y.
fn hybrid<Size: ModulusSize>(input: &[u8], n: usize) {
    let point = HybridPoint::<Size>::from_bytes(input);
    let is_hybrid = input.len() == 2 * n + 1 && input[0] == 6 + (input[2 * n] & 1);
    assert_eq!(point.is_ok(), is_hybrid, "{input:02X?}");
    if let Ok(point) = point {
        assert_eq!((point.as_bytes(), point.y_is_odd()), (input, input[0] == 7));
        assert_eq!(point.x().map(|x| x.as_slice()), Some(&input[1..=n]));
        assert_eq!(point.y().map(|y| y.as_slice()), Some(&input[n + 1..]));
        assert_eq!(point.uncompress().as_bytes(), [&[4], &input[1..]].concat());
        assert_eq!(point.compress().as_bytes(), [&[input[0] - 4], &input[1..=n]].concat());
        assert_eq!(format!("{point:x}").parse(), Ok(point));
        assert_eq!(HybridPoint::try_from(input), Ok(point));
    }
}

fn points<Size: ModulusSize, const N: usize, const L: usize>(rounds: usize) {
    let mut draw = Draw(N as u64 + 77);
    let mut last: Option<(EncodedPoint<Size>, plain::Point<N, L>)> = None;
    let mut accepted = 0;
    for _ in 0..rounds {
        let len = match draw.below(8) {
            0 => 1,
            1 | 2 => N + 1,
            3..=5 => L,
            _ => draw.below(L + 3),
        };
        let mut input = draw.bytes(len);
        if draw.below(8) > 0 {
            if let Some(tag) = input.first_mut() {
                *tag = (draw.next() % 8) as u8;
            }
        }
        if draw.below(3) == 0 {
            input.iter_mut().skip(1).for_each(|b| *b = 7);
            if let Some(b) = input.last_mut() {
                if len > 1 {
                    *b = draw.below(3) as u8
                }
            }
        }
        let (ours, theirs) =
            (EncodedPoint::<Size>::from_bytes(&input), plain::Point::<N, L>::from_bytes(&input));
        hybrid::<Size>(&input, N);
        let (ours, theirs) = match (ours, theirs) {
            (Ok(ours), Ok(theirs)) => (ours, theirs),
            (Err(e), Err(f)) => {
                assert_eq!(kind(e), f);
                continue;
            }
            (ours, _) => panic!("{input:02X?}: {ours:?}"),
        };
        accepted += 1;
        assert_eq!(ours.as_bytes(), &input[..]);
        assert_eq!((ours.len(), u8::from(ours.tag())), (input.len(), input[0]));
        assert_eq!(ours.tag().message_len(N), input.len());
        assert_eq!(ours.coordinates().tag(), ours.tag());
        let (x, y) = theirs.coordinates();
        assert_eq!(ours.x().map(|x| x.as_slice()), x.map(|x| &x[..]));
        assert_eq!(ours.y().map(|y| y.as_slice()), y.map(|y| &y[..]));
        assert_eq!(ours.compress().as_bytes(), theirs.compress().as_bytes());
        assert_eq!(ours.is_identity(), matches!(ours.coordinates(), Coordinates::Identity));
        assert_eq!(ours.to_hybrid().is_some(), input[0] == 4);
        if let Coordinates::Uncompressed { x, y } = ours.coordinates() {
            let tag = 6 + (input[2 * N] & 1);
            let hybrid = ours.to_hybrid().unwrap();
            assert_eq!(hybrid.as_bytes(), [&[tag], &input[1..]].concat());
            assert_eq!((hybrid.uncompress(), hybrid.compress()), (ours, ours.compress()));
            assert_eq!(EncodedPoint::<Size>::from_affine_coordinates(x, y, false), ours);
            assert_eq!(EncodedPoint::<Size>::from_affine_coordinates(x, y, true), ours.compress());
            let untagged = <&Array<u8, Size::UntaggedPointSize>>::try_from(&input[1..]).unwrap();
            assert_eq!(EncodedPoint::<Size>::from_untagged_bytes(untagged), ours);
        }
        let (upper, lower) = (format!("{ours}"), format!("{ours:x}"));
        assert_eq!(upper, input.iter().map(|b| format!("{b:02X}")).collect::<String>());
        assert_eq!(lower, upper.to_lowercase());
        assert_eq!(upper.parse::<EncodedPoint<Size>>(), Ok(ours));
        assert_eq!(lower.parse::<EncodedPoint<Size>>(), Ok(ours));
        assert!(upper[1..].parse::<EncodedPoint<Size>>().is_err());
        if let Some((other, plain)) = last {
            assert_eq!(ours.cmp(&other), theirs.as_bytes().cmp(plain.as_bytes()));
            assert_eq!(ours == other, theirs.as_bytes() == plain.as_bytes());
            assert_eq!(ours == other, hash(ours) == hash(other));
        }
        assert_eq!(ours, ours);
        last = Some((ours, theirs));
    }
    assert!(accepted > rounds / 10, "{accepted}");
    for byte in 0..=255 {
        assert_eq!(Tag::from_u8(byte).is_ok(), matches!(byte, 0 | 2..=5));
    }
}

#[test]
fn agrees_on_points() {
    points::<U1, 1, 3>(20_000);
    points::<U20, 20, 41>(20_000);
    points::<U28, 28, 57>(100_000);
    points::<U32, 32, 65>(100_000);
    points::<U48, 48, 97>(100_000);
    points::<U66, 66, 133>(100_000);
}

#[test]
fn agrees_on_keys() {
    let mut draw = Draw(5);
    let p256 = support::p256();
    let mut accepted = 0;
    for round in 0..300_000 {
        let mut input = p256.clone();
        for _ in 0..draw.below(3) {
            let at = draw.below(input.len());
            match draw.below(4) {
                0 => input[at] = draw.next() as u8,
                1 => input[at] ^= 1 << draw.below(8),
                2 => input.truncate(at.max(1)),
                _ => input.push(draw.next() as u8),
            }
        }
        if round % 3 == 0 {
            let private_key = draw.bytes([0, 1, 32, 127, 128, 300][round % 6]);
            let public_key = draw.bytes([0, 1, 65, 126, 127, 255][(round / 6) % 6]);
            let key = EcPrivateKey {
                private_key: &private_key,
                parameters: (draw.below(2) == 0).then_some(EcParameters::NamedCurve(ALGORITHM_OID)),
                public_key: (draw.below(2) == 0).then_some(&public_key),
            };
            input = key.to_der().unwrap();
        }
        let (ours, theirs) =
            match (EcPrivateKey::try_from(&input[..]), plain::Key::from_der(&input)) {
                (Ok(ours), Ok(theirs)) => (ours, theirs),
                (Err(e), Err(f)) => {
                    assert_eq!(kind(e), f);
                    continue;
                }
                (ours, _) => panic!("{input:02X?}: {ours:?}"),
            };
        accepted += 1;
        assert_eq!((ours.private_key, ours.public_key), (theirs.private_key, theirs.public_key));
        let curve = ours.parameters.and_then(EcParameters::named_curve);
        assert_eq!(
            curve.as_ref().map(|c| c.as_bytes()),
            theirs.curve.as_ref().map(|c| c.as_bytes())
        );
        assert_eq!(curve.map(|c| c.to_string()), theirs.curve.map(|c| c.to_string()));
        assert_eq!(ours.to_der().unwrap(), input);
        assert_eq!(theirs.to_der().unwrap(), input);
        assert_eq!(usize::try_from(ours.encoded_len().unwrap()), Ok(input.len()));
        let mut room = vec![9; input.len() + 2];
        assert_eq!(ours.encode_to_slice(&mut room).unwrap(), &input[..]);
        assert_eq!(room[input.len()..], [9, 9]);
        assert_eq!(
            ours.encode_to_slice(&mut room[..input.len() - 1]).unwrap_err().kind(),
            ErrorKind::Buffer
        );
        let document = SecretDocument::try_from(&ours).unwrap();
        assert_eq!(document.as_bytes(), &input[..]);
        assert!(!format!("{document:?} {ours:?}").contains("private_key"));
    }
    assert!(accepted > 100_000, "{accepted}");
}

/// `new_unwrap`, which is of this crate, accepts what the library accepts.
fn same_in_a_constant(text: &str) {
    let constant = std::panic::catch_unwind(|| ObjectIdentifier::new_unwrap(text));
    assert_eq!(constant.ok(), ObjectIdentifier::new(text).ok(), "{text}");
}

#[test]
fn agrees_on_constants() {
    std::panic::set_hook(Box::new(|_| ()));
    for arc in ["0", "1", "2", "3", "39", "40", "47", "48", "127", "128", "16383", "16384"] {
        for other in ["0", "00", "39", "40", "47", "48", "127", "4294967215", "4294967216"] {
            same_in_a_constant(&format!("{arc}.{other}"));
            same_in_a_constant(&format!("2.{arc}.{other}"));
        }
    }
    for arc in ["4294967295", "4294967296", "42949672950", "01", "", "+1", "-1", " 1", "1 ", "a"] {
        for text in [arc.into(), format!("{arc}.1"), format!("1.{arc}"), format!("1.2.{arc}.3")] {
            same_in_a_constant(&text);
        }
    }
    for text in
        ["1.2.", ".1.2", "1..2", ".", "1.2.3\0", "1.\u{662}", "0.39", "1.40", "2.4294967295"]
    {
        same_in_a_constant(text);
    }
    // The content has at most 39 bytes.
    for arcs in 36..42 {
        same_in_a_constant(&format!("1.2{}", ".5".repeat(arcs)));
        same_in_a_constant(&format!("1.2.999{}", ".5".repeat(arcs - 2)));
        same_in_a_constant(&format!("1.2{}.4294967295", ".5".repeat(arcs - 5)));
    }
}

#[test]
fn agrees_on_identifiers() {
    let mut draw = Draw(6);
    for _ in 0..200_000 {
        let len = draw.below(12);
        let mut content = draw.bytes(len);
        if draw.below(2) == 0 {
            content.iter_mut().for_each(|b| *b &= 0x7F);
        }
        let (ours, theirs) =
            (ObjectIdentifier::from_bytes(&content), plain::Identifier::from_bytes(&content));
        assert_eq!(ours.is_ok(), theirs.is_ok(), "{content:02X?}");
        if let (Ok(ours), Ok(theirs)) = (ours, theirs) {
            let text = ours.to_string();
            assert_eq!(text, theirs.to_string());
            assert_eq!(ObjectIdentifier::new(&text), Ok(ours));
            assert_eq!(ObjectIdentifier::new_unwrap(&text), ours);
            let arcs: Vec<u32> = text.split('.').map(|arc| arc.parse().unwrap()).collect();
            assert!(ours.arcs().eq(arcs.iter().copied()), "{text}");
            assert_eq!((ours.len(), ours.arc(arcs.len())), (arcs.len(), None));
            assert_eq!(ours.arc(arcs.len() - 1), arcs.last().copied());
            assert_eq!(format!("{ours:?}"), format!("ObjectIdentifier({text})"));
        }
        let alphabet = b"0123456789.+ a";
        let text: String = (0..draw.below(20))
            .map(|_| char::from(alphabet[draw.below(11 + draw.0 as usize % 4)]))
            .collect();
        let (ours, theirs) = (ObjectIdentifier::new(&text), plain::Identifier::parse(&text));
        assert_eq!(ours.is_ok(), theirs.is_ok(), "{text}");
        if let (Ok(ours), Ok(theirs)) = (ours, theirs) {
            assert_eq!(ours.as_bytes(), theirs.as_bytes());
        }
        same_in_a_constant(&text);
    }
    assert_eq!(ObjectIdentifier::new("1.2.840.10045.2.1"), Ok(ALGORITHM_OID));
}

#[test]
fn refuses_what_the_crate_has_no_name_for() {
    let mut hybrid = [0x11; 65];
    for tag in [6, 7] {
        hybrid[0] = tag;
        assert_eq!(EncodedPoint::<U32>::from_bytes(hybrid), Err(Error::PointEncoding));
    }
    let x = "00".repeat(30);
    for (text, accepted) in [
        ("02aaaa", true),
        ("02AAAA", true),
        ("02aAaa", false),
        ("02aaAA", false),
        ("02aaag", false),
    ] {
        let text = format!("{text}{x}");
        assert_eq!(text.parse::<EncodedPoint<U32>>().is_ok(), accepted, "{text}");
    }
    for text in ["000", "0", "", "+0", "0 "] {
        assert_eq!(text.parse::<EncodedPoint<U32>>(), Err(Error::PointEncoding));
    }
    assert_eq!("é0".parse::<EncodedPoint<U32>>(), Err(Error::PointEncoding));
    assert_eq!("00".repeat(100).parse::<EncodedPoint<U32>>(), Err(Error::PointEncoding));
    assert!(SecretDocument::try_from(&[0x30, 0, 0][..]).is_err());
}
