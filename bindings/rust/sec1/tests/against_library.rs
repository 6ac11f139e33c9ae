//! What this crate decides itself, beside what the library says: the order of points, their
//! compressed form and the places of their coordinates, the headers of elements, and the headers by
//! which keys are refused.
#![cfg(feature = "std")]
#![allow(clippy::unwrap_used, clippy::indexing_slicing)]

use sec1::consts::{U1, U2, U32, U48, U66};
use sec1::der::asn1::{AnyRef, OctetStringRef};
use sec1::der::{Decode, Encode, EncodeValue, ErrorKind, Header, Length, SliceWriter, Tag};
use sec1::point::{HybridPoint, ModulusSize};
use sec1::{EcPrivateKey, EncodedPoint};
use std::cmp::Ordering;

/// Returns the points over a field of N bytes whose coordinates have these bytes at their ends.
fn encodings(n: usize) -> Vec<Vec<u8>> {
    let element = |first: u8, last: u8| {
        let mut bytes = vec![first; n];
        *bytes.last_mut().unwrap() = last;
        bytes
    };
    let mut found = vec![vec![0]];
    for (first, last) in [(0, 0), (0, 1), (1, 0), (1, 1), (255, 254), (255, 255), (7, 2)] {
        let x = element(first, last);
        found.extend([2, 3, 5].map(|tag| [&[tag], &x[..]].concat()));
        for (first, last) in [(0, 0), (0, 1), (9, 8), (255, 255)] {
            let y = element(first, last);
            found.extend([4, 6 + last % 2].map(|tag| [&[tag], &x[..], &y[..]].concat()));
        }
    }
    found
}

fn library_order(first: &[u8], second: &[u8], n: usize) -> Ordering {
    let mut order = 7;
    let [a, b] = [first, second].map(|bytes| (bytes.as_ptr(), bytes.len()));
    // SAFETY: each pointer and length are of one slice, and `order` is a place of this function.
    let status = unsafe { sec1_sys::sec1_point_compare(a.0, a.1, b.0, b.1, n, &mut order) };
    assert_eq!(status, sec1_sys::SEC1_OK);
    order.cmp(&0)
}

fn library_compressed(bytes: &[u8], n: usize) -> Vec<u8> {
    let (mut out, mut len) = ([0; sec1_sys::SEC1_POINT_MAX], 0);
    let (begin, count) = (bytes.as_ptr(), bytes.len());
    // SAFETY: each pointer and length are of one slice, `out` is borrowed by `&mut`, and `len` is a
    // place of this function.
    let status = unsafe {
        sec1_sys::sec1_point_compress(begin, count, n, out.as_mut_ptr(), out.len(), &mut len)
    };
    assert_eq!(status, sec1_sys::SEC1_OK);
    out[..len].to_vec()
}

/// Returns the coordinates, x and y.
fn library_coordinates(bytes: &[u8], n: usize) -> [Option<&[u8]>; 2] {
    let mut parts = sec1_sys::sec1_point_parts::default();
    // SAFETY: `bytes` is one slice, and `parts` is a place of this function.
    let status = unsafe { sec1_sys::sec1_point_read(bytes.as_ptr(), bytes.len(), n, &mut parts) };
    assert_eq!((status, parts.tag), (sec1_sys::SEC1_OK, bytes[0].into()));
    [parts.x, parts.y].map(|it| (it.present == 1).then(|| &bytes[it.offset..it.offset + it.len]))
}

fn library_identity() -> Vec<u8> {
    let (mut out, mut len) = ([9; 4], 0);
    // SAFETY: `out` is one slice that is borrowed by `&mut`, and `len` is a place of this function.
    let status = unsafe { sec1_sys::sec1_point_identity(out.as_mut_ptr(), out.len(), &mut len) };
    assert_eq!(status, sec1_sys::SEC1_OK);
    out[..len].to_vec()
}

/// The encoded and the hybrid points of some encodings, which are all accepted.
fn points<Size: ModulusSize>(n: usize) {
    let all = encodings(n);
    for bytes in &all {
        let [x, y] = library_coordinates(bytes, n);
        let small = library_compressed(bytes, n);
        if let Ok(point) = EncodedPoint::<Size>::from_bytes(bytes) {
            assert_eq!((point.x().map(|x| &x[..]), point.y().map(|y| &y[..])), (x, y));
            assert_eq!(point.compress().as_bytes(), small);
            assert_eq!(point.compress().x(), point.x());
        } else {
            let point = HybridPoint::<Size>::from_bytes(bytes).unwrap();
            assert_eq!((point.x().map(|x| &x[..]), point.y().map(|y| &y[..])), (x, y));
            assert_eq!(point.compress().as_bytes(), small);
        }
        for other in &all {
            let order = library_order(bytes, other, n);
            let read = [bytes, other].map(EncodedPoint::<Size>::from_bytes);
            if let [Ok(first), Ok(second)] = read {
                assert_eq!(first.cmp(&second), order);
                assert_eq!(first == second, order.is_eq());
            }
            if let [Ok(first), Ok(second)] = [bytes, other].map(HybridPoint::<Size>::from_bytes) {
                assert_eq!(first.cmp(&second), order);
                assert_eq!(first == second, order.is_eq());
            }
        }
    }
    assert_eq!(EncodedPoint::<Size>::identity().as_bytes(), library_identity());
}

#[test]
fn agrees_on_points() {
    points::<U1>(1);
    points::<U2>(2);
    points::<U32>(32);
    points::<U48>(48);
    points::<U66>(66);
}

#[test]
fn agrees_on_headers() {
    for len in [0, 1, 127, 128, 129, 255, 256, 257, 65535, 65536, 0xFF_FFFF, 0x100_0000] {
        let content = vec![0xA5; len];
        // The library writes this one.
        let any = AnyRef::new(Tag::OctetString, &content).unwrap().to_der().unwrap();
        let octets = OctetStringRef::new(&content).unwrap();
        assert_eq!(usize::try_from(octets.encoded_len().unwrap()), Ok(any.len()));
        assert!(octets.to_der().unwrap() == any, "{len}");
        let mut room = [0; 6];
        let mut writer = SliceWriter::new(&mut room);
        let header = Header::new(Tag::OctetString, Length::try_from(len).unwrap()).unwrap();
        header.encode(&mut writer).unwrap();
        assert_eq!(writer.finish().unwrap(), &any[..any.len() - len]);
        assert_eq!(octets.header(), Ok(header));
    }
    let most = Length::new(268_435_455);
    assert_eq!((most, Header::new(Tag::Sequence, most).is_ok()), (Length::MAX, true));
    assert!(Header::new(Tag::Sequence, Length::new(268_435_456)).is_err());
}

/// Returns the kind and the offset of the first fault of a key.
fn library_fault(bytes: &[u8]) -> Option<(ErrorKind, usize)> {
    let mut offset = 0;
    // SAFETY: `bytes` is one slice, and `offset` is a place of this function.
    let status = unsafe { sec1_sys::sec1_key_fault_at(bytes.as_ptr(), bytes.len(), &mut offset) };
    let kind = match status {
        sec1_sys::SEC1_OK => return None,
        sec1_sys::SEC1_TRUNCATED => ErrorKind::Truncated,
        sec1_sys::SEC1_TAG => ErrorKind::Tag,
        sec1_sys::SEC1_LENGTH => ErrorKind::Length,
        sec1_sys::SEC1_TRAILING_DATA => ErrorKind::TrailingData,
        sec1_sys::SEC1_VALUE => ErrorKind::Value,
        _ => panic!("{status}"),
    };
    Some((kind, offset))
}

#[test]
fn agrees_on_refused_keys() {
    let agrees = |bytes: &[u8]| {
        let error = EcPrivateKey::from_der(bytes).err();
        let fault = error.map(|e| (e.kind(), u32::from(e.position().unwrap()) as usize));
        assert_eq!(fault, library_fault(bytes), "{:?} of {}", bytes.get(..5), bytes.len());
    };
    agrees(&[]);
    (0..=255).for_each(|tag| agrees(&[tag]));
    let telling = [0, 1, 2, 0x7E, 0x7F, 0x80, 0x81, 0x82, 0x83, 0x84, 0x85, 0xFF];
    for tag in [0, 2, 0x30, 0x31, 0xFF] {
        for [a, b, c] in telling
            .iter()
            .flat_map(|a| telling.iter().flat_map(|b| telling.iter().map(|c| [*a, *b, *c])))
        {
            for len in [1, 2, 3, 4, 5, 128, 129, 130, 131, 255, 256, 257, 258, 259, 261, 516] {
                let mut bytes = vec![0; len.max(4)];
                bytes[..4].copy_from_slice(&[tag, a, b, c]);
                agrees(&bytes[..len]);
            }
        }
    }
}
