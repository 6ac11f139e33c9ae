//! Pieces of programs that were written for the crate `sec1`: they have to compile and to do the
//! same.
#![cfg(feature = "std")]
#![allow(clippy::unwrap_used, clippy::useless_conversion, clippy::indexing_slicing)]
#![allow(clippy::arithmetic_side_effects)]

use sec1::consts::{U28, U32, U48, U66};
use sec1::point::{Coordinates, ModulusSize, Tag};
use sec1::{
    ALGORITHM_OID, Array, DecodeEcPrivateKey, EcParameters, EcPrivateKey, EncodeEcPrivateKey,
    EncodedPoint, der,
};
use std::collections::{BTreeSet, HashMap};

mod support;

// Over any field.
fn x_of<Size: ModulusSize>(bytes: &[u8]) -> sec1::Result<Option<Array<u8, Size>>> {
    Ok(EncodedPoint::<Size>::from_bytes(bytes)?.x().copied())
}

fn describe<Size>(point: &EncodedPoint<Size>) -> (usize, Tag)
where
    Size: ModulusSize,
{
    match point.coordinates() {
        Coordinates::Identity => (0, Tag::Identity),
        Coordinates::Compact { x } => (x.len(), Tag::Compact),
        Coordinates::Compressed { x, y_is_odd: true } => (x.len(), Tag::CompressedOddY),
        Coordinates::Compressed { x, y_is_odd: false } => (x.len(), Tag::CompressedEvenY),
        Coordinates::Uncompressed { x, y } => (x.len() + y.len(), Tag::Uncompressed),
    }
}

// A curve's key, as crates of curves have it.
#[derive(Debug, PartialEq)]
struct SecretKey([u8; 32]);

impl DecodeEcPrivateKey for SecretKey {
    fn from_sec1_der(bytes: &[u8]) -> sec1::Result<Self> {
        let key = EcPrivateKey::try_from(bytes)?;
        key.private_key.try_into().map(SecretKey).map_err(|_| sec1::Error::Crypto)
    }
}

impl EncodeEcPrivateKey for SecretKey {
    fn to_sec1_der(&self) -> sec1::Result<der::SecretDocument> {
        let oid = der::asn1::ObjectIdentifier::new("1.2.840.10045.3.1.7")?;
        EcPrivateKey { private_key: &self.0, parameters: Some(oid.into()), public_key: None }
            .try_into()
    }
}

#[derive(Debug)]
struct Fault(String);

impl From<sec1::Error> for Fault {
    fn from(error: sec1::Error) -> Fault {
        Fault(error.to_string())
    }
}

fn curve(bytes: &[u8]) -> Result<Option<String>, Fault> {
    let key = EcPrivateKey::try_from(bytes)?;
    Ok(key.parameters.and_then(EcParameters::named_curve).map(|oid| oid.to_string()))
}

#[test]
fn programs_compile_and_run() {
    let p256 = &support::p256()[..];
    let key: EcPrivateKey<'_> = p256.try_into().unwrap();
    let public = key.public_key.unwrap();
    assert_eq!(x_of::<U32>(public).unwrap().unwrap().as_slice(), &public[1..33]);
    assert!(
        x_of::<U28>(public).is_err()
            && x_of::<U48>(public).is_err()
            && x_of::<U66>(public).is_err()
    );

    let point = EncodedPoint::<U32>::try_from(public).unwrap();
    assert_eq!(describe(&point), (64, Tag::Uncompressed));
    assert_eq!(describe(&point.compress()).1, point.compress().tag());
    assert_eq!(describe(&EncodedPoint::<U66>::default()), (0, Tag::Identity));
    let x: [u8; 32] = (*point.x().unwrap()).into();
    let y = point.y().unwrap().to_vec();
    let again = EncodedPoint::<U32>::from_affine_coordinates(
        &x.into(),
        y.as_slice().try_into().unwrap(),
        false,
    );
    assert_eq!(again, point);
    let untagged: &[u8; 64] = public[1..].try_into().unwrap();
    assert_eq!(EncodedPoint::<U32>::from_untagged_bytes(untagged.into()), point);
    let names = HashMap::from([(point, "uncompressed"), (point.compress(), "compressed")]);
    assert_eq!(names.get(&again), Some(&"uncompressed"));
    let sorted: Vec<_> =
        BTreeSet::from([point, EncodedPoint::identity(), point.compress()]).into_iter().collect();
    assert_eq!(sorted, [EncodedPoint::identity(), point.compress(), point]);
    assert_eq!(format!("{point:X}"), point.to_string());
    assert_eq!(u8::from(Tag::try_from(public[0]).unwrap()), 4);

    let secret = SecretKey::from_sec1_der(p256).unwrap();
    let document = secret.to_sec1_der().unwrap();
    assert_eq!(SecretKey::from_sec1_der(document.as_bytes()), Ok(secret));
    assert_eq!(curve(p256).unwrap().as_deref(), Some("1.2.840.10045.3.1.7"));
    assert_eq!(
        curve(&p256[1..]).unwrap_err().0,
        "SEC1 ASN.1 error: unexpected or unsupported tag at DER byte 0"
    );
    assert_eq!(ALGORITHM_OID.to_string(), "1.2.840.10045.2.1");
    fn is_shared<T: Send + Sync + 'static>() {}
    is_shared::<EncodedPoint<U32>>();
    is_shared::<der::SecretDocument>();
}

#[cfg(unix)]
#[test]
fn files_of_keys_are_their_owners() {
    use std::os::unix::fs::PermissionsExt;
    let path = std::env::temp_dir().join(format!("sec1-owner-{}.der", std::process::id()));
    SecretKey([7; 32]).write_sec1_der_file(&path).unwrap();
    assert_eq!(std::fs::metadata(&path).unwrap().permissions().mode() & 0o777, 0o600);
    assert_eq!(SecretKey::read_sec1_der_file(&path), Ok(SecretKey([7; 32])));
    std::fs::remove_file(&path).unwrap();
    let error = SecretKey::read_sec1_der_file(&path).unwrap_err();
    assert_eq!(error, sec1::Error::Asn1(der::ErrorKind::Io(std::io::ErrorKind::NotFound).into()));
}

#[test]
fn files_are_replaced_and_hold_one_element() {
    use der::{ErrorKind, SecretDocument};
    let path = std::env::temp_dir().join(format!("sec1-file-{}.der", std::process::id()));
    let key = [0x30, 6, 2, 1, 1, 4, 1, 9];
    for bytes in [&[0x30, 3, 2, 1, 1, 4, 1, 9][..5], &key, &[5, 0]] {
        let document = SecretDocument::try_from(bytes).unwrap();
        // A longer file is there.
        std::fs::write(&path, [0x55; 300]).unwrap();
        document.write_der_file(&path).unwrap();
        assert_eq!(std::fs::read(&path).unwrap(), bytes);
        assert_eq!(SecretDocument::read_der_file(&path).unwrap().as_bytes(), bytes);
    }
    for (behind, kind) in [("\n", ErrorKind::TrailingData), ("\r\n", ErrorKind::TrailingData)] {
        std::fs::write(&path, [&key, behind.as_bytes()].concat()).unwrap();
        assert_eq!(SecretDocument::read_der_file(&path).unwrap_err().kind(), kind);
    }
    std::fs::write(&path, [b"\n", &key[..]].concat()).unwrap();
    assert!(SecretDocument::read_der_file(&path).is_err());
    std::fs::remove_file(&path).unwrap();
}

/// A file is read as its header announces, so that one without end is refused at once, and each kind
/// is that of the bytes as a whole.
#[test]
fn files_are_read_as_their_headers_announce() {
    use der::{ErrorKind, SecretDocument};
    let path = std::env::temp_dir().join(format!("sec1-head-{}.der", std::process::id()));
    let element = |header: &[u8], len: usize| [header, &vec![7; len]].concat();
    let whole = [
        element(&[4, 0], 0),
        element(&[4, 127], 127),
        element(&[4, 0x81, 128], 128),
        element(&[4, 0x82, 1, 0], 256),
        element(&[4, 0x83, 1, 0, 0], 0x1_0000),
        element(&[4, 0x84, 1, 0, 0, 0], 0x100_0000),
    ];
    let headers: [&[u8]; 12] = [
        &[],
        &[4],
        &[4, 0x80],
        &[4, 0x81],
        &[4, 0x81, 1, 7],
        &[4, 0x82, 0, 200],
        &[4, 0x84, 0x0F, 0xFF, 0xFF, 0xFF],
        &[4, 0x84, 0x10, 0, 0, 0],
        &[4, 0x85, 1, 0, 0, 0, 0],
        &[0x1F, 1, 7],
        &[4, 0xFF],
        &[0, 0],
    ];
    // Not of the last, which is long.
    let cut = whole[..5].iter().map(|it| it.split_last().unwrap().1.to_vec());
    let longer = whole[..5].iter().map(|it| [it, &[0; 3][..]].concat());
    for bytes in whole.iter().cloned().chain(cut).chain(longer).chain(headers.map(<[u8]>::to_vec)) {
        std::fs::write(&path, &bytes).unwrap();
        let read = SecretDocument::read_der_file(&path).map(|it| it.as_bytes().to_vec());
        let wanted = SecretDocument::try_from(bytes).map(|it| it.as_bytes().to_vec());
        assert!(read == wanted, "{:?} {:?}", read.err(), wanted.err());
    }
    // A terabyte that takes no room on the disk: only its first bytes are read.
    std::fs::write(&path, &whole[1]).unwrap();
    let file = std::fs::OpenOptions::new().write(true).open(&path).unwrap();
    if file.set_len(1 << 40).is_ok() {
        let error = SecretDocument::read_der_file(&path).unwrap_err();
        assert_eq!(error.kind(), ErrorKind::TrailingData);
    }
    std::fs::remove_file(&path).unwrap();
    #[cfg(unix)]
    assert!(SecretDocument::read_der_file("/dev/zero").is_err());
}

/// The system takes a part of a document where a file may not grow as long as it, and refuses the
/// rest: the shell lets the files of the test below have 512 or 1,024 bytes.
#[test]
fn a_file_with_a_part_of_a_document_is_an_error() {
    // By pipes: what this program prints may go to a file too.
    let ran = std::process::Command::new("sh")
        .args(["-c", "trap '' XFSZ; ulimit -f 1; exec \"$@\"", "sh"])
        .arg(std::env::current_exe().unwrap())
        .args(["--ignored", "document_longer_than_its_file"])
        .output()
        .unwrap();
    assert!(ran.status.success(), "{ran:?}");
}

#[test]
#[ignore = "another test runs it, with a limit of what a file may have"]
fn document_longer_than_its_file() {
    let path = std::env::temp_dir().join(format!("sec1-part-{}.der", std::process::id()));
    let element = [&[4, 0x82, 0x07, 0xD0][..], &[7; 2000]].concat();
    let written = der::SecretDocument::try_from(element).unwrap().write_der_file(&path);
    assert_eq!(written.unwrap_err().kind(), der::ErrorKind::Io(std::io::ErrorKind::FileTooLarge));
    std::fs::remove_file(&path).unwrap();
}

#[test]
fn zeroize_leaves_the_identity() {
    let mut point = EncodedPoint::<U32>::from_bytes([4; 65]).unwrap();
    point.zeroize();
    assert_eq!(point, EncodedPoint::identity());
    assert_eq!((point.tag(), point.as_bytes()), (Tag::Identity, &[0][..]));
}

#[test]
fn debug_shows_points() {
    use sec1::consts::{U1, U2};
    use sec1::point::HybridPoint;
    for (bytes, text) in [
        (&[0][..], "EncodedPoint(Identity)"),
        (&[2, 8, 7], "EncodedPoint(Compressed { x: Array([8, 7]), y_is_odd: false })"),
        (&[3, 8, 7], "EncodedPoint(Compressed { x: Array([8, 7]), y_is_odd: true })"),
        (&[5, 8, 7], "EncodedPoint(Compact { x: Array([8, 7]) })"),
        (&[4, 1, 2, 3, 4], "EncodedPoint(Uncompressed { x: Array([1, 2]), y: Array([3, 4]) })"),
    ] {
        assert_eq!(format!("{:?}", EncodedPoint::<U2>::from_bytes(bytes).unwrap()), text);
    }
    let point = HybridPoint::<U1>::from_bytes([6, 1, 2]).unwrap();
    let text = "HybridPoint { x: Some(Array([1])), y: Some(Array([2])) }";
    assert_eq!(format!("{point:?}"), text);
    assert_eq!(*point.to_bytes(), [6, 1, 2]);
    assert_eq!(EncodedPoint::from(point).as_bytes(), [4, 1, 2]);
}

#[test]
fn tags_of_points_are_told_apart() {
    let flags = |tag: Tag| (tag.is_identity(), tag.is_compressed(), tag.is_compact());
    for (tag, len, expected) in [
        (0, 1, (true, false, false)),
        (2, 33, (false, true, false)),
        (3, 33, (false, true, false)),
        (4, 65, (false, false, false)),
        (5, 33, (false, false, true)),
    ] {
        let mut bytes = vec![1; len];
        bytes[0] = tag;
        let point = EncodedPoint::<U32>::from_bytes(&bytes).unwrap();
        assert_eq!(flags(point.tag()), expected);
        let flags = (point.is_identity(), point.is_compressed(), point.is_compact());
        assert_eq!(flags, expected);
        assert_eq!((*point.to_bytes()).to_vec(), bytes);
    }
}

#[test]
fn errors_have_texts() {
    for (error, text) in [
        (sec1::Error::Crypto, "SEC1 cryptographic error"),
        (sec1::Error::PointEncoding, "elliptic curve point encoding error"),
        (sec1::Error::Version, "SEC1 version error"),
        (
            der::Error::from(der::ErrorKind::Buffer).into(),
            "SEC1 ASN.1 error: output buffer too small",
        ),
        (
            der::Error::from(der::ErrorKind::Depth).into(),
            "SEC1 ASN.1 error: more than 64 nested elements",
        ),
        (der::Error::from(der::ErrorKind::Memory).into(), "SEC1 ASN.1 error: out of memory"),
    ] {
        assert_eq!(error.to_string(), text);
    }
}

#[test]
fn arrays_are_slices() {
    use sec1::consts::{ArraySize, U3};
    use std::borrow::{Borrow, BorrowMut};
    type Three = Array<u8, U3>;
    let mut array = Three::from([1, 2, 3]);
    assert_eq!((array[1], &array[1..], array.len(), U3::to_usize()), (2, &[2, 3][..], 3, 3));
    array[0] = 9;
    array[1..].reverse();
    array.iter_mut().for_each(|byte| *byte += 1);
    assert_eq!((array, array.0), (Three::from([10, 4, 3]), [10, 4, 3]));
    assert_eq!(array, [10, 4, 3]);
    assert_eq!([10, 4, 3], array);
    assert_ne!(array, [10, 4, 4]);
    assert_ne!([10, 4, 4], array);
    assert_ne!(array, Three::from([10, 4, 4]));
    assert!(array > Three::from([10, 4, 2]) && array < Three::from([10, 5, 0]));
    assert!(array.cmp(&Three::from([10, 4, 2])).is_gt() && array.cmp(&array).is_eq());
    assert_eq!(array.into_iter().map(u32::from).sum::<u32>(), 17);
    assert_eq!((&array).into_iter().copied().collect::<Vec<_>>(), [10, 4, 3]);
    for byte in &mut array {
        *byte -= 1;
    }
    assert_eq!(Three::default(), [0; 3]);
    assert_eq!(Three::from_fn(|index| 9 - index as u8), [9, 8, 7]);
    let (slice, own): (&[u8], &[u8; 3]) = (array.as_ref(), array.as_ref());
    assert_eq!((slice, own), (&[9, 3, 2][..], &[9, 3, 2]));
    let borrowed: &[u8] = array.borrow();
    assert_eq!(borrowed, slice);
    let mut copy = array;
    let written: &mut [u8] = copy.borrow_mut();
    written[2] = 0;
    AsMut::<[u8]>::as_mut(&mut copy)[1] = 0;
    assert_eq!((copy, array), (Three::from([9, 0, 0]), Three::from([9, 3, 2])));
    assert_eq!(<&Three>::try_from(&[1, 2, 3][..]).ok(), Some(&Three::from([1, 2, 3])));
    for wrong in [&[][..], &[1, 2], &[1, 2, 3, 4]] {
        assert!(Three::try_from(wrong).is_err() && <&Three>::try_from(wrong).is_err());
    }
    assert_eq!(format!("{array:?}"), "Array([9, 3, 2])");
    let hashed = HashMap::from([(array, 1)]);
    assert_eq!(hashed.get(&[9, 3, 2][..]), Some(&1));
    assert!(std::panic::catch_unwind(|| array[3]).is_err());
}

#[test]
fn an_encoding_is_appended() {
    use der::Encode;
    let key = EcPrivateKey { private_key: &[9], parameters: None, public_key: None };
    let encoding = [0x30, 6, 2, 1, 1, 4, 1, 9];
    for before in [&[][..], &[1], &[1; 40]] {
        let mut bytes = before.to_vec();
        assert_eq!(key.encode_to_vec(&mut bytes).map(u32::from), Ok(8));
        assert_eq!(bytes, [before, &encoding].concat());
    }
}

#[test]
fn debug_shows_no_private_key() {
    let key = EcPrivateKey {
        private_key: &[201; 3],
        parameters: Some(ALGORITHM_OID.into()),
        public_key: None,
    };
    let text = "EcPrivateKey { parameters: Some(NamedCurve(ObjectIdentifier(1.2.840.10045.2.1))), \
                public_key: None, .. }";
    assert_eq!(format!("{key:?}"), text);
}

#[test]
fn points_are_selected() {
    use sec1::subtle::{Choice, ConditionallySelectable};
    let (a, b) = (EncodedPoint::<U32>::identity(), EncodedPoint::from_bytes([3; 33]).unwrap());
    for (choice, chosen) in [
        (Choice::from(0), a),
        (Choice::from(1), b),
        (Choice::from(2), a),
        (Choice::from(3), b),
        (Choice::from(255), b),
        (true.into(), b),
        (false.into(), a),
    ] {
        assert_eq!(EncodedPoint::conditional_select(&a, &b, choice), chosen);
    }
}

#[test]
fn the_identity_is_one_byte() {
    let identity = EncodedPoint::<U32>::identity();
    assert_eq!((identity.as_bytes(), identity.len()), (&[0][..], 1));
    assert_eq!(EncodedPoint::<U32>::from_bytes([0]), Ok(identity));
}

#[test]
fn lengths_of_messages() {
    for (tag, len) in [(0, 1), (2, 33), (3, 33), (4, 65), (5, 33)] {
        assert_eq!(Tag::from_u8(tag).unwrap().message_len(32), len);
    }
    for (tag, len) in [(0, 1), (2, 101), (4, 201)] {
        assert_eq!(Tag::from_u8(tag).unwrap().message_len(100), len);
    }
    assert_eq!(Tag::Uncompressed.message_len(usize::MAX), usize::MAX);
    assert_eq!(Tag::Compact.message_len(usize::MAX), usize::MAX);
}

#[test]
fn curves_have_names() {
    use sec1::{Curve, der::ErrorKind};
    for (name, first, text, len) in [
        ("P-256", "secp256r1", "1.2.840.10045.3.1.7", 32),
        ("prime256v1", "secp256r1", "1.2.840.10045.3.1.7", 32),
        ("secp521r1", "secp521r1", "1.3.132.0.35", 66),
        ("brainpoolP512r1", "brainpoolP512r1", "1.3.36.3.3.2.8.1.1.13", 64),
    ] {
        let curve: Curve = name.parse().unwrap();
        assert_eq!((curve.name(), curve.field_len()), (first, len));
        assert_eq!((curve.identifier().to_string().as_str(), &*curve.to_string()), (text, first));
        assert_eq!(Curve::try_from(curve.identifier()), Ok(curve));
        assert_eq!(Curve::try_from(EcParameters::from(curve)), Ok(curve));
        assert_eq!(der::asn1::ObjectIdentifier::from(curve).to_string(), text);
        assert_eq!(EcParameters::from(curve).named_curve(), Some(curve.identifier()));
        assert_eq!(format!("{curve:?}"), format!("Curve({first})"));
    }
    for name in ["", "p-256", "P-256\0", "secp256r1 "] {
        assert_eq!(Curve::new(name).unwrap_err().kind(), ErrorKind::Curve);
    }
    let error = Curve::try_from(ALGORITHM_OID).unwrap_err();
    assert_eq!(error.to_string(), "curve not in the table");
}

#[test]
fn kinds_have_texts() {
    use der::{Error, ErrorKind};
    for (kind, text) in [
        (ErrorKind::Truncated, "input ends inside an element"),
        (ErrorKind::Tag, "unexpected or unsupported tag"),
        (ErrorKind::Length, "length not in DER form or above the limit"),
        (ErrorKind::TrailingData, "bytes after the value"),
        (ErrorKind::Value, "content not valid for its tag"),
        (ErrorKind::Overlength, "value longer than 268435455 bytes"),
        (ErrorKind::Buffer, "output buffer too small"),
        (ErrorKind::Depth, "more than 64 nested elements"),
        (ErrorKind::Curve, "curve not in the table"),
        (ErrorKind::OtherCurve, "key and container name different curves"),
        (ErrorKind::Failed, "the library broke its contract"),
        (ErrorKind::Memory, "out of memory"),
    ] {
        assert_eq!((kind.to_string(), Error::from(kind).to_string()), (text.into(), text.into()));
    }
    #[cfg(feature = "std")]
    assert_eq!(ErrorKind::Io(std::io::ErrorKind::NotFound).to_string(), "read or write failed");
}

#[test]
fn faults_have_offsets() {
    use der::{Decode, ErrorKind, check_tree};
    let key = [0x30, 6, 2, 1, 1, 4, 1, 9];
    for (at, value, kind, offset) in [
        (0, 0x31, ErrorKind::Tag, 0),
        (3, 2, ErrorKind::Value, 4),
        (4, 2, ErrorKind::Value, 4),
        (6, 0x80, ErrorKind::Length, 6),
    ] {
        let mut bytes = key;
        bytes[at] = value;
        let error = EcPrivateKey::from_der(&bytes).unwrap_err();
        assert_eq!((error.kind(), error.position().map(u32::from)), (kind, Some(offset)));
    }
    for (bytes, kind, offset) in [
        (&[0x30, 3, 2, 3, 1][..], ErrorKind::Truncated, 3),
        (&[0x30, 0x80], ErrorKind::Length, 1),
        (&[5, 0, 0xFF], ErrorKind::TrailingData, 2),
        (&[0x1F, 0], ErrorKind::Tag, 0),
        (&[], ErrorKind::Truncated, 0),
    ] {
        let error = check_tree(bytes).unwrap_err();
        assert_eq!((error.kind(), error.position().map(u32::from)), (kind, Some(offset)));
    }
    let mut deep = vec![];
    for _ in 0..65 {
        assert!(check_tree(&deep).is_ok() || deep.is_empty());
        let len = deep.len() as u8;
        let header = if len < 128 { vec![0x30, len] } else { vec![0x30, 0x81, len] };
        deep = [header, deep].concat();
    }
    let error = check_tree(&deep).unwrap_err();
    // The outermost header has three bytes, and the 63 between it and the element two each.
    assert_eq!((error.kind(), error.position().map(u32::from)), (ErrorKind::Depth, Some(129)));
    assert_eq!(check_tree(&key), Ok(3));
    assert_eq!(der::Element::read(&[4, 0x81, 1]).unwrap_err().position(), None);
    let bytes = [4, 2, 9, 8, 5, 0];
    let (element, rest) = der::Element::read(&bytes).unwrap();
    assert_eq!((element.tag(), element.content(), rest), (4, &bytes[2..4], &bytes[4..]));
    assert_eq!(format!("{element:?}"), "Element { tag: 4, .. }");
}
