//! Private keys in either form, and certificates: what is read, and where others are refused. The
//! keys and containers are made by RFC 5915 and RFC 5958 by hand, and the certificate is one of
//! OpenSSL.
#![allow(clippy::unwrap_used, clippy::indexing_slicing)]

mod support;

use sec1::consts::{U32, U48};
use sec1::der::asn1::ObjectIdentifier;
use sec1::der::{Decode, Error, ErrorKind};
use sec1::{Curve, EcParameters, EcPrivateKey, EcPublicKey, Signature, certificate_public_key};
use support::bytes;

const CONTAINER: &str = "3022 020100 3013 06072A8648CE3D0201 06082A8648CE3D030107";

/// A certificate of version 1 for a key of Ed25519, as `openssl x509 -req -signkey` writes it.
const CERTIFICATE: &str = "
    3081C030740201FF300506032B6570300C310A300806035504030C01623020170D3236313132343132313035
    345A180F32303534303431313132313035345A300C310A300806035504030C0162302A300506032B65700321
    009712BFF712C7B7FE15B42327091D590F99237BE66FB98FF46760DFDDCCA4717A300506032B6570034100D5
    F3C6A428D64E827006EFB5DFB22E1FE7227B0929813977D73F8A2AEF5DE233F207AC87EAF339EA1C8B2DEC2B
    DC5D83E7712D7414F78F0D8DF767A90F686205";

fn digits(text: &str) -> Vec<u8> {
    bytes(&text.split_whitespace().collect::<String>())
}

/// The private key, the curve's text and the public key.
fn parts(bytes: &[u8]) -> (Vec<u8>, Option<String>, Option<Vec<u8>>) {
    let key = EcPrivateKey::from_der_or_pkcs8(bytes).unwrap();
    let curve = key.parameters.and_then(EcParameters::named_curve);
    (key.private_key.to_vec(), curve.map(|c| c.to_string()), key.public_key.map(<[u8]>::to_vec))
}

fn expect_refused<T>(result: Result<T, Error>, kind: ErrorKind, position: u32) {
    let error = result.err().unwrap();
    assert_eq!((error.kind(), error.position().map(u32::from)), (kind, Some(position)));
}

#[test]
fn reads_keys_in_either_form() {
    let p256 = Some("1.2.840.10045.3.1.7".to_string());
    let key = digits("3006 020101 040109");
    assert_eq!(parts(&key), (vec![9], None, None));
    let key = digits("3011 020101 040109 A00406022A03 A103030100");
    assert_eq!(parts(&key), (vec![9], Some("1.2.3".into()), Some(vec![])));
    let container = digits(&format!("{CONTAINER} 0408 3006 020101 040109"));
    assert_eq!(parts(&container), (vec![9], p256.clone(), None));
    // Of version 1, with attributes and a public key behind; the key names the curve again.
    let container = digits(
        "303A 020101 3013 06072A8648CE3D0201 06082A8648CE3D030107
         041A 3018 020101 040107 A00A 06082A8648CE3D030107 A104 03020005 A000 81020003",
    );
    assert_eq!(parts(&container), (vec![7], p256, Some(vec![5])));
}

/// A container isn't a key by itself: by its version, or by the SEQUENCE after it.
#[test]
fn refuses_containers_as_keys() {
    let first = format!("{CONTAINER} 0408 3006 020101 040109");
    let second = first.replace("020100", "020101");
    for (container, kind, position) in [(first, ErrorKind::Value, 4), (second, ErrorKind::Tag, 5)] {
        let container = digits(&container);
        assert_eq!(parts(&container).0, [9]);
        expect_refused(EcPrivateKey::from_der(&container), kind, position);
    }
}

#[test]
fn tells_where_keys_are_refused() {
    let refused = |text: &str, kind, position| {
        expect_refused(EcPrivateKey::from_der_or_pkcs8(&digits(text)), kind, position);
    };
    refused("", ErrorKind::Truncated, 0);
    refused("3006 020102 040109", ErrorKind::Value, 4);
    refused("3006 020101 040109 00", ErrorKind::TrailingData, 8);
    refused("3007 020101 30020500", ErrorKind::Tag, 7);
    let behind = |key: &str| format!("{CONTAINER} 0408 {key}");
    refused(&behind("3006 020102 040109"), ErrorKind::Value, 32);
    refused(&behind("3005 020101 0400 00"), ErrorKind::TrailingData, 35);
    refused(&behind("3006 020101 040209"), ErrorKind::Truncated, 34);
    refused("3012 020100 3009 06072A8648CE3D0201 04023000", ErrorKind::Curve, 5);
    // P-192 in the key.
    let other = "302D 020100 3013 06072A8648CE3D0201 06082A8648CE3D030107
        0413 3011 020101 0400 A00A 06082A8648CE3D030101";
    refused(other, ErrorKind::OtherCurve, 39);
    assert_eq!(ErrorKind::OtherCurve.to_string(), "key and container name different curves");
}

#[test]
fn finds_the_public_key_of_a_certificate() {
    let certificate = digits(CERTIFICATE);
    assert_eq!(certificate_public_key(&certificate), Ok(&certificate[77..121]));
    // The serial number, a time's tag, its fraction, a version behind names, and no such field.
    for (at, byte, kind, position) in [
        (6, 2, ErrorKind::Tag, 9),
        (46, 0x17, ErrorKind::Value, 48),
        (60, 0x2E, ErrorKind::Value, 48),
        (77, 0xA0, ErrorKind::Tag, 77),
        (121, 0x83, ErrorKind::Tag, 121),
    ] {
        let mut damaged = certificate.clone();
        damaged[at] = byte;
        expect_refused(certificate_public_key(&damaged), kind, position);
    }
    let longer = [&certificate[..], &[0]].concat();
    expect_refused(certificate_public_key(&longer), ErrorKind::TrailingData, 195);
    expect_refused(certificate_public_key(&certificate[..194]), ErrorKind::Truncated, 1);
}

/// Structures of OpenSSL, and their fields as OpenSSL tells them.
const STORED: &str = include_str!("data/containers.txt");
const FIELDS: &str = include_str!("data/containers_fields.txt");

/// Returns the identifier of the curve, if the algorithm is id-ecPublicKey over one of the table.
fn curve_of(algorithm: &str, parameters: &str) -> Option<ObjectIdentifier> {
    let content = parameters.strip_prefix("06").filter(|_| algorithm == "2a8648ce3d0201")?;
    let identifier = ObjectIdentifier::from_bytes(&bytes(&content[2..])).ok()?;
    Curve::from_identifier(&identifier).ok()?;
    Some(identifier)
}

/// Returns the element with this tag and this content, of less than 65,536 bytes (X.690 section 8.1).
fn element(tag: u8, content: &[u8]) -> Vec<u8> {
    let [high, low] = u16::try_from(content.len()).unwrap().to_be_bytes();
    let len = match (high, low) {
        (0, ..0x80) => vec![low],
        (0, _) => vec![0x81, low],
        _ => vec![0x82, high, low],
    };
    [&[tag], &len[..], content].concat()
}

/// Writes into a slice that is too short, just long enough, and longer.
fn writes<E: std::fmt::Debug>(wanted: &[u8], write: impl Fn(&mut [u8]) -> Result<usize, E>) {
    let mut room = vec![0xAA; wanted.len() + 3];
    assert!(write(&mut room[..wanted.len() - 1]).is_err());
    assert_eq!(room, vec![0xAA; wanted.len() + 3]);
    for more in [0, 3] {
        assert_eq!(write(&mut room[..wanted.len() + more]).unwrap(), wanted.len());
        assert_eq!((&room[..wanted.len()], &room[wanted.len()..]), (wanted, &[0xAA; 3][..]));
    }
}

/// Compares what is read of a SubjectPublicKeyInfo with its fields. Returns whether it is EC.
fn reads_public_key(der: &[u8], algorithm: &str, parameters: &str, bits: &str) -> bool {
    let Some(curve) = curve_of(algorithm, parameters) else {
        let error = EcPublicKey::from_der(der).unwrap_err();
        assert!(matches!(error, sec1::Error::Asn1(it) if it.kind() == ErrorKind::Curve));
        return false;
    };
    let key = EcPublicKey::from_der(der).unwrap();
    assert_eq!((key.curve, &[&[0], key.public_key].concat()), (curve, &bytes(bits)));
    writes(der, |room| key.write_der(room).map(<[u8]>::len));
    #[cfg(feature = "alloc")]
    assert_eq!(key.to_der().unwrap(), der);
    let (field_len, point) = (Curve::from_identifier(&curve).unwrap().field_len(), key.public_key);
    let [p256, p384] = [
        key.point::<U32>().map(|it| it.as_bytes().to_vec()),
        key.point::<U48>().map(|it| it.as_bytes().to_vec()),
    ];
    assert_eq!(
        (p256.ok(), p384.ok()),
        match field_len {
            // A hybrid point is a `HybridPoint` alone.
            _ if point[0] > 5 => (None, None),
            32 => (Some(point.to_vec()), None),
            48 => (None, Some(point.to_vec())),
            _ => (None, None),
        }
    );
    true
}

fn reads_container(der: &[u8], algorithm: &str, parameters: &str, contained: &str) -> bool {
    let Some(curve) = curve_of(algorithm, parameters) else {
        let error = EcPrivateKey::from_pkcs8_der(der).unwrap_err();
        // After the header, whose length takes more bytes from 128 on, and the version.
        let header = if der[1] < 128 { 2 } else { der[1] - 126 };
        assert_eq!((error.kind(), error.position()), (ErrorKind::Curve, Some((header + 3).into())));
        return false;
    };
    let contained = bytes(contained);
    let inside = EcPrivateKey::from_der(&contained).unwrap();
    let key = EcPrivateKey::from_pkcs8_der(der).unwrap();
    assert_eq!((key.private_key, key.public_key), (inside.private_key, inside.public_key));
    assert_eq!(key.parameters.and_then(EcParameters::named_curve), Some(curve));
    if inside.parameters.is_none() {
        writes(der, |room| key.write_pkcs8_der(room).map(<[u8]>::len));
        #[cfg(feature = "alloc")]
        assert_eq!(key.to_pkcs8_der().unwrap().as_bytes(), der);
    }
    assert_eq!(EcPrivateKey::from_pkcs8_der(&contained).unwrap_err().kind(), ErrorKind::Tag);
    true
}

fn reads_signature(der: &[u8], numbers: [&str; 2]) -> bool {
    let signature = Signature::from_der(der).unwrap();
    let [r, s] = numbers.map(bytes);
    let signed = |it: &[u8]| if it[0] < 0x80 { it.to_vec() } else { [&[0], it].concat() };
    assert_eq!((signature.r, signature.s), (&signed(&r)[..], &signed(&s)[..]));
    for numbers in [signature, Signature { r: &r, s: &s }] {
        assert_eq!(numbers, signature);
        writes(der, |room| numbers.write_der(room).map(<[u8]>::len));
        #[cfg(feature = "alloc")]
        assert_eq!(numbers.to_der().unwrap(), der);
    }
    true
}

#[test]
fn agrees_on_structures_of_openssl() {
    let [stored, fields] =
        [STORED, FIELDS].map(|text| text.lines().filter(|it| !it.starts_with('#')));
    let mut counts = [0; 4];
    for (line, fields) in stored.zip(fields) {
        let (word, digits) = line.split_once(' ').unwrap();
        let (der, fields) = (bytes(digits), fields.split(' ').collect::<Vec<_>>());
        let (at, is_read) = match (word, &fields[..]) {
            ("private-key-info", [_, algorithm, parameters, contained, ..]) => {
                (0, reads_container(&der, algorithm, parameters, contained))
            }
            ("public-key-info", [algorithm, parameters, bits]) => {
                (1, reads_public_key(&der, algorithm, parameters, bits))
            }
            ("certificate", fields) => {
                let (algorithm, parameters, bits) = (fields[7], fields[8], fields[9]);
                let mut named = element(6, &bytes(algorithm));
                named.extend(if parameters == "-" { vec![] } else { bytes(parameters) });
                let info = [element(0x30, &named), element(3, &bytes(bits))].concat();
                let wanted = element(0x30, &info);
                assert_eq!(certificate_public_key(&der), Ok(&wanted[..]));
                (2, reads_public_key(&wanted, algorithm, parameters, bits))
            }
            ("signature", [r, s]) => (3, reads_signature(&der, [r, s])),
            _ => panic!("{line}"),
        };
        counts[at] += usize::from(is_read);
    }
    // How many are of keys on curves of the table, and how many signatures.
    assert_eq!(counts, [24, 18, 99, 66]);
}

#[test]
fn refuses_public_keys_and_signatures() {
    let curve = Curve::new("P-256").unwrap().identifier();
    let key = EcPublicKey { curve, public_key: &[2; 33] };
    let mut room = [0; 158];
    let der = key.write_der(&mut room).unwrap().to_vec();
    let refused = |at: usize, byte: u8, kind, position: u32| {
        let mut damaged = der.clone();
        damaged[at] = byte;
        match EcPublicKey::from_der(&damaged).unwrap_err() {
            sec1::Error::Asn1(error) => expect_refused::<()>(Err(error), kind, position),
            error => panic!("{error}"),
        }
    };
    refused(0, 0x31, ErrorKind::Tag, 0);
    refused(22, 0x3E, ErrorKind::Curve, 2);
    refused(23, 4, ErrorKind::Tag, 23);
    refused(1, der[1] + 1, ErrorKind::Truncated, 1);
    let mut damaged = der.clone();
    damaged[26] = 9;
    assert_eq!(EcPublicKey::from_der(&damaged), Err(sec1::Error::PointEncoding));
    // The identity has the same encoding over each field.
    let identity = EcPublicKey { curve, public_key: &[0] };
    assert!(identity.point::<U32>().is_ok());
    assert_eq!(identity.point::<U48>(), Err(sec1::Error::PointEncoding));
    // Another curve, another length, no curve of the table.
    let p384 = Curve::new("P-384").unwrap().identifier();
    let other = EcPublicKey { curve: p384, ..key };
    assert_eq!(other.write_der(&mut room), Err(sec1::Error::PointEncoding));
    let unknown = EcPublicKey { curve: ObjectIdentifier::new("1.2.3").unwrap(), ..key };
    for error in [unknown.write_der(&mut room).unwrap_err(), unknown.point::<U32>().unwrap_err()] {
        assert!(matches!(error, sec1::Error::Asn1(it) if it.kind() == ErrorKind::Curve));
    }
    let mut keys = [key, other, EcPublicKey { public_key: &[3; 33], ..key }];
    keys.reverse();
    assert!(
        keys.iter()
            .enumerate()
            .all(|(i, a)| keys.iter().enumerate().all(|(j, b)| (a == b) == (i == j)))
    );

    expect_refused(Signature::from_der(&digits("3006 020101 0201F7")), ErrorKind::Value, 7);
    expect_refused(Signature::from_der(&digits("3006 020101 030109")), ErrorKind::Tag, 5);
    let number = |r, s| Signature { r, s };
    assert_eq!(number(&[0, 0, 8], &[]), number(&[8], &[0]));
    assert_ne!(number(&[8], &[9]), number(&[8], &[8]));
    assert_ne!(number(&[9], &[8]), number(&[8], &[8]));
}

#[test]
fn refuses_to_write_containers() {
    let key = EcPrivateKey { private_key: &[9], parameters: None, public_key: None };
    let mut room = [0; 99];
    assert_eq!(key.write_pkcs8_der(&mut room).unwrap_err().kind(), ErrorKind::Curve);
    let unknown = Some(ObjectIdentifier::new("1.2.3").unwrap().into());
    let key = EcPrivateKey { parameters: unknown, ..key };
    assert_eq!(key.write_pkcs8_der(&mut room).unwrap_err().kind(), ErrorKind::Curve);
    #[cfg(feature = "alloc")]
    assert_eq!(key.to_pkcs8_der().unwrap_err().kind(), ErrorKind::Curve);
    let key = EcPrivateKey { parameters: Some(Curve::new("P-256").unwrap().into()), ..key };
    assert_eq!(key.write_pkcs8_der(&mut room[..35]).unwrap_err().kind(), ErrorKind::Buffer);
    let wanted = digits(&format!("{CONTAINER} 0408 3006 020101 040109"));
    assert_eq!(key.write_pkcs8_der(&mut room), Ok(&wanted[..]));
}
