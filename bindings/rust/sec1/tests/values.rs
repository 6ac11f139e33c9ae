//! Elements with their contents, one after the other, in readers and writers. The expected bytes
//! are made by X.690 by hand.
#![cfg(feature = "std")]
#![allow(clippy::unwrap_used, clippy::indexing_slicing, clippy::arithmetic_side_effects)]

use sec1::consts::{U2, U32};
use sec1::der::SecretDocument;
use sec1::der::asn1::{AnyRef, BitStringRef, ObjectIdentifier, OctetStringRef};
use sec1::der::{
    Choice, Decode, DecodeValue, Element, Encode, EncodeValue, ErrorKind, FixedTag, Header, Length,
    Reader, Result, Sequence, SliceReader, SliceWriter, Tag, Tagged, Writer,
};
use sec1::subtle::{self, ConstantTimeEq};
use sec1::zeroize::{Zeroize, Zeroizing};
use sec1::{ALGORITHM_OID, Array, Curve, EcParameters, EcPrivateKey};

mod support;

/// The element and the content of secp256r1, 1.2.840.10045.3.1.7.
const CURVE: [u8; 10] = [6, 8, 0x2A, 0x86, 0x48, 0xCE, 0x3D, 3, 1, 7];

/// A writer that keeps what is written.
struct Kept(Vec<u8>);

impl Writer for Kept {
    fn write(&mut self, slice: &[u8]) -> Result<()> {
        self.0.extend_from_slice(slice);
        Ok(())
    }
}

/// Writes a value in each way.
fn writes<T: Encode + EncodeValue + ?Sized>(value: &T, element: &[u8], content: &[u8]) {
    assert_eq!(value.encoded_len().map(usize::try_from), Ok(Ok(element.len())));
    assert_eq!(value.value_len().map(usize::try_from), Ok(Ok(content.len())));
    assert_eq!(value.to_der().as_deref(), Ok(element));
    let mut kept = Kept(vec![7]);
    value.encode(&mut kept).unwrap();
    value.encode_value(&mut kept).unwrap();
    kept.write_byte(8).unwrap();
    assert_eq!(kept.0, [&[7], element, content, &[8]].concat());
    let mut room = vec![0xAA; element.len() + 4];
    assert_eq!(value.encode_to_slice(&mut room), Ok(element));
    assert_eq!(room[element.len()..], [0xAA; 4]);
    let mut writer = SliceWriter::new(&mut room);
    writer.write(&[1, 2]).unwrap();
    writer.encode(value).unwrap();
    writer.write_byte(3).unwrap();
    assert_eq!(writer.write(&[4, 5]).unwrap_err().kind(), ErrorKind::Buffer);
    assert_eq!(writer.encode(value).unwrap_err().kind(), ErrorKind::Buffer);
    writer.write_byte(6).unwrap();
    assert_eq!(writer.finish(), Ok(&[&[1, 2], element, &[3, 6]].concat()[..]));
    let short = &mut room[..element.len() - 1];
    assert_eq!(value.encode_to_slice(short).unwrap_err().kind(), ErrorKind::Buffer);
}

#[test]
fn values_are_written() {
    let curve = ObjectIdentifier::new("1.2.840.10045.3.1.7").unwrap();
    let parameters = EcParameters::from(curve);
    writes(&curve, &CURVE, &CURVE[2..]);
    writes(&parameters, &CURVE, &CURVE[2..]);
    writes(&AnyRef::from(&parameters), &CURVE, &CURVE[2..]);
    let long = [&[0x24, 0x82, 1, 0][..], &[5; 256]].concat();
    writes(&AnyRef::new(Tag::try_from(0x24).unwrap(), &[5; 256]).unwrap(), &long, &[5; 256]);
    let p256 = support::p256();
    let key = EcPrivateKey::try_from(&p256[..]).unwrap();
    writes(&key, &p256, &p256[2..]);
    let content = [&[2, 1, 1, 4, 0x81, 200][..], &[3; 200]].concat();
    let long = [&[0x30, 0x81, 206][..], &content].concat();
    writes(
        &EcPrivateKey { private_key: &[3; 200], parameters: None, public_key: None },
        &long,
        &content,
    );
}

/// Reads a value in each way. The bytes are one element.
fn reads<'a, T, E>(bytes: &'a [u8], is_value: impl Fn(T) -> bool)
where
    T: Decode<'a, Error = E> + DecodeValue<'a, Error = E>,
    E: std::fmt::Debug,
{
    assert!(is_value(T::from_der(bytes).unwrap()));
    let around = [&[5, 0], bytes, &[5, 0]].concat().leak();
    let mut reader = SliceReader::new(around).unwrap();
    reader.decode::<AnyRef<'_>>().unwrap();
    let mut copy = reader.clone();
    assert!(is_value(T::decode(&mut reader).unwrap()));
    let header = Header::decode(&mut copy).unwrap();
    assert!(is_value(T::decode_value(&mut copy, header).unwrap()));
    for reader in [reader, copy] {
        assert_eq!(usize::try_from(reader.position()), Ok(around.len() - 2));
        assert_eq!(reader.finish().unwrap_err().to_string(), {
            format!("bytes after the value at DER byte {}", around.len() - 2)
        });
    }
}

#[test]
fn values_are_read() {
    let curve = ObjectIdentifier::from_bytes(&CURVE[2..]).unwrap();
    reads(&CURVE, |identifier: ObjectIdentifier| identifier == curve);
    reads(&CURVE, |parameters: EcParameters| parameters.named_curve() == Some(curve));
    reads(&CURVE, |any: AnyRef<'_>| any == AnyRef::from(&curve));
    let p256 = &support::p256()[..];
    reads(p256, |key: EcPrivateKey<'_>| key.to_der().unwrap() == p256);
    let long = &[&[0x30, 0x81, 206, 2, 1, 1, 4, 0x81, 200][..], &[3; 200]].concat()[..];
    reads(long, |key: EcPrivateKey<'_>| key.private_key == [3; 200]);
    for (bytes, kind) in [
        (&[6, 1, 0x2A, 0][..], ErrorKind::TrailingData),
        (&[6, 2, 0x2A], ErrorKind::Truncated),
        (&[6, 0x81, 1, 0x2A], ErrorKind::Length),
        (&[6, 1, 0x80], ErrorKind::Value),
        (&[6, 0], ErrorKind::Value),
        (&[4, 1, 0x2A], ErrorKind::Tag),
        (&[0x30, 3, 6, 1, 0x2A], ErrorKind::Tag),
        (&[0x1F, 1, 0x2A], ErrorKind::Tag),
        (&[], ErrorKind::Truncated),
    ] {
        assert_eq!(ObjectIdentifier::from_der(bytes).unwrap_err().kind(), kind, "{bytes:?}");
        assert_eq!(EcParameters::from_der(bytes).unwrap_err().kind(), kind, "{bytes:?}");
    }
    let mut reader = SliceReader::new(&[6, 1, 0x80]).unwrap();
    let header = Header::decode(&mut reader).unwrap();
    let error = ObjectIdentifier::decode_value(&mut reader, header).unwrap_err();
    assert_eq!(error.kind(), ErrorKind::Value);
    let error = AnyRef::new(Tag::OctetString, &vec![0; 268_435_456]).unwrap_err();
    assert_eq!(error.kind(), ErrorKind::Overlength);
}

#[test]
fn strings_are_read_and_written() {
    use sec1::der::asn1::{BitStringRef, OctetStringRef};
    let octets = OctetStringRef::new(&[8, 9]).unwrap();
    writes(octets, &[4, 2, 8, 9], &[8, 9]);
    writes(&octets, &[4, 2, 8, 9], &[8, 9]);
    reads(&[4, 2, 8, 9], |read: &OctetStringRef| read == octets);
    assert_eq!((octets.as_bytes(), octets.as_ref()), (&[8, 9][..], &[8, 9][..]));
    assert_eq!(<&OctetStringRef>::try_from(&[8, 9][..]), Ok(octets));
    assert_eq!(format!("{octets:?}"), "OctetStringRef { .. }");
    let error = <&OctetStringRef>::from_der(&[3, 1, 0]).unwrap_err();
    assert_eq!((error.kind(), error.position()), (ErrorKind::Tag, Some(Length::ZERO)));
    let error = OctetStringRef::new(&vec![0; 268_435_456]).unwrap_err();
    assert_eq!(error.kind(), ErrorKind::Overlength);

    let bits = BitStringRef::new(4, &[8, 0x90]).unwrap();
    writes(&bits, &[3, 3, 4, 8, 0x90], &[4, 8, 0x90]);
    reads(&[3, 3, 4, 8, 0x90], |read: BitStringRef<'_>| read == bits);
    assert_eq!((bits.unused_bits(), bits.raw_bytes(), bits.as_bytes()), (4, &[8, 0x90][..], None));
    let none = BitStringRef::from_bytes(&[]).unwrap();
    writes(&none, &[3, 1, 0], &[0]);
    reads(&[3, 1, 0], |read: BitStringRef<'_>| read.as_bytes() == Some(&[]));
    assert_eq!(format!("{bits:?}"), "BitStringRef { unused_bits: 4, .. }");
    for wrong in [&[3, 0][..], &[3, 1, 1], &[3, 2, 8, 0], &[3, 2, 5, 0x90], &[3, 2, 255, 0]] {
        assert_eq!(BitStringRef::from_der(wrong).unwrap_err().kind(), ErrorKind::Value);
    }
    assert!(BitStringRef::new(7, &[0x80]).is_ok() && BitStringRef::new(7, &[0x40]).is_err());
    let bytes = vec![0; 268_435_455];
    assert_eq!(BitStringRef::from_bytes(&bytes).unwrap_err().kind(), ErrorKind::Overlength);
}

#[test]
fn lengths_are_added() {
    let len = |len: usize| Length::try_from(len).unwrap();
    assert_eq!((len(3) + len(4), len(3) + len(4) + len(5)), (Ok(len(7)), Ok(len(12))));
    let most = len(u32::MAX as usize);
    assert_eq!((most + Length::ONE).unwrap_err().kind(), ErrorKind::Overlength);
    assert_eq!((most + Length::ONE + Length::ONE).unwrap_err().kind(), ErrorKind::Overlength);
    assert_eq!((Length::ZERO, Length::MAX), (len(0), len(268_435_455)));
}

#[test]
fn a_reader_that_refuses_is_unchanged() {
    let bytes = [5, 0, 4, 1, 9, 2, 3];
    let mut reader = SliceReader::new(&bytes).unwrap();
    assert_eq!((u32::from(reader.input_len()), reader.is_finished()), (7, false));
    reader.decode::<AnyRef<'_>>().unwrap();
    assert_eq!(reader.decode::<ObjectIdentifier>().unwrap_err().kind(), ErrorKind::Tag);
    assert_eq!((u32::from(reader.position()), u32::from(reader.remaining_len())), (2, 5));
    assert_eq!(reader.decode::<AnyRef<'_>>().unwrap().value(), [9]);
    assert_eq!(Header::decode(&mut reader).unwrap_err().kind(), ErrorKind::Truncated);
    let len = |len: usize| len.try_into().unwrap();
    assert_eq!(reader.read_slice(len(3)).unwrap_err().kind(), ErrorKind::Truncated);
    assert_eq!(reader.read_slice(len(2)), Ok(&[2, 3][..]));
    assert!(reader.is_finished() && reader.finish().is_ok());
}

#[test]
fn a_header_belongs_to_its_reader() {
    let p256 = support::p256();
    let header = Header::decode(&mut SliceReader::new(&p256).unwrap()).unwrap();
    assert_eq!((header.tag(), u32::from(header.length())), (EcPrivateKey::TAG, 119));
    // The content alone, without the header before it.
    let mut content = SliceReader::new(&p256[2..]).unwrap();
    assert_eq!(
        EcPrivateKey::decode_value(&mut content, header).unwrap_err().kind(),
        ErrorKind::Failed
    );
    let header = Header::decode(&mut SliceReader::new(&[0x31, 0]).unwrap()).unwrap();
    let mut reader = SliceReader::new(&[0x31, 0]).unwrap();
    Header::decode(&mut reader).unwrap();
    let error = EcPrivateKey::decode_value(&mut reader, header).unwrap_err();
    assert_eq!(error.kind(), ErrorKind::Tag);
}

#[test]
fn tags_are_those_of_a_key() {
    let p256 = support::p256();
    let (key, _) = Element::read(&p256).unwrap();
    let mut reader = SliceReader::new(key.content()).unwrap();
    let mut tags = vec![AnyRef::from_der(&p256).unwrap().tag()];
    for _ in 0..4 {
        let part: AnyRef<'_> = reader.decode().unwrap();
        tags.push(part.tag());
        if u8::from(part.tag()) & 0x20 != 0 {
            tags.push(AnyRef::try_from(part.value()).unwrap().tag());
        }
    }
    assert!(reader.is_finished());
    let [parameters, public_key] = [0xA0, 0xA1].map(|byte| Tag::try_from(byte).unwrap());
    assert_eq!(
        tags,
        [
            Tag::Sequence,
            Tag::Integer,
            Tag::OctetString,
            parameters,
            Tag::ObjectIdentifier,
            public_key,
            Tag::BitString
        ]
    );
    assert_eq!((ObjectIdentifier::TAG, EcParameters::TAG), (tags[4], tags[4]));
    assert_eq!(u8::from(Tag::Sequence), 0x30);
    for byte in [0, 0x1F, 0x3F, 0xFF] {
        assert_eq!(Tag::try_from(byte).unwrap_err().kind(), ErrorKind::Tag);
    }
    assert_eq!(format!("{:?}", AnyRef::from_der(&[4, 1, 9])), "Ok(AnyRef { tag: Tag(4), .. })");
}

/// The algorithm of a public key on a named curve (RFC 5480 section 2.1.1), as a program's own.
#[derive(Debug, PartialEq)]
struct Algorithm {
    algorithm: ObjectIdentifier,
    parameters: EcParameters,
}

impl<'a> DecodeValue<'a> for Algorithm {
    type Error = sec1::der::Error;

    fn decode_value<R: Reader<'a>>(reader: &mut R, _header: Header) -> Result<Self> {
        Ok(Algorithm { algorithm: reader.decode()?, parameters: reader.decode()? })
    }
}

impl EncodeValue for Algorithm {
    fn value_len(&self) -> Result<Length> {
        let len = |len: Length| u32::from(len) as usize;
        (len(self.algorithm.encoded_len()?) + len(self.parameters.encoded_len()?)).try_into()
    }

    fn encode_value(&self, writer: &mut impl Writer) -> Result<()> {
        self.algorithm.encode(writer)?;
        self.parameters.encode(writer)
    }
}

impl Sequence<'_> for Algorithm {}

fn refuses(bytes: &[u8], kind: ErrorKind) {
    assert_eq!(Algorithm::from_der(bytes).unwrap_err().kind(), kind, "{bytes:?}");
}

#[test]
fn a_program_has_its_own_sequence() {
    let content = [&[6, 7, 0x2A, 0x86, 0x48, 0xCE, 0x3D, 2, 1], &CURVE[..]].concat();
    let element = [&[0x30, 19], &content[..]].concat();
    let mut reader = SliceReader::new(&element).unwrap();
    let header = Header::decode(&mut reader).unwrap();
    assert_eq!(header.tag(), Algorithm::TAG);
    let read = Algorithm::decode_value(&mut reader, header).unwrap();
    let parameters = Curve::new("P-256").unwrap().into();
    assert_eq!(read, Algorithm { algorithm: ALGORITHM_OID, parameters });
    assert_eq!(read.value_len().map(u32::from), Ok(19));
    assert_eq!(Algorithm::from_der(&element).as_ref(), Ok(&read));
    assert_eq!((read.to_der().as_ref(), read.tag()), (Ok(&element), Tag::Sequence));
    let around = [&element[..], &[5, 0]].concat();
    let mut reader = SliceReader::new(&around).unwrap();
    assert_eq!(reader.decode::<Algorithm>().as_ref(), Ok(&read));
    assert_eq!(u32::from(reader.position()), 21);
    refuses(&around, ErrorKind::TrailingData);
    refuses(&element[..20], ErrorKind::Truncated);
    // The content has one more element, or one less, or the tag isn't the sequence's.
    refuses(&[&[0x30, 21], &content[..], &[5, 0]].concat(), ErrorKind::TrailingData);
    refuses(&[&[0x30, 9], &content[..9], &CURVE].concat(), ErrorKind::Truncated);
    refuses(&[&[0x31, 19], &content[..]].concat(), ErrorKind::Tag);
    let mut kept = Kept(vec![]);
    read.encode_value(&mut kept).unwrap();
    assert_eq!(AnyRef::new(Algorithm::TAG, &kept.0).unwrap().to_der(), Ok(element.clone()));
}

/// Numbers, and their elements by X.690 section 8.3.
const NUMBERS: [(u64, &[u8]); 12] = [
    (0, &[2, 1, 0]),
    (1, &[2, 1, 1]),
    (0x7F, &[2, 1, 0x7F]),
    (0x80, &[2, 2, 0, 0x80]),
    (0xFF, &[2, 2, 0, 0xFF]),
    (0x100, &[2, 2, 1, 0]),
    (0x8000, &[2, 3, 0, 0x80, 0]),
    (0xFFFF, &[2, 3, 0, 0xFF, 0xFF]),
    (0x1_0000, &[2, 3, 1, 0, 0]),
    (0xFFFF_FFFF, &[2, 5, 0, 0xFF, 0xFF, 0xFF, 0xFF]),
    (0x1_0000_0000, &[2, 5, 1, 0, 0, 0, 0]),
    (u64::MAX, &[2, 9, 0, 0xFF, 0xFF, 0xFF, 0xFF, 0xFF, 0xFF, 0xFF, 0xFF]),
];

/// Reads and writes a number as a type, whose numbers are below the limit.
fn number<T>(number: u64, element: &[u8])
where
    T: Copy + std::fmt::Debug + PartialEq + TryFrom<u64> + Encode + EncodeValue,
    T: for<'a> DecodeValue<'a, Error = sec1::der::Error> + FixedTag,
{
    match T::try_from(number) {
        Ok(value) => {
            assert_eq!(T::from_der(element), Ok(value));
            writes(&value, element, &element[2..]);
        }
        Err(_) => assert_eq!(T::from_der(element).unwrap_err().kind(), ErrorKind::Value),
    }
}

#[test]
fn numbers_are_read_and_written() {
    for (value, element) in NUMBERS {
        number::<u8>(value, element);
        number::<u16>(value, element);
        number::<u32>(value, element);
        number::<u64>(value, element);
    }
    let refused: [&[u8]; 7] = [
        &[2, 0],
        &[2, 1, 0x80],
        &[2, 1, 0xFF],
        &[2, 2, 0, 0x7F],
        &[2, 2, 0, 0],
        &[2, 9, 1, 0, 0, 0, 0, 0, 0, 0, 0],
        &[2, 10, 0, 0xFF, 0, 0, 0, 0, 0, 0, 0, 0],
    ];
    for element in refused {
        assert_eq!(u64::from_der(element).unwrap_err().kind(), ErrorKind::Value, "{element:?}");
    }
    assert_eq!(u8::from_der(&[4, 1, 1]).unwrap_err().kind(), ErrorKind::Tag);
    assert_eq!(u8::from_der(&[2, 1, 1, 0]).unwrap_err().kind(), ErrorKind::TrailingData);
}

#[test]
fn values_may_be_absent() {
    type MayBe = Option<ObjectIdentifier>;
    assert_eq!(MayBe::from_der(&[]), Ok(None));
    assert_eq!(MayBe::from_der(&[6, 1, 0x2A]), Ok(ObjectIdentifier::from_bytes(&[0x2A]).ok()));
    assert_eq!(MayBe::from_der(&[6, 1, 0x80]).unwrap_err().kind(), ErrorKind::Value);
    assert_eq!(MayBe::from_der(&[5, 0]).unwrap_err().kind(), ErrorKind::TrailingData);
    assert_eq!(MayBe::from_der(&[0x1F, 0]).unwrap_err().kind(), ErrorKind::Tag);
    let mut reader = SliceReader::new(&[5, 0, 6, 1, 0x2A]).unwrap();
    assert_eq!(reader.decode::<MayBe>(), Ok(None));
    assert_eq!(reader.position(), Length::ZERO);
    assert_eq!(reader.tlv_bytes(), Ok(&[5, 0][..]));
    assert!(reader.decode::<MayBe>().unwrap().is_some());
    assert_eq!(reader.decode::<MayBe>(), Ok(None));
    let tags = [Tag::Integer, Tag::ObjectIdentifier, Tag::Sequence];
    assert_eq!(tags.map(ObjectIdentifier::can_decode), [false, true, false]);
    assert_eq!(Some(ALGORITHM_OID).to_der(), ALGORITHM_OID.to_der());
    assert_eq!(None::<ObjectIdentifier>.to_der(), Ok(vec![]));
}

#[test]
fn parts_are_read_by_functions() {
    let bytes = [0x30, 3, 2, 1, 7, 5, 0];
    let mut reader = SliceReader::new(&bytes).unwrap();
    assert_eq!((reader.peek_byte(), reader.peek_tag()), (Some(0x30), Ok(Tag::Sequence)));
    let error = reader.sequence(|reader| reader.read_byte()).unwrap_err();
    assert_eq!((error.kind(), reader.position()), (ErrorKind::TrailingData, Length::ZERO));
    assert_eq!(error.position(), Some(Length::new(3)));
    let end = reader.sequence(|reader| {
        reader.decode::<u8>()?;
        reader.read_byte()
    });
    assert_eq!(end.unwrap_err().kind(), ErrorKind::Truncated);
    assert_eq!(reader.sequence(|reader| reader.decode::<u8>()), Ok(7));
    assert_eq!(reader.position(), Length::new(5));
    let error = reader.sequence(|reader| reader.decode::<u8>()).unwrap_err();
    assert_eq!((error.kind(), error.position()), (ErrorKind::Tag, Some(Length::new(5))));
    assert_eq!(reader.read_nested(Length::ONE, |reader| reader.read_byte()), Ok(5));
    assert!(reader.read_nested(Length::new(2), |reader| reader.read_byte()).is_err());
    assert_eq!(reader.read_into(&mut [9; 1]), Ok(&mut [0][..]).map(|it| &*it));
    assert_eq!((reader.peek_byte(), reader.read_byte().is_err()), (None, true));
    assert_eq!(reader.peek_tag().unwrap_err().position(), Some(Length::new(7)));
    assert_eq!(reader.error(ErrorKind::Value).position(), Some(Length::new(7)));
}

#[test]
fn contents_are_read_as_types() {
    let any = AnyRef::new(Tag::Integer, &[7]).unwrap();
    assert_eq!((any.decode_as::<u8>(), any.decode_as::<u64>()), (Ok(7), Ok(7)));
    assert_eq!(any.decode_as::<ObjectIdentifier>().unwrap_err().kind(), ErrorKind::Tag);
    let long = AnyRef::new(Tag::Integer, &[0, 0]).unwrap();
    assert_eq!(long.decode_as::<u8>().unwrap_err().kind(), ErrorKind::Value);
    let bits = AnyRef::new(Tag::BitString, &[0, 4, 5]).unwrap();
    assert_eq!(bits.decode_as::<BitStringRef<'_>>().unwrap().as_bytes(), Some(&[4, 5][..]));
}

#[test]
fn identifiers_are_made_of_arcs() {
    let texts =
        ["0.0", "0.39", "1.39", "2.0", "2.40", "2.999", "1.2.840.10045.3.1.7", "2.1.4294967295"];
    for text in texts {
        let arcs = text.split('.').map(|arc| arc.parse().unwrap());
        assert_eq!(ObjectIdentifier::from_arcs(arcs), ObjectIdentifier::new(text), "{text}");
    }
    let refused: [&[u32]; 6] = [&[], &[1], &[0, 40], &[1, 40], &[3, 1], &[2, 0xFFFF_FFFF]];
    for arcs in refused {
        let found = ObjectIdentifier::from_arcs(arcs.iter().copied());
        assert_eq!(found.unwrap_err().kind(), ErrorKind::Value, "{arcs:?}");
    }
    // 38 more subidentifiers of a byte fill the 39 bytes.
    assert!(ObjectIdentifier::from_arcs([1, 2].into_iter().chain([3; 38])).is_ok());
    assert!(ObjectIdentifier::from_arcs([1, 2].into_iter().chain([3; 39])).is_err());
}

#[test]
fn tags_have_names_and_classes() {
    let names = [
        (0x01, "BOOLEAN"),
        (0x02, "INTEGER"),
        (0x03, "BIT STRING"),
        (0x05, "NULL"),
        (0x06, "OBJECT IDENTIFIER"),
        (0x0A, "ENUMERATED"),
        (0x0C, "UTF8String"),
        (0x13, "PrintableString"),
        (0x16, "IA5String"),
        (0x17, "UTCTime"),
        (0x18, "GeneralizedTime"),
        (0x1E, "BMPString"),
        (0x30, "SEQUENCE"),
        (0x31, "SET"),
        (0x41, "APPLICATION [1] (primitive)"),
        (0x80, "CONTEXT-SPECIFIC [0] (primitive)"),
        (0xBE, "CONTEXT-SPECIFIC [30] (constructed)"),
        (0xE2, "PRIVATE [2] (constructed)"),
    ];
    for (byte, name) in names {
        let tag = Tag::try_from(byte).unwrap();
        assert_eq!(tag.to_string(), name);
        let classes =
            [tag.is_universal(), tag.is_application(), tag.is_context_specific(), tag.is_private()];
        let class = usize::from(byte >> 6);
        assert_eq!(classes, [class == 0, class == 1, class == 2, class == 3], "{name}");
        assert_eq!(tag.is_constructed(), byte & 0x20 != 0, "{name}");
    }
    assert_eq!(Tag::Null.assert_eq(Tag::Null), Ok(Tag::Null));
    assert_eq!(Tag::Null.assert_eq(Tag::Set).unwrap_err().kind(), ErrorKind::Tag);
    assert_eq!(Tag::Null.length_error(), ErrorKind::Length);
    assert_eq!(Tag::Null.value_error(), ErrorKind::Value);
}

#[test]
fn lengths_are_computed() {
    let (two, three) = (Length::new(2), Length::from(3_u8));
    assert_eq!((three - two, two + Length::ONE), (Ok(Length::ONE), Ok(three)));
    assert_eq!((two - three).unwrap_err().kind(), ErrorKind::Overlength);
    assert_eq!((two.saturating_sub(three), three.saturating_sub(two)), (Length::ZERO, Length::ONE));
    assert_eq!(Length::from(0xFFFF_u16).saturating_add(Length::ONE), Length::from(0x1_0000_u32));
    assert_eq!(Length::new(u32::MAX).saturating_add(two), Length::new(u32::MAX));
    assert_eq!([Length::ZERO, two].map(Length::is_zero), [true, false]);
}

#[test]
fn bit_strings_have_lengths() {
    let bits = BitStringRef::new(3, &[1, 8]).unwrap();
    assert_eq!((bits.bit_len(), bits.byte_len()), (13, Ok(Length::new(2))));
    assert!(bits.has_unused_bits() && !bits.is_empty());
    assert!(BitStringRef::new(1, &[8]).unwrap().has_unused_bits());
    let none = BitStringRef::from_bytes(&[]).unwrap();
    assert_eq!((none.bit_len(), none.has_unused_bits(), none.is_empty()), (0, false, true));
}

#[test]
fn choices_are_combined() {
    let [no, yes] = [0, 1].map(subtle::Choice::from);
    for (a, b) in [(no, no), (no, yes), (yes, no), (yes, yes)] {
        let (x, y) = (bool::from(a), bool::from(b));
        assert_eq!([a & b, a | b, a ^ b].map(bool::from), [x & y, x | y, x ^ y]);
        assert_eq!([!a, a.ct_eq(&b), a.ct_ne(&b)].map(bool::from), [!x, x == y, x != y]);
        let [mut and, mut or, mut xor] = [a; 3];
        and &= b;
        or |= b;
        xor ^= b;
        assert_eq!([and, or, xor].map(bool::from), [x & y, x | y, x ^ y]);
    }
}

#[test]
fn values_are_wiped() {
    let (mut bytes, mut vector) = ([7_u8; 3], vec![7_u8; 3]);
    bytes.zeroize();
    vector.zeroize();
    assert_eq!((bytes, vector), ([0; 3], vec![]));
    let mut kept = Zeroizing::new([7, 8]);
    Zeroize::zeroize(&mut kept);
    assert_eq!(*kept, [0, 0]);
}

#[test]
fn arrays_are_made_and_printed() {
    let array = Array::<u8, U2>::from([7, 0xAB]);
    assert_eq!(format!("{array:x} {array:X}"), "07ab 07AB");
    assert_eq!(array.map(|byte| u16::from(byte) * 2), [14, 0x156]);
    assert_eq!(Array::<u8, U2>::try_from_iter([7, 0xAB]), Ok(array));
    for len in [0, 1, 3] {
        assert!(Array::<u8, U2>::try_from_iter(std::iter::repeat_n(7, len)).is_err());
    }
    let mut bytes = [1; 32];
    let borrowed: &mut Array<u8, U32> = (&mut bytes[..]).try_into().unwrap();
    borrowed[31] = 9;
    assert_eq!((bytes[30], bytes[31]), (1, 9));
    assert!(<&mut Array<u8, U32>>::try_from(&mut bytes[1..]).is_err());
    assert!(<&mut Array<u8, U32>>::try_from(&mut [1; 33][..]).is_err());
}

/// Compares values that all differ, each with each, and with its clone.
fn all_differ<T: Clone + PartialEq>(values: &[T]) {
    for (i, value) in values.iter().enumerate() {
        assert!(*value == value.clone());
        for (j, other) in values.iter().enumerate() {
            assert_eq!(value == other, i == j, "{i}, {j}");
            assert_eq!(value.clone() == *other, i == j, "{i}, {j}");
        }
    }
}

#[test]
fn values_that_differ_in_one_part_differ() {
    let [curve, other] = ["P-256", "P-384"].map(|name| Curve::new(name).unwrap());
    // The field is as long, or the name as long.
    let curves = ["P-256", "secp256k1", "brainpoolP256r1", "P-384", "P-521"];
    all_differ(&curves.map(|name| Curve::new(name).unwrap()));
    let identifiers = [curve.identifier(), other.identifier(), ALGORITHM_OID];
    all_differ(&identifiers);
    all_differ(&identifiers.map(EcParameters::from));
    let kinds = [ErrorKind::Tag, ErrorKind::Value, ErrorKind::Length];
    all_differ(&kinds);
    let [tag, value] = [ErrorKind::Tag, ErrorKind::Value];
    let errors = [tag.into(), tag.at(Length::ZERO), tag.at(Length::ONE), value.at(Length::ONE)];
    all_differ::<sec1::der::Error>(&errors);
    let [a, b] = [tag.at(Length::ZERO), tag.at(Length::ONE)].map(sec1::Error::Asn1);
    all_differ(&[a, b, sec1::Error::Crypto, sec1::Error::PointEncoding, sec1::Error::Version]);
    all_differ(&[Tag::Integer, Tag::Set, Tag::Sequence]);
    all_differ(&[Length::ZERO, Length::ONE, Length::MAX]);
    let header = |tag, len| Header::new(tag, Length::new(len)).unwrap();
    all_differ(&[header(Tag::Set, 1), header(Tag::Set, 2), header(Tag::Sequence, 1)]);
    let any = |tag, bytes| AnyRef::new(tag, bytes).unwrap();
    all_differ(&[any(Tag::Set, &[1]), any(Tag::Set, &[2]), any(Tag::Sequence, &[1])]);
    let element = |bytes| Element::read(bytes).unwrap().0;
    all_differ(&[element(&[4, 1, 1]), element(&[4, 1, 2]), element(&[5, 1, 1])]);
    let bits = |unused, bytes| BitStringRef::new(unused, bytes).unwrap();
    all_differ(&[bits(0, &[8]), bits(1, &[8]), bits(0, &[0]), bits(0, &[8, 8])]);
    let pictures = [&[2, 1, 1], &[2, 1, 2], &[5, 1, 1]];
    all_differ(&pictures.map(|bytes| sec1::draw(bytes, true)));
    let none = sec1::DrawOptions::default();
    let [all, levels, offset] = [
        sec1::DrawOptions { all: true, ..none },
        sec1::DrawOptions { levels: 1, ..none },
        sec1::DrawOptions { offset: 1, ..none },
    ];
    all_differ(&[none, all, levels, offset]);
}

#[test]
fn clones_of_keys_have_all_parts() {
    let parameters = Some(ALGORITHM_OID.into());
    let key = EcPrivateKey { private_key: &[9], parameters, public_key: Some(&[2, 8]) };
    let EcPrivateKey { private_key, parameters, public_key } = key.clone();
    assert_eq!((private_key, public_key), (key.private_key, key.public_key));
    assert_eq!(parameters, key.parameters);
}

#[test]
fn identifiers_are_ordered_by_their_contents() {
    // The longer one is less.
    let [long, short] =
        [&[0x2A, 3, 4][..], &[0x2B]].map(|it| ObjectIdentifier::from_bytes(it).unwrap());
    assert!(long.cmp(&short).is_lt() && short.cmp(&long).is_gt() && long.cmp(&long).is_eq());
    assert!(long < short);
    assert!(ObjectIdentifier::from_bytes(&[0x2A]).unwrap() < long);
}

/// Nothing that holds a private key prints a byte of it.
#[test]
fn what_holds_a_key_is_printed_without_it() -> Result<(), sec1::Error> {
    let secret = [0xA5; 8];
    let key = EcPrivateKey { private_key: &secret, parameters: None, public_key: None };
    let document = SecretDocument::try_from(&key)?;
    let der = document.as_bytes();
    let texts = [
        format!("{key:?} {key:#?}"),
        format!("{document:?} {document:#?}"),
        format!("{:?} {:#?}", document.to_bytes(), Zeroizing::new(secret)),
        format!("{:?} {:#?}", Element::read(der)?, AnyRef::from_der(der)?),
        format!("{:?} {:#?}", OctetStringRef::new(&secret)?, BitStringRef::new(0, &secret)?),
        #[cfg(feature = "pem")]
        format!("{:?}", document.to_pem("A", sec1::LineEnding::LF)?),
        format!("{:?}", sec1::draw(der, false)),
        format!("{:?}", EcPrivateKey::try_from(&der[1..]).map(|_| ())),
    ];
    for text in texts {
        let shown = ["165", "a5", "A5", "paWl"].iter().find(|part| text.contains(*part));
        assert_eq!(shown, None, "{text}");
    }
    Ok(())
}
