//! The public names of `sec1` 0.8.1, and those of `der` 0.8, `subtle` 2.6, `const_oid` 0.10,
//! `hybrid_array` 0.4 and `zeroize` 1.8 that a program reaches by its signatures. Each is used here,
//! or stands between backquotes in the first column of the README's table of what is left out.
#![cfg(all(feature = "std", feature = "pem"))]

use core::fmt::{Debug, Display, LowerHex, UpperHex};
use core::hash::Hash;
use core::ops::{Add, BitAnd, BitAndAssign, BitOr, BitOrAssign, BitXor, BitXorAssign, Not, Sub};
use core::str::FromStr;
use sec1::Array;
use sec1::consts::{self, ArraySize, U2, U32, U66};
use sec1::der::asn1::{AnyRef, BitStringRef, ObjectIdentifier, OctetStringRef};
use sec1::der::oid::{AssociatedOid, DynAssociatedOid};
use sec1::der::{self, Decode, DecodeValue, Encode, EncodeValue, FixedTag, Header, Length, Reader};
use sec1::der::{SecretDocument, Sequence, SliceReader, SliceWriter, Tagged, Writer};
use sec1::pem::PemLabel;
use sec1::point::{Coordinates, ModulusSize, Tag};
use sec1::subtle::{Choice, ConditionallySelectable, ConstantTimeEq};
use sec1::zeroize::{Zeroize, ZeroizeOnDrop, Zeroizing};
use sec1::{
    DecodeEcPrivateKey, EcParameters, EcPrivateKey, EncodeEcPrivateKey, EncodedPoint, LineEnding,
};

type Point = EncodedPoint<U32>;
type Bytes = Array<u8, U32>;

/// Has a trait. A call of it compiles only where the type has.
macro_rules! has {
    ($name:ty: $($bound:tt)+) => {{
        fn has<T: $($bound)+>() {}
        has::<$name>();
        concat!(stringify!($name), ": ", stringify!($($bound)+))
    }};
}

/// Uses a function, a constant or a variant.
macro_rules! value {
    ($name:expr) => {{
        let _ = $name;
        stringify!($name)
    }};
}

/// Uses a type.
macro_rules! kind {
    ($name:ty) => {{
        let _ = core::mem::size_of::<&$name>();
        stringify!($name)
    }};
}

/// Is one of each trait whose methods are named.
struct NistP256;

impl AssociatedOid for NistP256 {
    const OID: ObjectIdentifier = ObjectIdentifier::new_unwrap("1.2.840.10045.3.1.7");
}

struct Own;

impl DecodeEcPrivateKey for Own {
    fn from_sec1_der(_: &[u8]) -> sec1::Result<Self> {
        Ok(Own)
    }
}

impl EncodeEcPrivateKey for Own {
    fn to_sec1_der(&self) -> sec1::Result<SecretDocument> {
        Err(sec1::Error::Crypto)
    }
}

/// The names of `sec1`.
fn of_sec1() -> Vec<&'static str> {
    vec![
        value!(sec1::ALGORITHM_OID),
        kind!(sec1::Error),
        value!(sec1::Error::Asn1),
        value!(sec1::Error::Crypto),
        value!(sec1::Error::PointEncoding),
        value!(sec1::Error::Version),
        has!(sec1::Error: core::error::Error + Copy + Eq + Debug + Display + From<der::Error>),
        kind!(sec1::Result<u8>),
        kind!(EcPrivateKey<'_>),
        value!(|key: &EcPrivateKey<'static>| key.private_key),
        value!(|key: &EcPrivateKey<'static>| key.parameters),
        value!(|key: &EcPrivateKey<'static>| key.public_key),
        has!(EcPrivateKey<'static>: Clone + Debug + Sequence<'static> + TryFrom<&'static [u8]>),
        has!(EcPrivateKey<'static>: DecodeValue<'static> + EncodeValue + FixedTag + Encode),
        kind!(EcParameters),
        value!(EcParameters::NamedCurve),
        value!(EcParameters::named_curve),
        has!(EcParameters: Clone + Copy + Debug + Eq + FixedTag + From<ObjectIdentifier>),
        has!(EcParameters: DecodeValue<'static> + EncodeValue),
        has!(AnyRef<'static>: From<&'static EcParameters> + Copy + Debug + Eq),
        has!(SecretDocument: TryFrom<EcPrivateKey<'static>> + TryFrom<&'static EcPrivateKey<'static>>),
        value!(<Own as DecodeEcPrivateKey>::from_sec1_der),
        value!(|path: &str| Own::read_sec1_der_file(path)),
        value!(<Own as EncodeEcPrivateKey>::to_sec1_der),
        value!(|path: &str| Own.write_sec1_der_file(path)),
        kind!(Point),
        value!(|bytes: &[u8]| Point::from_bytes(bytes)),
        value!(Point::from_untagged_bytes),
        value!(Point::from_affine_coordinates),
        value!(Point::identity),
        value!(Point::len),
        value!(Point::as_bytes),
        value!(Point::to_bytes),
        value!(Point::is_compact),
        value!(Point::is_compressed),
        value!(Point::is_identity),
        value!(Point::compress),
        value!(Point::tag),
        value!(Point::coordinates),
        value!(Point::x),
        value!(Point::y),
        has!(Point: Copy + Debug + Default + Display + Eq + Hash + LowerHex + Ord + UpperHex + FromStr),
        has!(Point: AsRef<[u8]> + TryFrom<&'static [u8]> + ConditionallySelectable + Zeroize),
        has!(U66: ModulusSize),
        kind!(<U32 as ModulusSize>::CompressedPointSize),
        kind!(<U32 as ModulusSize>::UncompressedPointSize),
        kind!(<U32 as ModulusSize>::UntaggedPointSize),
        kind!(Coordinates<'_, U32>),
        value!(|x: &'static Bytes| Coordinates::Compact { x }),
        value!(|x: &'static Bytes| Coordinates::Compressed { x, y_is_odd: true }),
        value!(Coordinates::<U32>::Identity),
        value!(|x: &'static Bytes| Coordinates::Uncompressed { x, y: x }),
        value!(Coordinates::<U32>::tag),
        has!(Coordinates<'static, U32>: Copy + Debug + Eq),
        value!([Tag::Identity, Tag::Compact, Tag::Uncompressed]),
        value!([Tag::CompressedEvenY, Tag::CompressedOddY]),
        value!(Tag::from_u8),
        value!(Tag::is_compact),
        value!(Tag::is_compressed),
        value!(Tag::is_identity),
        value!(Tag::message_len),
        has!(Tag: Copy + Debug + Eq + TryFrom<u8> + Into<u8>),
        kind!(consts::U48),
        kind!(LineEnding),
        value!([LineEnding::CR, LineEnding::LF, LineEnding::CRLF]),
        has!(LineEnding: Copy + Debug + Default + Eq),
        value!(<EcPrivateKey<'_> as PemLabel>::PEM_LABEL),
        value!(<EcPrivateKey<'_> as PemLabel>::validate_pem_label),
        value!(<Own as DecodeEcPrivateKey>::from_sec1_pem),
        value!(|path: &str| Own::read_sec1_pem_file(path)),
        value!(<Own as EncodeEcPrivateKey>::to_sec1_pem),
        value!(|path: &str| Own.write_sec1_pem_file(path, LineEnding::LF)),
    ]
}

/// The names of `der` and of `const_oid`.
fn of_der() -> Vec<&'static str> {
    vec![
        kind!(der::Error),
        value!(der::Error::new),
        value!(der::Error::kind),
        value!(der::Error::position),
        kind!(der::ErrorKind),
        value!(der::ErrorKind::at),
        kind!(der::Result<u8>),
        kind!(Length),
        value!(Length::new),
        value!([Length::ZERO, Length::ONE, Length::MAX]),
        value!(Length::is_zero),
        value!(Length::saturating_add),
        value!(Length::saturating_sub),
        has!(Length: Add + Sub + From<u8> + From<u16> + From<u32> + TryFrom<usize> + Display),
        value!([der::Tag::Boolean, der::Tag::Integer, der::Tag::BitString, der::Tag::OctetString]),
        value!([der::Tag::Null, der::Tag::ObjectIdentifier, der::Tag::Enumerated]),
        value!([der::Tag::Utf8String, der::Tag::PrintableString, der::Tag::Ia5String]),
        value!([der::Tag::UtcTime, der::Tag::GeneralizedTime, der::Tag::Set, der::Tag::Sequence]),
        value!(der::Tag::is_constructed),
        value!(der::Tag::is_context_specific),
        value!(der::Tag::is_application),
        value!(der::Tag::is_private),
        value!(der::Tag::is_universal),
        value!(der::Tag::assert_eq),
        value!(der::Tag::value_error),
        value!(der::Tag::length_error),
        value!(der::Tag::unexpected_error),
        has!(der::Tag: Copy + Debug + Display + Eq + Hash + Ord + TryFrom<u8> + Into<u8>),
        value!(Header::new),
        value!(Header::tag),
        value!(Header::length),
        value!(Header::decode::<SliceReader<'_>>),
        value!(<u8 as Decode>::from_der),
        value!(<u8 as Decode>::decode::<SliceReader<'_>>),
        value!(<u8 as DecodeValue>::decode_value::<SliceReader<'_>>),
        value!(<u8 as Encode>::encoded_len),
        value!(<u8 as Encode>::encode_to_slice),
        value!(<u8 as Encode>::encode_to_vec),
        value!(<u8 as Encode>::to_der),
        value!(|value: &u8, writer: &mut SliceWriter<'_>| Encode::encode(value, writer)),
        value!(<u8 as EncodeValue>::value_len),
        value!(<u8 as EncodeValue>::header),
        value!(|value: &u8, writer: &mut SliceWriter<'_>| EncodeValue::encode_value(value, writer)),
        value!(<u8 as FixedTag>::TAG),
        value!(<u8 as Tagged>::tag),
        has!(u8: der::Choice<'static>),
        has!(u16: Decode<'static> + Encode),
        has!(u32: Decode<'static> + Encode),
        has!(u64: Decode<'static> + Encode),
        has!(Option<u8>: Decode<'static> + Encode),
        value!(SliceReader::new),
        value!(<SliceReader<'_> as Reader>::input_len),
        value!(<SliceReader<'_> as Reader>::position),
        value!(<SliceReader<'_> as Reader>::remaining_len),
        value!(<SliceReader<'_> as Reader>::is_finished),
        value!(<SliceReader<'_> as Reader>::read_slice),
        value!(<SliceReader<'_> as Reader>::read_byte),
        value!(<SliceReader<'_> as Reader>::read_into),
        value!(<SliceReader<'_> as Reader>::peek_byte),
        value!(<SliceReader<'_> as Reader>::peek_tag),
        value!(<SliceReader<'_> as Reader>::tlv_bytes),
        value!(<SliceReader<'_> as Reader>::error),
        value!(<SliceReader<'_> as Reader>::finish),
        value!(<SliceReader<'_> as Reader>::decode::<u8>),
        value!(|it: &mut SliceReader<'_>| it.read_nested(Length::ONE, |it| it.read_byte())),
        value!(|it: &mut SliceReader<'_>| it.sequence(|it| it.decode::<u8>())),
        value!(SliceWriter::new),
        value!(SliceWriter::encode::<u8>),
        value!(SliceWriter::finish),
        value!(<SliceWriter<'_> as Writer>::write),
        value!(<SliceWriter<'_> as Writer>::write_byte),
        value!(SecretDocument::as_bytes),
        value!(SecretDocument::to_bytes),
        value!(SecretDocument::len),
        value!(SecretDocument::is_empty),
        value!(SecretDocument::encode_msg::<u8>),
        value!(SecretDocument::decode_msg::<u8>),
        value!(|path: &str| SecretDocument::read_der_file(path)),
        value!(|it: &SecretDocument, path: &str| it.write_der_file(path)),
        value!(|text: &'static str| SecretDocument::from_pem(text)),
        value!(|it: &SecretDocument| it.to_pem("A", LineEnding::LF)),
        value!(|path: &str| SecretDocument::read_pem_file(path)),
        value!(|it: &SecretDocument, path: &str| it.write_pem_file(path, "A", LineEnding::LF)),
        has!(SecretDocument: AsRef<[u8]> + Clone + Debug + TryFrom<Vec<u8>> + ZeroizeOnDrop),
        value!(AnyRef::new),
        value!(AnyRef::tag),
        value!(AnyRef::value),
        value!(AnyRef::decode_as::<u8>),
        value!(BitStringRef::new),
        value!(BitStringRef::from_bytes),
        value!(BitStringRef::unused_bits),
        value!(BitStringRef::has_unused_bits),
        value!(BitStringRef::bit_len),
        value!(BitStringRef::byte_len),
        value!(BitStringRef::is_empty),
        value!(BitStringRef::as_bytes),
        value!(BitStringRef::raw_bytes),
        value!(OctetStringRef::new),
        value!(OctetStringRef::as_bytes),
        value!(ObjectIdentifier::new),
        value!(ObjectIdentifier::new_unwrap),
        value!(ObjectIdentifier::from_bytes),
        value!(|arcs: [der::asn1::Arc; 2]| ObjectIdentifier::from_arcs(arcs)),
        value!(ObjectIdentifier::as_bytes),
        value!(ObjectIdentifier::arc),
        value!(ObjectIdentifier::arcs),
        value!(ObjectIdentifier::len),
        has!(ObjectIdentifier: AsRef<[u8]> + Copy + Debug + Display + FromStr + Hash + Ord),
        value!(<NistP256 as AssociatedOid>::OID),
        value!(<NistP256 as DynAssociatedOid>::oid),
    ]
}

/// The names of `subtle`, `hybrid_array` and `zeroize`.
fn of_others() -> Vec<&'static str> {
    vec![
        value!(Choice::unwrap_u8),
        has!(Choice: Copy + Debug + From<u8> + Into<bool> + Not + ConstantTimeEq),
        has!(Choice: BitAnd + BitAndAssign + BitOr + BitOrAssign + BitXor + BitXorAssign),
        value!(<Point as ConditionallySelectable>::conditional_select),
        value!(<Point as ConditionallySelectable>::conditional_assign),
        value!(<Point as ConditionallySelectable>::conditional_swap),
        value!(<Choice as ConstantTimeEq>::ct_eq),
        value!(<Choice as ConstantTimeEq>::ct_ne),
        value!(U2::USIZE),
        value!(<U2 as ArraySize>::to_usize),
        value!(|array: &Bytes| array.0),
        value!(|| Bytes::from_fn(|_| 1)),
        value!(|bytes: [u8; 2]| Bytes::try_from_iter(bytes)),
        value!(|array: Bytes| array.map(u32::from)),
        value!(Bytes::as_slice),
        value!(Bytes::as_mut_slice),
        has!(Bytes: Copy + Debug + Default + Hash + Ord + LowerHex + UpperHex + IntoIterator),
        has!(Bytes: AsRef<[u8]> + AsMut<[u8]> + From<[u8; 32]> + TryFrom<&'static [u8]>),
        has!(&'static Bytes: IntoIterator + TryFrom<&'static [u8]> + From<&'static [u8; 32]>),
        has!(&'static mut Bytes: IntoIterator + TryFrom<&'static mut [u8]>),
        value!(<[u8; 2] as Zeroize>::zeroize),
        has!(Zeroizing<[u8; 2]>: Zeroize + ZeroizeOnDrop),
        value!(Zeroizing::<Vec<u8>>::new),
        has!(Zeroizing<Vec<u8>>: Clone + core::ops::Deref + core::ops::DerefMut + From<Vec<u8>>),
    ]
}

/// The names that are left out, as the README's table has them.
const LEFT_OUT: [&str; 39] = [
    "pem::Error",
    "DecodePem",
    "EncodePem",
    "serde",
    "ctutils",
    "ErrorKind::FileNotFound",
    "ErrorKind::Incomplete",
    "ErrorKind::Noncanonical",
    "ErrorKind::TagUnexpected",
    "ErrorKind::Value { tag }",
    "Reader::context_specific",
    "Reader::drain",
    "Reader::peek_header",
    "Reader::read_vec",
    "PemReader",
    "PemWriter",
    "derive",
    "Any",
    "BitString",
    "ContextSpecific",
    "ContextSpecificRef",
    "Document",
    "Encode::encode",
    "GeneralizedTime",
    "Ia5StringRef",
    "IntRef",
    "Null",
    "OctetString",
    "SequenceOf",
    "SetOf",
    "UintRef",
    "UtcTime",
    "Tag::ContextSpecific { .. }",
    "Tag::number",
    "Array::concat",
    "Array::from_slice",
    "Array::split",
    "FromIterator",
    "ObjectIdentifier::push_arc",
];

#[test]
fn each_name_is_here_or_in_the_table() {
    let used = [of_sec1(), of_der(), of_others()].concat();
    let readme = include_str!("../README.md");
    let rows: Vec<&str> = readme
        .split("| Left out | Why |")
        .nth(1)
        .into_iter()
        .flat_map(|table| table.lines().take_while(|line| !line.starts_with('#')))
        .filter_map(|line| line.strip_prefix("| ")?.split(" | ").next())
        .collect();
    for name in LEFT_OUT {
        let quoted = format!("`{name}`");
        assert!(rows.iter().any(|row| row.contains(&quoted)), "{name} is neither here nor there");
    }
    println!("{} names are used, {} are left out", used.len(), LEFT_OUT.len());
    assert!(used.len() >= 206, "{} names", used.len());
}
