//! Numbers that aren't negative (X.690 section 8.3).

use super::super::{
    DecodeValue, EncodeValue, Error, ErrorKind, FixedTag, Header, Length, Reader, Result, Tag,
    Writer,
};

/// Returns the bytes of a number whose highest bit isn't set, without those that a minimal content
/// doesn't have.
fn content(bytes: &[u8; 9]) -> &[u8] {
    let mut rest = &bytes[..];
    while let [0, after @ ..] = rest {
        match after.first() {
            Some(..0x80) => rest = after,
            _ => break,
        }
    }
    rest
}

macro_rules! integers {
    ($($name:ty)*) => {$(
        impl FixedTag for $name {
            const TAG: Tag = Tag::Integer;
        }

        impl<'a> DecodeValue<'a> for $name {
            type Error = Error;

            fn decode_value<R: Reader<'a>>(reader: &mut R, header: Header) -> Result<Self> {
                let value = Error::of_kind(ErrorKind::Value);
                let mut number: u64 = 0;
                match reader.read_slice(header.length())? {
                    [] | [0x80..=0xFF, ..] | [0, ..0x80, ..] => return Err(value),
                    bytes if bytes.len() > 9 => return Err(value),
                    bytes => {
                        for byte in bytes {
                            let high = number.checked_mul(0x100).ok_or(value)?;
                            number = high | u64::from(*byte);
                        }
                    }
                }
                number.try_into().map_err(|_| value)
            }
        }

        impl EncodeValue for $name {
            fn value_len(&self) -> Result<Length> {
                content(&with_sign((*self).into())).len().try_into()
            }

            fn encode_value(&self, writer: &mut impl Writer) -> Result<()> {
                writer.write(content(&with_sign((*self).into())))
            }
        }
    )*};
}

integers! { u8 u16 u32 u64 }

/// Returns the bytes of a number after a byte 0, so that the highest bit isn't set.
fn with_sign(number: u64) -> [u8; 9] {
    let mut bytes = [0; 9];
    let (_, rest) = bytes.split_at_mut(1);
    rest.copy_from_slice(&number.to_be_bytes());
    bytes
}
