//! Keys, identifiers and points in plain Rust, by hand: what this crate is compared with.
#![allow(dead_code, clippy::unwrap_used, clippy::indexing_slicing, clippy::arithmetic_side_effects)]

/// The most bytes of a content.
const MAX: usize = 0x0FFF_FFFF;

#[derive(Clone, Copy, Debug, PartialEq, Eq)]
pub enum Error {
    Truncated,
    Tag,
    Length,
    TrailingData,
    Value,
    Overlength,
    Buffer,
    Point,
}

pub type Result<T> = std::result::Result<T, Error>;

/// The tag and the length that the bytes begin with, and the bytes behind them.
fn header(bytes: &[u8]) -> Result<(u8, usize, &[u8])> {
    let (&tag, rest) = bytes.split_first().ok_or(Error::Truncated)?;
    if tag == 0 || tag & 0x1F == 0x1F {
        return Err(Error::Tag);
    }
    let (length, rest) = length(rest)?;
    Ok((tag, length, rest))
}

/// The length that the bytes begin with, and the bytes behind it.
fn length(bytes: &[u8]) -> Result<(usize, &[u8])> {
    let (&first, rest) = bytes.split_first().ok_or(Error::Truncated)?;
    match first {
        0..=0x7F => Ok((usize::from(first), rest)),
        0x81..=0x84 => {
            let (digits, rest) =
                rest.split_at_checked(usize::from(first - 0x80)).ok_or(Error::Truncated)?;
            let length = digits.iter().fold(0, |n, &digit| n << 8 | usize::from(digit));
            if digits[0] == 0 || !(0x80..=MAX).contains(&length) {
                return Err(Error::Length);
            }
            Ok((length, rest))
        }
        _ => Err(Error::Length),
    }
}

struct Reader<'a> {
    rest: &'a [u8],
}

impl<'a> Reader<'a> {
    fn element(&mut self) -> Result<(u8, &'a [u8])> {
        let (tag, length, inside) = header(self.rest)?;
        let (content, rest) = inside.split_at_checked(length).ok_or(Error::Truncated)?;
        self.rest = rest;
        Ok((tag, content))
    }

    fn content(&mut self, tag: u8) -> Result<&'a [u8]> {
        match self.rest.first() {
            None => Err(Error::Truncated),
            Some(&first) if first != tag => Err(Error::Tag),
            Some(_) => Ok(self.element()?.1),
        }
    }

    fn optional(&mut self, tag: u8) -> Result<Option<&'a [u8]>> {
        if self.rest.first() == Some(&tag) { self.content(tag).map(Some) } else { Ok(None) }
    }

    fn finish(&self) -> Result<()> {
        if self.rest.is_empty() { Ok(()) } else { Err(Error::TrailingData) }
    }
}

/// The content of the one element with this tag that is all of the bytes.
fn only(bytes: &[u8], tag: u8) -> Result<&[u8]> {
    let mut reader = Reader { rest: bytes };
    let content = reader.content(tag)?;
    reader.finish()?;
    Ok(content)
}

/// The most bytes of an identifier's content.
const IDENTIFIER_CONTENT_MAX: usize = 39;

#[derive(Clone, Copy)]
pub struct Identifier {
    bytes: [u8; IDENTIFIER_CONTENT_MAX],
    len: usize,
}

impl Identifier {
    pub fn from_bytes(content: &[u8]) -> Result<Identifier> {
        if content.is_empty() || content.len() > IDENTIFIER_CONTENT_MAX {
            return Err(Error::Value);
        }
        let mut number: u32 = 0;
        let mut inside = false;
        for &byte in content {
            if number >= 1 << 25 || (!inside && byte == 0x80) {
                return Err(Error::Value);
            }
            inside = byte & 0x80 != 0;
            number = if inside { number << 7 | u32::from(byte & 0x7F) } else { 0 };
        }
        if inside {
            return Err(Error::Value);
        }
        let mut bytes = [0; IDENTIFIER_CONTENT_MAX];
        bytes[..content.len()].copy_from_slice(content);
        Ok(Identifier { bytes, len: content.len() })
    }

    pub fn parse(text: &str) -> Result<Identifier> {
        let mut arcs = text.split('.').map(arc);
        let first = arcs.next().ok_or(Error::Value)??;
        let second = arcs.next().ok_or(Error::Value)??;
        if first > 2 || (first < 2 && second >= 40) {
            return Err(Error::Value);
        }
        let mut identifier = Identifier { bytes: [0; IDENTIFIER_CONTENT_MAX], len: 0 };
        identifier.push(second.checked_add(40 * first).ok_or(Error::Value)?)?;
        for arc in arcs {
            identifier.push(arc?)?;
        }
        Ok(identifier)
    }

    fn push(&mut self, number: u32) -> Result<()> {
        let digits = (32 - (number | 1).leading_zeros() as usize).div_ceil(7);
        let place = self.bytes.get_mut(self.len..self.len + digits).ok_or(Error::Value)?;
        for (i, byte) in place.iter_mut().rev().enumerate() {
            *byte = (number >> (7 * i)) as u8 & 0x7F | if i == 0 { 0 } else { 0x80 };
        }
        self.len += digits;
        Ok(())
    }

    pub fn as_bytes(&self) -> &[u8] {
        &self.bytes[..self.len]
    }
}

fn arc(text: &str) -> Result<u32> {
    if text.starts_with('+') || (text.len() > 1 && text.starts_with('0')) {
        return Err(Error::Value);
    }
    text.parse().map_err(|_| Error::Value)
}

impl std::fmt::Display for Identifier {
    fn fmt(&self, f: &mut std::fmt::Formatter<'_>) -> std::fmt::Result {
        let mut number: u32 = 0;
        let mut is_first = true;
        for &byte in self.as_bytes() {
            number = number << 7 | u32::from(byte & 0x7F);
            if byte & 0x80 != 0 {
                continue;
            }
            if is_first {
                let first = (number / 40).min(2);
                write!(f, "{}.{}", first, number - 40 * first)?;
                is_first = false;
            } else {
                write!(f, ".{number}")?;
            }
            number = 0;
        }
        Ok(())
    }
}

pub struct Key<'a> {
    pub private_key: &'a [u8],
    pub curve: Option<Identifier>,
    pub public_key: Option<&'a [u8]>,
}

impl<'a> Key<'a> {
    pub fn from_der(input: &'a [u8]) -> Result<Key<'a>> {
        let mut outer = Reader { rest: input };
        let mut fields = Reader { rest: outer.content(0x30)? };
        if fields.content(0x02)? != [1] {
            return Err(Error::Value);
        }
        let private_key = fields.content(0x04)?;
        let curve = match fields.optional(0xA0)? {
            Some(field) => {
                let mut field = Reader { rest: field };
                let curve = Identifier::from_bytes(field.content(0x06)?)?;
                field.finish()?;
                Some(curve)
            }
            None => None,
        };
        let public_key = match fields.optional(0xA1)? {
            Some(field) => {
                let mut field = Reader { rest: field };
                let (&unused, bytes) = field.content(0x03)?.split_first().ok_or(Error::Value)?;
                let last = bytes.last().copied();
                if unused > 7
                    || (unused > 0
                        && last.is_none_or(|last| last.trailing_zeros() < u32::from(unused)))
                {
                    return Err(Error::Value);
                }
                field.finish()?;
                if unused > 0 {
                    return Err(Error::Value);
                }
                Some(bytes)
            }
            None => None,
        };
        fields.finish()?;
        outer.finish()?;
        Ok(Key { private_key, curve, public_key })
    }

    fn content_len(&self) -> Result<usize> {
        let mut len = 3 + element_len(self.private_key.len())?;
        if let Some(curve) = &self.curve {
            len += element_len(element_len(curve.len)?)?;
        }
        if let Some(public_key) = self.public_key {
            len += element_len(element_len(public_key.len() + 1)?)?;
        }
        Ok(len)
    }

    pub fn encode_to_slice(&self, buffer: &mut [u8]) -> Result<usize> {
        let len = self.content_len()?;
        let total = element_len(len)?;
        let mut writer = Writer { room: buffer.get_mut(..total).ok_or(Error::Buffer)? };
        self.write(len, &mut writer);
        Ok(total)
    }

    pub fn to_der(&self) -> Result<Vec<u8>> {
        let len = self.content_len()?;
        let mut der = vec![0; element_len(len)?];
        self.write(len, &mut Writer { room: &mut der });
        Ok(der)
    }

    fn write(&self, len: usize, writer: &mut Writer<'_>) {
        writer.header(0x30, len);
        writer.bytes(&[0x02, 1, 1]);
        writer.header(0x04, self.private_key.len());
        writer.bytes(self.private_key);
        if let Some(curve) = &self.curve {
            writer.header(0xA0, curve.len + header_len(curve.len));
            writer.header(0x06, curve.len);
            writer.bytes(curve.as_bytes());
        }
        if let Some(public_key) = self.public_key {
            let bits = public_key.len() + 1;
            writer.header(0xA1, bits + header_len(bits));
            writer.header(0x03, bits);
            writer.bytes(&[0]);
            writer.bytes(public_key);
        }
    }
}

fn header_len(length: usize) -> usize {
    match length {
        0..=0x7F => 2,
        0x80..=0xFF => 3,
        0x100..=0xFFFF => 4,
        0x1_0000..=0xFF_FFFF => 5,
        _ => 6,
    }
}

fn element_len(length: usize) -> Result<usize> {
    if length > MAX {
        return Err(Error::Overlength);
    }
    Ok(header_len(length) + length)
}

struct Writer<'b> {
    room: &'b mut [u8],
}

impl Writer<'_> {
    fn bytes(&mut self, bytes: &[u8]) {
        let (front, rest) = std::mem::take(&mut self.room).split_at_mut(bytes.len());
        front.copy_from_slice(bytes);
        self.room = rest;
    }

    fn header(&mut self, tag: u8, length: usize) {
        let [.., a, b, c, d] = length.to_be_bytes();
        match header_len(length) {
            2 => self.bytes(&[tag, d]),
            3 => self.bytes(&[tag, 0x81, d]),
            4 => self.bytes(&[tag, 0x82, c, d]),
            5 => self.bytes(&[tag, 0x83, b, c, d]),
            _ => self.bytes(&[tag, 0x84, a, b, c, d]),
        }
    }
}

#[derive(Clone, Copy)]
pub struct Point<const N: usize, const L: usize> {
    pub bytes: [u8; L],
    pub len: usize,
}

impl<const N: usize, const L: usize> Point<N, L> {
    pub fn from_bytes(input: &[u8]) -> Result<Self> {
        let &tag = input.first().ok_or(Error::Point)?;
        let len = match tag {
            0 => 1,
            2 | 3 | 5 => N + 1,
            4 => L,
            _ => return Err(Error::Point),
        };
        if input.len() != len {
            return Err(Error::Point);
        }
        let mut bytes = [0; L];
        bytes[..len].copy_from_slice(input);
        Ok(Point { bytes, len })
    }

    pub fn as_bytes(&self) -> &[u8] {
        &self.bytes[..self.len]
    }

    pub fn coordinates(&self) -> (Option<&[u8; N]>, Option<&[u8; N]>) {
        let x = self.as_bytes().get(1..1 + N).and_then(|x| x.try_into().ok());
        let y = self.as_bytes().get(1 + N..).and_then(|y| y.try_into().ok());
        (x, y)
    }

    pub fn compress(&self) -> Self {
        match self.bytes[0] {
            4 => {
                let mut bytes = self.bytes;
                bytes[0] = 2 + (bytes[L - 1] & 1);
                bytes[1 + N..].fill(0);
                Point { bytes, len: 1 + N }
            }
            _ => *self,
        }
    }

    pub fn parse(text: &str) -> Result<Self> {
        let digits = text.as_bytes();
        let has_upper = digits.iter().any(u8::is_ascii_uppercase);
        let has_lower = digits.iter().any(u8::is_ascii_lowercase);
        if digits.len() % 2 != 0 || digits.len() > 2 * L || (has_upper && has_lower) {
            return Err(Error::Point);
        }
        let mut bytes = [0; L];
        for (byte, pair) in bytes.iter_mut().zip(digits.chunks_exact(2)) {
            *byte = digit(pair[0])? << 4 | digit(pair[1])?;
        }
        Self::from_bytes(&bytes[..digits.len() / 2])
    }

    pub fn to_upper_hex(self) -> String {
        let mut text = String::with_capacity(2 * self.len);
        for &byte in self.as_bytes() {
            text.push(DIGITS[usize::from(byte >> 4)] as char);
            text.push(DIGITS[usize::from(byte & 15)] as char);
        }
        text
    }
}

const DIGITS: &[u8; 16] = b"0123456789ABCDEF";

fn digit(character: u8) -> Result<u8> {
    match character {
        b'0'..=b'9' => Ok(character - b'0'),
        b'A'..=b'F' => Ok(character - b'A' + 10),
        b'a'..=b'f' => Ok(character - b'a' + 10),
        _ => Err(Error::Point),
    }
}
