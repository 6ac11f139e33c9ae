//! The jobs of `sec1` by hand, as Rust programs do them: the same inputs are read, the same are refused for the same reasons,
//! and the same bytes are written. `main.rs` compares it with `sec1`.
#![allow(mismatched_lifetime_syntaxes)]
use std::cmp::Ordering;
use std::io::{self, Read};

/// The most bytes of a content.
const MAX: usize = 0x0FFF_FFFF;

/// The most bytes of an identifier's content.
const IDENTIFIER_CONTENT_MAX: usize = 39;

/// The most bytes that are asked for in one read of a content.
const STEP: usize = 4096;

#[derive(Clone, Copy, Debug, PartialEq, Eq)]
enum Error {
    Truncated = 1,
    Tag,
    Length,
    TrailingData,
    Value,
    Overlength,
    Buffer,
    Io,
    Depth,
    Point,
}

type Result<T> = std::result::Result<T, Error>;

impl From<io::Error> for Error {
    fn from(_: io::Error) -> Error {
        Error::Io
    }
}

/// The tag and the length that the bytes begin with, and the bytes behind them.
fn header(bytes: &[u8]) -> Result<(u8, usize, &[u8])> {
    let (&tag, rest) = bytes.split_first().ok_or(Error::Truncated)?;
    if tag == 0 || tag & 0x1F == 0x1F {
        return Err(Error::Tag);
    }
    let (length, rest) = length(rest)?;
    Ok((tag, length, rest))
}

/// The length that the bytes begin with, and the bytes behind it.
fn length(bytes: &[u8]) -> Result<(usize, &[u8])> {
    let (&first, rest) = bytes.split_first().ok_or(Error::Truncated)?;
    match first {
        0..=0x7F => Ok((usize::from(first), rest)),
        0x81..=0x84 => {
            let (digits, rest) = rest
                .split_at_checked(usize::from(first - 0x80))
                .ok_or(Error::Truncated)?;
            let length = digits
                .iter()
                .fold(0, |n, &digit| n << 8 | usize::from(digit));
            if digits[0] == 0 || length < 0x80 || length > MAX {
                return Err(Error::Length);
            }
            Ok((length, rest))
        }
        _ => Err(Error::Length),
    }
}

struct Reader<'a> {
    rest: &'a [u8],
}

impl<'a> Reader<'a> {
    fn header(&mut self) -> Result<(u8, usize)> {
        let (tag, length, inside) = header(self.rest)?;
        self.rest = inside;
        Ok((tag, length))
    }

    fn element(&mut self) -> Result<(u8, &'a [u8])> {
        let (tag, length, inside) = header(self.rest)?;
        let (content, rest) = inside.split_at_checked(length).ok_or(Error::Truncated)?;
        self.rest = rest;
        Ok((tag, content))
    }

    fn content(&mut self, tag: u8) -> Result<&'a [u8]> {
        match self.rest.first() {
            None => Err(Error::Truncated),
            Some(&first) if first != tag => Err(Error::Tag),
            Some(_) => Ok(self.element()?.1),
        }
    }

    fn optional(&mut self, tag: u8) -> Result<Option<&'a [u8]>> {
        if self.rest.first() == Some(&tag) {
            self.content(tag).map(Some)
        } else {
            Ok(None)
        }
    }

    fn finish(&self) -> Result<()> {
        if self.rest.is_empty() {
            Ok(())
        } else {
            Err(Error::TrailingData)
        }
    }
}

/// The content of the one element with this tag that is all of the bytes.
fn only(bytes: &[u8], tag: u8) -> Result<&[u8]> {
    let mut reader = Reader { rest: bytes };
    let content = reader.content(tag)?;
    reader.finish()?;
    Ok(content)
}

#[derive(Clone, Copy)]
struct Identifier {
    bytes: [u8; IDENTIFIER_CONTENT_MAX],
    len: usize,
}

const ID_EC_PUBLIC_KEY: Identifier = {
    let mut bytes = [0; IDENTIFIER_CONTENT_MAX];
    let content = [0x2A, 0x86, 0x48, 0xCE, 0x3D, 0x02, 0x01];
    let mut i = 0;
    while i < content.len() {
        bytes[i] = content[i];
        i += 1;
    }
    Identifier { bytes, len: 7 }
};

impl Identifier {
    fn from_bytes(content: &[u8]) -> Result<Identifier> {
        if content.is_empty() || content.len() > IDENTIFIER_CONTENT_MAX {
            return Err(Error::Value);
        }
        let mut number: u32 = 0;
        let mut inside = false;
        for &byte in content {
            if number >= 1 << 25 || (!inside && byte == 0x80) {
                return Err(Error::Value);
            }
            inside = byte & 0x80 != 0;
            number = if inside {
                number << 7 | u32::from(byte & 0x7F)
            } else {
                0
            };
        }
        if inside {
            return Err(Error::Value);
        }
        let mut bytes = [0; IDENTIFIER_CONTENT_MAX];
        bytes[..content.len()].copy_from_slice(content);
        Ok(Identifier {
            bytes,
            len: content.len(),
        })
    }

    fn parse(text: &str) -> Result<Identifier> {
        let mut arcs = text.split('.').map(arc);
        let first = arcs.next().ok_or(Error::Value)??;
        let second = arcs.next().ok_or(Error::Value)??;
        if first > 2 || (first < 2 && second >= 40) {
            return Err(Error::Value);
        }
        let mut identifier = Identifier {
            bytes: [0; IDENTIFIER_CONTENT_MAX],
            len: 0,
        };
        identifier.push(second.checked_add(40 * first).ok_or(Error::Value)?)?;
        for arc in arcs {
            identifier.push(arc?)?;
        }
        Ok(identifier)
    }

    fn push(&mut self, number: u32) -> Result<()> {
        let digits = (32 - (number | 1).leading_zeros() as usize).div_ceil(7);
        let place = self
            .bytes
            .get_mut(self.len..self.len + digits)
            .ok_or(Error::Value)?;
        for (i, byte) in place.iter_mut().rev().enumerate() {
            *byte = (number >> (7 * i)) as u8 & 0x7F | if i == 0 { 0 } else { 0x80 };
        }
        self.len += digits;
        Ok(())
    }

    fn as_bytes(&self) -> &[u8] {
        &self.bytes[..self.len]
    }

    fn text(&self) -> String {
        self.to_string()
    }
}

fn arc(text: &str) -> Result<u32> {
    if text.starts_with('+') || (text.len() > 1 && text.starts_with('0')) {
        return Err(Error::Value);
    }
    text.parse().map_err(|_| Error::Value)
}

impl std::fmt::Display for Identifier {
    fn fmt(&self, f: &mut std::fmt::Formatter) -> std::fmt::Result {
        let mut number: u32 = 0;
        let mut is_first = true;
        for &byte in self.as_bytes() {
            number = number << 7 | u32::from(byte & 0x7F);
            if byte & 0x80 != 0 {
                continue;
            }
            if is_first {
                let first = (number / 40).min(2);
                write!(f, "{}.{}", first, number - 40 * first)?;
                is_first = false;
            } else {
                write!(f, ".{number}")?;
            }
            number = 0;
        }
        Ok(())
    }
}

/// The identifier that is all of the bytes.
fn identifier(field: &[u8]) -> Result<Identifier> {
    let mut reader = Reader { rest: field };
    let identifier = Identifier::from_bytes(reader.content(0x06)?)?;
    reader.finish()?;
    Ok(identifier)
}

/// The bytes of the bit string that is all of the bytes.
fn bits(field: &[u8]) -> Result<&[u8]> {
    let mut reader = Reader { rest: field };
    match (reader.content(0x03)?, reader.rest) {
        ([0, bytes @ ..], []) => Ok(bytes),
        (content, behind) => Err(bits_fault(content, behind)),
    }
}

/// Why a bit string with these bytes behind it isn't whole bytes, and nothing else.
fn bits_fault(content: &[u8], behind: &[u8]) -> Error {
    let is_bits = match content {
        [0, ..] => true,
        [unused @ 1..=7, .., last] => last & ((1 << unused) - 1) == 0,
        _ => false,
    };
    if is_bits && !behind.is_empty() {
        Error::TrailingData
    } else {
        Error::Value
    }
}

struct Key<'a> {
    private_key: &'a [u8],
    curve: Option<Identifier>,
    public_key: Option<&'a [u8]>,
}

impl<'a> Key<'a> {
    fn from_der(input: &'a [u8]) -> Result<Key<'a>> {
        let mut outer = Reader { rest: input };
        let mut fields = Reader {
            rest: outer.content(0x30)?,
        };
        if fields.content(0x02)? != [1] {
            return Err(Error::Value);
        }
        let private_key = fields.content(0x04)?;
        let curve = match fields.optional(0xA0)? {
            Some(field) => Some(identifier(field)?),
            None => None,
        };
        let public_key = match fields.optional(0xA1)? {
            Some(field) => Some(bits(field)?),
            None => None,
        };
        fields.finish()?;
        outer.finish()?;
        Ok(Key {
            private_key,
            curve,
            public_key,
        })
    }

    fn content_len(&self) -> Result<usize> {
        let mut len = 3 + element_len(self.private_key.len())?;
        if let Some(curve) = &self.curve {
            len += element_len(element_len(curve.len)?)?;
        }
        if let Some(public_key) = self.public_key {
            len += element_len(element_len(public_key.len() + 1)?)?;
        }
        Ok(len)
    }

    fn encode_to_slice(&self, buffer: &mut [u8]) -> Result<usize> {
        let len = self.content_len()?;
        let total = element_len(len)?;
        let mut writer = Writer {
            room: buffer.get_mut(..total).ok_or(Error::Buffer)?,
        };
        self.write(len, &mut writer);
        Ok(total)
    }

    fn to_der(&self) -> Result<Vec<u8>> {
        let len = self.content_len()?;
        let mut der = vec![0; element_len(len)?];
        self.write(len, &mut Writer { room: &mut der });
        Ok(der)
    }

    fn write(&self, len: usize, writer: &mut Writer) {
        writer.header(0x30, len);
        writer.bytes(&[0x02, 1, 1]);
        writer.header(0x04, self.private_key.len());
        writer.bytes(self.private_key);
        if let Some(curve) = &self.curve {
            writer.header(0xA0, curve.len + header_len(curve.len));
            writer.header(0x06, curve.len);
            writer.bytes(curve.as_bytes());
        }
        if let Some(public_key) = self.public_key {
            let bits = public_key.len() + 1;
            writer.header(0xA1, bits + header_len(bits));
            writer.header(0x03, bits);
            writer.bytes(&[0]);
            writer.bytes(public_key);
        }
    }
}

fn header_len(length: usize) -> usize {
    match length {
        0..=0x7F => 2,
        0x80..=0xFF => 3,
        0x100..=0xFFFF => 4,
        0x1_0000..=0xFF_FFFF => 5,
        _ => 6,
    }
}

fn element_len(length: usize) -> Result<usize> {
    if length > MAX {
        return Err(Error::Overlength);
    }
    Ok(header_len(length) + length)
}

struct Writer<'b> {
    room: &'b mut [u8],
}

impl Writer<'_> {
    #[inline(always)]
    fn bytes(&mut self, bytes: &[u8]) {
        let (front, rest) = std::mem::take(&mut self.room).split_at_mut(bytes.len());
        front.copy_from_slice(bytes);
        self.room = rest;
    }

    #[inline(always)]
    fn header(&mut self, tag: u8, length: usize) {
        let [.., a, b, c, d] = length.to_be_bytes();
        match header_len(length) {
            2 => self.bytes(&[tag, d]),
            3 => self.bytes(&[tag, 0x81, d]),
            4 => self.bytes(&[tag, 0x82, c, d]),
            5 => self.bytes(&[tag, 0x83, b, c, d]),
            _ => self.bytes(&[tag, 0x84, a, b, c, d]),
        }
    }
}

/// The number of elements of the tree that is all of the bytes, at most 64 deep.
fn check_tree(input: &[u8]) -> Result<usize> {
    let mut ends = [0; 64];
    let mut level = 0;
    let mut count = 0;
    let mut at = 0;
    ends[0] = input.len();
    loop {
        let (tag, length, inside) = header(&input[at..ends[level]])?;
        let start = ends[level] - inside.len();
        if length > inside.len() {
            return Err(Error::Truncated);
        }
        count += 1;
        if length > 0 && tag & 0x20 != 0 {
            level += 1;
            *ends.get_mut(level).ok_or(Error::Depth)? = start + length;
            at = start;
        } else {
            at = start + length;
        }
        while level > 0 && at == ends[level] {
            level -= 1;
        }
        if level == 0 {
            return if at == input.len() {
                Ok(count)
            } else {
                Err(Error::TrailingData)
            };
        }
    }
}

/// The bytes of one element, owned.
fn document(bytes: &[u8]) -> Result<Vec<u8>> {
    let (_, length, inside) = header(bytes)?;
    if inside.len() < length {
        return Err(Error::Truncated);
    }
    if inside.len() > length {
        return Err(Error::TrailingData);
    }
    Ok(bytes.to_vec())
}

/// The bytes of the one element that the reader has left. The header is asked for a byte at a time, and the memory grows by
/// at most 4,096 bytes at once.
fn read_document<R: Read>(reader: &mut R) -> Result<Vec<u8>> {
    let mut octets = [0; 6];
    let mut count = 0;
    let length = loop {
        match header(&octets[..count]) {
            Ok((_, length, _)) => break length,
            Err(Error::Truncated) => {}
            Err(error) => return Err(error),
        }
        if reader.read(&mut octets[count..count + 1])? == 0 {
            return Err(Error::Truncated);
        }
        count += 1;
    };
    let mut bytes = Vec::with_capacity(count + length.min(STEP));
    bytes.extend_from_slice(&octets[..count]);
    let total = count + length;
    while bytes.len() < total {
        let held = bytes.len();
        let step = (total - held).min(STEP);
        bytes.reserve_exact(step);
        bytes.resize(held + step, 0);
        fill(reader, &mut bytes[held..])?;
    }
    if reader.read(&mut [0])? > 0 {
        return Err(Error::TrailingData);
    }
    Ok(bytes)
}

fn fill<R: Read>(reader: &mut R, mut room: &mut [u8]) -> Result<()> {
    while !room.is_empty() {
        match reader.read(room)? {
            0 => return Err(Error::Truncated),
            count => room = &mut room[count..],
        }
    }
    Ok(())
}

#[derive(Clone, Copy)]
struct Point {
    bytes: [u8; 65],
    len: usize,
}

const IDENTITY: Point = Point {
    bytes: [0; 65],
    len: 1,
};

impl Point {
    fn from_bytes(input: &[u8]) -> Result<Point> {
        let &tag = input.first().ok_or(Error::Point)?;
        let len = match tag {
            0 => 1,
            2 | 3 | 5 => 33,
            4 | 6 | 7 => 65,
            _ => return Err(Error::Point),
        };
        if input.len() != len || (tag >= 6 && input[64] & 1 != tag & 1) {
            return Err(Error::Point);
        }
        let mut bytes = [0; 65];
        bytes[..len].copy_from_slice(input);
        Ok(Point { bytes, len })
    }

    fn parse(text: &str) -> Result<Point> {
        let digits = text.as_bytes();
        let has_upper = digits.iter().any(u8::is_ascii_uppercase);
        let has_lower = digits.iter().any(u8::is_ascii_lowercase);
        if digits.len() % 2 != 0 || digits.len() > 130 || (has_upper && has_lower) {
            return Err(Error::Point);
        }
        let mut bytes = [0; 65];
        for (byte, pair) in bytes.iter_mut().zip(digits.chunks_exact(2)) {
            *byte = digit(pair[0])? << 4 | digit(pair[1])?;
        }
        Point::from_bytes(&bytes[..digits.len() / 2])
    }

    fn as_bytes(&self) -> &[u8] {
        &self.bytes[..self.len]
    }

    fn to_bytes(&self) -> Box<[u8]> {
        self.as_bytes().into()
    }

    fn compare(&self, other: &Point) -> Ordering {
        self.as_bytes().cmp(other.as_bytes())
    }

    fn to_upper_hex(&self) -> String {
        let mut text = String::with_capacity(2 * self.len);
        for &byte in self.as_bytes() {
            text.push(DIGITS[usize::from(byte >> 4)] as char);
            text.push(DIGITS[usize::from(byte & 15)] as char);
        }
        text
    }

    fn compress(&self) -> Point {
        match self.bytes[0] {
            4 | 6 | 7 => {
                let mut bytes = self.bytes;
                bytes[0] = 2 + (bytes[64] & 1);
                Point { bytes, len: 33 }
            }
            _ => *self,
        }
    }
}

impl std::fmt::Display for Point {
    fn fmt(&self, f: &mut std::fmt::Formatter) -> std::fmt::Result {
        for byte in self.as_bytes() {
            write!(f, "{byte:02X}")?;
        }
        Ok(())
    }
}

impl PartialEq for Point {
    fn eq(&self, other: &Point) -> bool {
        self.as_bytes() == other.as_bytes()
    }
}

const DIGITS: &[u8; 16] = b"0123456789ABCDEF";

fn digit(character: u8) -> Result<u8> {
    match character {
        b'0'..=b'9' => Ok(character - b'0'),
        b'A'..=b'F' => Ok(character - b'A' + 10),
        b'a'..=b'f' => Ok(character - b'a' + 10),
        _ => Err(Error::Point),
    }
}

/// A reader that gives as many of its bytes as are asked for.
struct Whole<'a> {
    rest: &'a [u8],
}

impl Read for Whole<'_> {
    fn read(&mut self, buf: &mut [u8]) -> io::Result<usize> {
        let count = self.rest.len().min(buf.len());
        let (front, rest) = self.rest.split_at(count);
        buf[..count].copy_from_slice(front);
        self.rest = rest;
        Ok(count)
    }
}

/// A reader that gives one byte a call.
struct Single<'a> {
    rest: &'a [u8],
}

impl Read for Single<'_> {
    fn read(&mut self, buf: &mut [u8]) -> io::Result<usize> {
        let Some((&first, rest)) = self.rest.split_first() else {
            return Ok(0);
        };
        if buf.is_empty() {
            return Ok(0);
        }
        buf[0] = first;
        self.rest = rest;
        Ok(1)
    }
}

/// An algorithm's identifier, and its parameters.
type Algorithm<'a> = (&'a [u8], &'a [u8]);

/// A certificate (RFC 5280 section 4.1), all of whose fields are kept.
#[allow(dead_code)]
struct Certificate<'a> {
    version: Option<&'a [u8]>,
    serial_number: &'a [u8],
    signature: Algorithm<'a>,
    issuer: &'a [u8],
    validity: [(u8, &'a [u8]); 2],
    subject: &'a [u8],
    key_algorithm: Algorithm<'a>,
    public_key: &'a [u8],
    issuer_unique_id: Option<&'a [u8]>,
    subject_unique_id: Option<&'a [u8]>,
    extensions: Option<&'a [u8]>,
    signature_algorithm: Algorithm<'a>,
    signature_value: &'a [u8],
}

impl<'a> Certificate<'a> {
    fn from_der(input: &'a [u8]) -> Result<Certificate<'a>> {
        let mut outer = Reader {
            rest: only(input, 0x30)?,
        };
        let mut fields = Reader {
            rest: outer.content(0x30)?,
        };
        let version = fields.optional(0xA0)?.map(version).transpose()?;
        let serial_number = integer(fields.content(0x02)?)?;
        let signature = algorithm(fields.content(0x30)?)?;
        let issuer = name(fields.content(0x30)?)?;
        let mut times = Reader {
            rest: fields.content(0x30)?,
        };
        let validity = [time(times.element()?)?, time(times.element()?)?];
        times.finish()?;
        let subject = name(fields.content(0x30)?)?;
        let mut key = Reader {
            rest: fields.content(0x30)?,
        };
        let key_algorithm = algorithm(key.content(0x30)?)?;
        let public_key = bit_string(key.content(0x03)?)?;
        key.finish()?;
        let issuer_unique_id = fields.optional(0x81)?.map(bit_string).transpose()?;
        let subject_unique_id = fields.optional(0x82)?.map(bit_string).transpose()?;
        let extensions = fields.optional(0xA3)?.map(extensions).transpose()?;
        fields.finish()?;
        let signature_algorithm = algorithm(outer.content(0x30)?)?;
        let signature_value = bit_string(outer.content(0x03)?)?;
        outer.finish()?;
        Ok(Certificate {
            version,
            serial_number,
            signature,
            issuer,
            validity,
            subject,
            key_algorithm,
            public_key,
            issuer_unique_id,
            subject_unique_id,
            extensions,
            signature_algorithm,
            signature_value,
        })
    }

    fn point(&self) -> Result<Point> {
        match self.public_key {
            [0, bytes @ ..] if is_p256(self.key_algorithm) => Point::from_bytes(bytes),
            _ => Err(Error::Value),
        }
    }
}

/// The content of a bit string, unused bits and all.
fn bit_string(content: &[u8]) -> Result<&[u8]> {
    match content {
        [0, ..] => Ok(content),
        [unused @ 1..=7, .., last] if last & ((1 << unused) - 1) == 0 => Ok(content),
        _ => Err(Error::Value),
    }
}

fn integer(content: &[u8]) -> Result<&[u8]> {
    match content {
        [] | [0, 0..=0x7F, ..] | [0xFF, 0x80..=0xFF, ..] => Err(Error::Value),
        _ => Ok(content),
    }
}

fn version(field: &[u8]) -> Result<&[u8]> {
    match only(field, 0x02)? {
        number @ [1 | 2] => Ok(number),
        _ => Err(Error::Value),
    }
}

/// An identifier's content of any length, with numbers of any size.
fn long_identifier(content: &[u8]) -> Result<&[u8]> {
    let mut begins = true;
    for &byte in content {
        if begins && byte == 0x80 {
            return Err(Error::Value);
        }
        begins = byte < 0x80;
    }
    if content.is_empty() || !begins {
        return Err(Error::Value);
    }
    Ok(content)
}

fn algorithm(content: &[u8]) -> Result<Algorithm> {
    let mut fields = Reader { rest: content };
    let kind = long_identifier(fields.content(0x06)?)?;
    let parameters = fields.rest;
    if !parameters.is_empty() {
        fields.element()?;
    }
    fields.finish()?;
    Ok((kind, parameters))
}

fn is_p256((kind, parameters): Algorithm) -> bool {
    kind == ID_EC_PUBLIC_KEY.as_bytes()
        && parameters == [6, 8, 0x2A, 0x86, 0x48, 0xCE, 0x3D, 3, 1, 7]
}

fn name(content: &[u8]) -> Result<&[u8]> {
    let mut sets = Reader { rest: content };
    while !sets.rest.is_empty() {
        let mut set = Reader {
            rest: sets.content(0x31)?,
        };
        let mut last: &[u8] = &[];
        while !set.rest.is_empty() {
            let front = set.rest;
            let mut fields = Reader {
                rest: set.content(0x30)?,
            };
            long_identifier(fields.content(0x06)?)?;
            fields.element()?;
            fields.finish()?;
            let element = &front[..front.len() - set.rest.len()];
            if element < last {
                return Err(Error::Value);
            }
            last = element;
        }
    }
    Ok(content)
}

/// A UTCTime, or a GeneralizedTime, which may have a fraction that doesn't end in 0 (X.690 section 11.7).
fn time((tag, content): (u8, &[u8])) -> Result<(u8, &[u8])> {
    let (years, text) = match (tag, content) {
        (0x17, [text @ .., b'Z']) => (2, text),
        (0x18, [text @ .., b'Z']) => (4, text),
        (0x17 | 0x18, _) => return Err(Error::Value),
        _ => return Err(Error::Tag),
    };
    let (moment, fraction) = text.split_at_checked(years + 10).ok_or(Error::Value)?;
    let is_fraction = match fraction {
        [] => true,
        [b'.', digits @ .., last] => {
            tag == 0x18 && digits.iter().all(u8::is_ascii_digit) && matches!(last, b'1'..=b'9')
        }
        _ => false,
    };
    if !is_fraction || !moment.iter().all(u8::is_ascii_digit) {
        return Err(Error::Value);
    }
    let pair = |i: usize| u32::from(10 * (moment[i] - b'0') + moment[i + 1] - b'0');
    let year = if years == 4 {
        100 * pair(0) + pair(2)
    } else {
        pair(0)
    };
    let is_leap = year % 4 == 0 && (year % 100 != 0 || year % 400 == 0);
    let days = match pair(years) {
        2 if is_leap => 29,
        2 => 28,
        4 | 6 | 9 | 11 => 30,
        1..=12 => 31,
        _ => 0,
    };
    if !(1..=days).contains(&pair(years + 2))
        || pair(years + 4) > 23
        || pair(years + 6) > 59
        || pair(years + 8) > 59
    {
        return Err(Error::Value);
    }
    Ok((tag, content))
}

fn extensions(field: &[u8]) -> Result<&[u8]> {
    let content = only(field, 0x30)?;
    let mut extensions = Reader { rest: content };
    while !extensions.rest.is_empty() {
        extension(extensions.content(0x30)?)?;
    }
    Ok(content)
}

fn extension(content: &[u8]) -> Result<()> {
    let mut fields = Reader { rest: content };
    long_identifier(fields.content(0x06)?)?;
    if !matches!(fields.optional(0x01)?, None | Some([0xFF])) {
        return Err(Error::Value);
    }
    fields.content(0x04)?;
    fields.finish()
}

/// The point of the key in a container (RFC 5208 section 5), whose curve the key may name.
fn container_point(input: &[u8]) -> Result<Point> {
    let mut fields = Reader {
        rest: only(input, 0x30)?,
    };
    if fields.content(0x02)? != [0] {
        return Err(Error::Value);
    }
    let on_curve = is_p256(algorithm(fields.content(0x30)?)?);
    let key = Key::from_der(fields.content(0x04)?)?;
    fields.optional(0xA0)?;
    fields.finish()?;
    let named = key
        .curve
        .is_none_or(|curve| curve.as_bytes() == [0x2A, 0x86, 0x48, 0xCE, 0x3D, 3, 1, 7]);
    if !on_curve || !named {
        return Err(Error::Value);
    }
    Point::from_bytes(key.public_key.unwrap_or_default())
}

/// The calls that are measured, each with the arguments and the result of the export of `sec1_bench` that it is named for.
/// Those that aren't `_inline` call what they measure out of line.
pub mod calls {
    use super::*;

    fn length_and_last(bytes: &[u8]) -> usize {
        bytes
            .last()
            .map_or(0, |&last| bytes.len() + usize::from(last))
    }

    fn key_sum(key: Result<Key>) -> usize {
        key.map_or_else(
            |error| error as usize,
            |key| {
                let curve = key
                    .curve
                    .map_or(0, |curve| length_and_last(curve.as_bytes()));
                let public_key = key.public_key.map_or(0, length_and_last);
                length_and_last(key.private_key) + curve + public_key
            },
        )
    }

    #[inline(never)]
    fn read(input: &[u8]) -> Result<Key> {
        Key::from_der(input)
    }

    #[inline(never)]
    pub fn key_read(input: &[u8]) -> usize {
        key_sum(read(input))
    }

    #[inline(never)]
    pub fn key_point(input: &[u8]) -> usize {
        let point = Key::from_der(input)
            .and_then(|key| Point::from_bytes(key.public_key.unwrap_or_default()));
        point.map_or(0, |point| length_and_last(point.as_bytes()))
    }

    fn full<'a>(private_key: &'a [u8], public_key: &'a [u8]) -> Key<'a> {
        Key {
            private_key,
            curve: Some(ID_EC_PUBLIC_KEY),
            public_key: Some(public_key),
        }
    }

    #[inline(never)]
    fn write(key: &Key, out: &mut [u8]) -> usize {
        key.encode_to_slice(out).unwrap_or(0)
    }

    #[inline(never)]
    pub fn key_write(private_key: &[u8], public_key: &[u8], out: &mut [u8]) -> usize {
        write(&full(private_key, public_key), out)
    }

    #[inline(never)]
    pub fn key_write_inline(private_key: &[u8], public_key: &[u8], out: &mut [u8]) -> usize {
        full(private_key, public_key)
            .encode_to_slice(out)
            .unwrap_or(0)
    }

    #[inline(never)]
    pub fn key_write_bare(private_key: &[u8], out: &mut [u8]) -> usize {
        write(
            &Key {
                private_key,
                curve: None,
                public_key: None,
            },
            out,
        )
    }

    #[inline(never)]
    pub fn key_write_bare_inline(private_key: &[u8], out: &mut [u8]) -> usize {
        let key = Key {
            private_key,
            curve: None,
            public_key: None,
        };
        key.encode_to_slice(out).unwrap_or(0)
    }

    #[inline(never)]
    pub fn key_rewrite(input: &[u8], out: &mut [u8]) -> usize {
        Key::from_der(input)
            .and_then(|key| key.encode_to_slice(out))
            .unwrap_or(0)
    }

    #[inline(never)]
    fn content(input: &[u8]) -> Result<Identifier> {
        Identifier::from_bytes(input)
    }

    #[inline(never)]
    pub fn identifier_read(input: &[u8]) -> usize {
        content(input).map_or(0, |identifier| length_and_last(identifier.as_bytes()))
    }

    #[inline(never)]
    pub fn identifier_read_inline(input: &[u8]) -> usize {
        Identifier::from_bytes(input).map_or(0, |identifier| length_and_last(identifier.as_bytes()))
    }

    #[inline(never)]
    pub fn identifier_parse(input: &[u8]) -> usize {
        let text = std::str::from_utf8(input).unwrap_or_default();
        Identifier::parse(text).map_or(0, |identifier| length_and_last(identifier.as_bytes()))
    }

    #[inline(never)]
    pub fn identifier_text(input: &[u8]) -> usize {
        Identifier::from_bytes(input).map_or(0, |identifier| {
            std::hint::black_box(identifier.text()).len()
        })
    }

    #[inline(never)]
    fn point(input: &[u8]) -> Result<Point> {
        Point::from_bytes(input)
    }

    #[inline(never)]
    pub fn point_read(input: &[u8]) -> usize {
        point(input).map_or(0, |point| length_and_last(point.as_bytes()))
    }

    #[inline(never)]
    pub fn point_read_inline(input: &[u8]) -> usize {
        Point::from_bytes(input).map_or(0, |point| length_and_last(point.as_bytes()))
    }

    #[inline(never)]
    pub fn point_copy(input: &[u8]) -> usize {
        Point::from_bytes(input).map_or(0, |point| std::hint::black_box(point.to_bytes()).len())
    }

    #[inline(never)]
    pub fn point_parse(input: &[u8], rounds: usize) -> usize {
        let text = std::str::from_utf8(input).unwrap_or_default();
        (0..rounds)
            .filter_map(|_| Point::parse(text).ok())
            .map(|point| length_and_last(point.as_bytes()))
            .sum()
    }

    #[inline(never)]
    pub fn point_text(input: &[u8]) -> usize {
        Point::from_bytes(input).map_or(0, |point| std::hint::black_box(point.to_upper_hex()).len())
    }

    pub fn point_print(input: &[u8]) -> usize {
        Point::from_bytes(input).map_or(0, |point| std::hint::black_box(point.to_string()).len())
    }

    fn points(input: &[u8]) -> [Point; 64] {
        let mut points = [IDENTITY; 64];
        for (point, bytes) in points.iter_mut().zip(input.chunks_exact(65)) {
            *point = Point::from_bytes(bytes).unwrap_or(IDENTITY);
        }
        points
    }

    #[inline(never)]
    fn compressed(point: &Point) -> Point {
        point.compress()
    }

    #[inline(never)]
    fn order(first: &Point, second: &Point) -> std::cmp::Ordering {
        first.compare(second)
    }

    #[inline(never)]
    fn same(first: &Point, second: &Point) -> bool {
        first == second
    }

    #[inline(always)]
    fn compress_all(
        input: &[u8],
        out: &mut [u8],
        rounds: usize,
        f: impl Fn(&Point) -> Point,
    ) -> usize {
        let points = points(input);
        let mut sum = 0;
        for _ in 0..rounds {
            for point in &points {
                let compressed = f(point);
                let bytes = compressed.as_bytes();
                if let Some(room) = out.get_mut(..bytes.len()) {
                    room.copy_from_slice(bytes);
                }
                sum += bytes.len();
            }
        }
        sum
    }

    #[inline(always)]
    fn count(input: &[u8], rounds: usize, f: impl Fn(&Point, &Point) -> bool) -> usize {
        let points = points(input);
        (0..rounds)
            .map(|_| {
                points
                    .windows(2)
                    .filter(|pair| f(&pair[0], &pair[1]))
                    .count()
            })
            .sum()
    }

    #[inline(never)]
    pub fn points_compress(input: &[u8], out: &mut [u8], rounds: usize) -> usize {
        compress_all(input, out, rounds, compressed)
    }

    #[inline(never)]
    pub fn points_compress_inline(input: &[u8], out: &mut [u8], rounds: usize) -> usize {
        compress_all(input, out, rounds, |point| point.compress())
    }

    #[inline(never)]
    pub fn points_cmp(input: &[u8], rounds: usize) -> usize {
        count(input, rounds, |first, second| order(first, second).is_lt())
    }

    #[inline(never)]
    pub fn points_eq(input: &[u8], rounds: usize) -> usize {
        count(input, rounds, same)
    }

    #[inline(never)]
    pub fn points_eq_inline(input: &[u8], rounds: usize) -> usize {
        count(input, rounds, |first, second| first == second)
    }

    #[inline(never)]
    pub fn empty(_input: &[u8]) -> usize {
        0
    }

    #[inline(never)]
    fn front(bytes: &[u8]) -> Result<(u8, usize, &[u8])> {
        header(bytes)
    }

    #[inline(never)]
    fn front_by_reader(reader: &mut Reader) -> Result<(u8, usize)> {
        reader.header()
    }

    #[inline(never)]
    pub fn key_document(private_key: &[u8], public_key: &[u8]) -> usize {
        let key = Key {
            private_key,
            curve: Some(ID_EC_PUBLIC_KEY),
            public_key: Some(public_key),
        };
        key.to_der()
            .map_or(0, |der| std::hint::black_box(der).len())
    }

    #[inline(never)]
    pub fn document_copy(input: &[u8]) -> usize {
        document(input).map_or(0, |bytes| std::hint::black_box(bytes).len())
    }

    #[inline(never)]
    pub fn document_read(input: &[u8]) -> usize {
        read_document(&mut Whole { rest: input })
            .map_or(0, |bytes| std::hint::black_box(bytes).len())
    }

    #[inline(never)]
    pub fn document_read_bytes(input: &[u8]) -> usize {
        read_document(&mut Single { rest: input })
            .map_or(0, |bytes| std::hint::black_box(bytes).len())
    }

    #[inline(never)]
    pub fn headers_read(input: &[u8]) -> usize {
        let mut sum = 0;
        let mut rest = input;
        while let Ok((_, length, behind)) = front(rest) {
            sum += length;
            rest = behind;
        }
        sum
    }

    #[inline(never)]
    pub fn headers_read_by_reader(input: &[u8]) -> usize {
        let mut sum = 0;
        let mut reader = Reader { rest: input };
        while let Ok((_, length)) = front_by_reader(&mut reader) {
            sum += length;
        }
        sum
    }

    #[inline(never)]
    pub fn headers_read_inline(input: &[u8]) -> usize {
        let mut sum = 0;
        let mut rest = input;
        while let Ok((_, length, behind)) = header(rest) {
            sum += length;
            rest = behind;
        }
        sum
    }

    #[inline(never)]
    pub fn tree_check(input: &[u8]) -> usize {
        check_tree(input).unwrap_or(0)
    }

    #[inline(never)]
    fn certificate(input: &[u8]) -> Result<Certificate> {
        Certificate::from_der(input)
    }

    fn point_sum(point: Result<Point>) -> usize {
        point.map_or(0, |point| length_and_last(point.as_bytes()))
    }

    #[inline(never)]
    pub fn certificate_point(input: &[u8]) -> usize {
        point_sum(Certificate::from_der(input).and_then(|certificate| certificate.point()))
    }

    #[inline(never)]
    pub fn certificate_point_called(input: &[u8]) -> usize {
        point_sum(certificate(input).and_then(|certificate| certificate.point()))
    }

    #[inline(never)]
    pub fn container_point(input: &[u8]) -> usize {
        point_sum(super::container_point(input))
    }
}
