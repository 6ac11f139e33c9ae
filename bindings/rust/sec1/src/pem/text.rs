//! Texts and files in PEM.

use super::{LineEnding, decode, room_len};
use crate::der::{Error, ErrorKind, Result};
#[cfg(feature = "std")]
use crate::zeroize::Zeroize;
use crate::zeroize::Zeroizing;
use alloc::string::String;
use alloc::vec::Vec;
#[cfg(feature = "std")]
use std::{fs::File, io::Read, path::Path};

/// Returns the label of the first block of a text.
pub(crate) fn first_label(text: &str) -> Option<&str> {
    let label = |line: &'_ str| {
        Some(line.trim_ascii_end().strip_prefix("-----BEGIN ")?.strip_suffix("-----")?.len())
    };
    text.split(['\r', '\n']).find_map(|line| line.get(11..)?.get(..label(line)?))
}

/// Decodes the first block of a text that has this label, and returns what `make` makes of it. What
/// was decoded is wiped.
pub(crate) fn with_bytes<T>(
    text: &str,
    label: &str,
    make: impl FnOnce(&[u8]) -> Result<T>,
) -> Result<T> {
    let mut room = Zeroizing::new(Vec::new());
    room.try_reserve_exact(room_len(text)).map_err(|_| Error::of_kind(ErrorKind::Memory))?;
    room.resize(room_len(text), 0);
    make(decode(text, &[label], &mut room)?.1)
}

/// The digits of base64 (RFC 4648 section 4).
const DIGITS: &[u8; 64] = b"ABCDEFGHIJKLMNOPQRSTUVWXYZabcdefghijklmnopqrstuvwxyz0123456789+/";

/// How many bytes a line of 64 digits encodes.
const LINE: usize = 48;

/// Returns bytes in PEM, in the strict form (RFC 7468 section 3), whose lines have 64 digits.
pub(crate) fn encode(label: &str, bytes: &[u8], ending: LineEnding) -> Result<Zeroizing<String>> {
    let ending = ending.as_str();
    let digits = bytes.len().div_ceil(3).saturating_mul(4);
    let lines = bytes.len().div_ceil(LINE).saturating_add(2);
    let ends = label.len().saturating_mul(2).saturating_add(30);
    let len = lines.saturating_mul(ending.len()).saturating_add(digits).saturating_add(ends);
    // All at once, so that no shorter text stays unwiped.
    let mut text = Zeroizing::new(String::new());
    text.try_reserve_exact(len).map_err(|_| Error::of_kind(ErrorKind::Memory))?;
    let end = |text: &mut String, word: &str| {
        ["-----", word, " ", label, "-----", ending].iter().for_each(|part| text.push_str(part));
    };
    end(&mut text, "BEGIN");
    for line in bytes.chunks(LINE) {
        line.chunks(3).for_each(|three| push_digits(&mut text, three));
        text.push_str(ending);
    }
    end(&mut text, "END");
    Ok(text)
}

/// Appends the four digits of at most three bytes.
fn push_digits(text: &mut String, three: &[u8]) {
    let byte = |at: usize| three.get(at).copied().map_or(0, usize::from);
    let bits = byte(0) << 16 | byte(1) << 8 | byte(2);
    for (at, shift) in [18, 12, 6, 0].into_iter().enumerate() {
        let digit = DIGITS.get(bits.wrapping_shr(shift) & 63).filter(|_| at <= three.len());
        text.push(digit.map_or('=', |digit| char::from(*digit)));
    }
}

/// More bytes than a text has of the longest element that there is.
#[cfg(feature = "std")]
const LIMIT: usize = 0x1800_0000;

/// Reads a text from a file, as far as its bytes may be in one.
#[cfg(feature = "std")]
pub(crate) fn read_file(path: impl AsRef<Path>) -> Result<Zeroizing<String>> {
    let mut file = File::open(path)?;
    let mut text = Zeroizing::new(Vec::new());
    let mut piece = Zeroizing::new([0; 4096]);
    loop {
        let len = file.read(&mut piece[..])?;
        let read = piece.get(..len).unwrap_or_default();
        let is_text = |byte: &u8| *byte >= b' ' || matches!(byte, b'\t' | b'\n' | b'\r');
        if !read.iter().all(is_text) || text.len() > LIMIT {
            return Err(Error::of_kind(ErrorKind::Pem));
        }
        if read.is_empty() {
            break;
        }
        append(&mut text, read)?;
    }
    let bytes = core::mem::take(&mut *text);
    String::from_utf8(bytes).map(Zeroizing::new).map_err(|error| {
        error.into_bytes().zeroize();
        Error::of_kind(ErrorKind::Pem)
    })
}

/// Appends bytes to a vector. If it is too short, one of twice the length takes its place, and it is
/// wiped.
#[cfg(feature = "std")]
fn append(bytes: &mut Zeroizing<Vec<u8>>, more: &[u8]) -> Result<()> {
    let len = bytes.len().saturating_add(more.len());
    if len > bytes.capacity() {
        let mut longer = Zeroizing::new(Vec::new());
        let room = len.saturating_mul(2);
        longer.try_reserve_exact(room).map_err(|_| Error::of_kind(ErrorKind::Memory))?;
        longer.extend_from_slice(bytes);
        *bytes = longer;
    }
    bytes.extend_from_slice(more);
    Ok(())
}
