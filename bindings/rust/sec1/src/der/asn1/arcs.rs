//! The arcs of an identifier (X.690 sections 8.19.2 to 8.19.4).

use core::slice;
use sec1_sys::SEC1_IDENTIFIER_CONTENT_MAX as CONTENT_MAX;

/// A number of an identifier.
///
/// # Examples
///
/// ```
/// use sec1::{ALGORITHM_OID, der::asn1::Arc};
///
/// let country: Option<Arc> = ALGORITHM_OID.arc(2);
/// assert_eq!(country, Some(840));
/// ```
pub type Arc = u32;

/// The arcs of an identifier, the first one first.
///
/// # Examples
///
/// ```
/// use sec1::{ALGORITHM_OID, der::asn1::Arcs};
///
/// fn last(arcs: Arcs<'_>) -> Option<u32> {
///     arcs.last()
/// }
///
/// assert_eq!(last(ALGORITHM_OID.arcs()), Some(1));
/// ```
#[derive(Clone, Debug)]
pub struct Arcs<'a> {
    content: slice::Iter<'a, u8>,
    // The second arc, once the first one was returned.
    second: Option<Arc>,
    is_first: bool,
}

impl<'a> Arcs<'a> {
    /// Returns the arcs of a content that the library has accepted.
    pub(super) fn new(content: &'a [u8]) -> Self {
        Arcs { content: content.iter(), second: None, is_first: true }
    }

    /// Returns the next subidentifier: base 128, where each byte but the last has its highest bit.
    fn subidentifier(&mut self) -> Option<u32> {
        let mut number: u32 = 0;
        for byte in self.content.by_ref() {
            number = number.wrapping_shl(7) | u32::from(byte & 0x7F);
            if *byte < 0x80 {
                return Some(number);
            }
        }
        None
    }
}

impl Iterator for Arcs<'_> {
    type Item = Arc;

    fn next(&mut self) -> Option<Arc> {
        if let Some(second) = self.second.take() {
            return Some(second);
        }
        let number = self.subidentifier()?;
        if !self.is_first {
            return Some(number);
        }
        // The first subidentifier is 40 times the first arc, at most 2, and the second.
        self.is_first = false;
        let first = (number / 40).min(2);
        self.second = Some(number.wrapping_sub(first.wrapping_mul(40)));
        Some(first)
    }
}

/// The content of an identifier, followed by zeros, and its length.
type Content = ([u8; CONTENT_MAX], u8);

/// Returns the content of the identifier with this dotted text, if it is one's that the library
/// accepts.
pub(super) const fn content_of(text: &[u8]) -> Option<Content> {
    let Some((first, Some(text))) = next_arc(text) else { return None };
    let Some((second, mut rest)) = next_arc(text) else { return None };
    let Some(mut content) = begin(first, second) else { return None };
    while let Some(text) = rest {
        let Some((arc, after)) = next_arc(text) else { return None };
        match push(content, arc) {
            Some(longer) => content = longer,
            None => return None,
        }
        rest = after;
    }
    Some(content)
}

/// Returns the content of the identifier with these arcs, if it is one's that the library accepts.
pub(super) fn content_of_arcs(mut arcs: impl Iterator<Item = Arc>) -> Option<Content> {
    let content = begin(arcs.next()?, arcs.next()?)?;
    arcs.try_fold(content, push)
}

/// Returns the content of the first two arcs, which are one subidentifier (X.690 section 8.19.4).
const fn begin(first: Arc, second: Arc) -> Option<Content> {
    if first > 2 || (first < 2 && second > 39) {
        return None;
    }
    match second.checked_add(first.wrapping_mul(40)) {
        Some(number) => push(([0; CONTENT_MAX], 0), number),
        None => None,
    }
}

/// Returns the number at the beginning of a text, and the text after its full stop if it has one.
/// A number begins with 0 only if it is 0.
const fn next_arc(text: &[u8]) -> Option<(Arc, Option<&[u8]>)> {
    let mut number: Arc = 0;
    let (mut rest, mut digits) = (text, 0_u32);
    while let Some((byte, after)) = rest.split_first() {
        if *byte == b'.' {
            return if digits > 0 { Some((number, Some(after))) } else { None };
        }
        if !byte.is_ascii_digit() || (digits > 0 && number == 0) {
            return None;
        }
        let Some(tens) = number.checked_mul(10) else { return None };
        let Some(sum) = tens.checked_add((*byte & 0x0F) as Arc) else { return None };
        (number, rest, digits) = (sum, after, digits.wrapping_add(1));
    }
    if digits > 0 { Some((number, None)) } else { None }
}

/// Appends a subidentifier, or returns `None` if there is no room.
const fn push(content: Content, number: u32) -> Option<Content> {
    let (mut bytes, mut len) = content;
    // 32 bits are at most five groups of seven.
    let mut shift: u32 = 28;
    while shift > 0 && number.wrapping_shr(shift) == 0 {
        shift = shift.saturating_sub(7);
    }
    loop {
        let Some((_, room)) = bytes.split_at_mut_checked(len as usize) else { return None };
        let Some((byte, _)) = room.split_first_mut() else { return None };
        *byte = (number.wrapping_shr(shift) & 0x7F) as u8;
        len = len.wrapping_add(1);
        if shift == 0 {
            return Some((bytes, len));
        }
        *byte |= 0x80;
        shift = shift.saturating_sub(7);
    }
}
