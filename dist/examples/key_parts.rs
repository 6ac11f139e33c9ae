//! Prints the parts of an EC private key in DER: key_parts FILE

use std::ffi::{c_char, CStr};

/// As in sec1.h.
const SEC1_IDENTIFIER_TEXT_MAX: usize = 158;

#[repr(C)]
#[derive(Clone, Copy, Default)]
struct Part {
    offset: usize,
    len: usize,
    present: usize,
}

#[repr(C)]
#[derive(Default)]
struct KeyParts {
    private_key: Part,
    curve: Part,
    public_key: Part,
}

#[repr(C)]
#[derive(Default)]
struct PointParts {
    tag: usize,
    x: Part,
    y: Part,
}

#[link(name = "sec1", kind = "static")]
extern "C" {
    fn sec1_key_read(bytes: *const u8, bytes_len: usize, parts: *mut KeyParts) -> u32;
    fn sec1_point_read(
        bytes: *const u8,
        bytes_len: usize,
        field_len: usize,
        parts: *mut PointParts,
    ) -> u32;
    fn sec1_identifier_to_text(
        content: *const u8,
        content_len: usize,
        text: *mut u8,
        text_len: usize,
        len: *mut usize,
    ) -> u32;
    fn sec1_curve_field_len(
        content: *const u8,
        content_len: usize,
        field_len: *mut usize,
    ) -> u32;
    fn sec1_status_text(status: u32) -> *const c_char;
}

/// Returns the text for a status.
fn status_text(status: u32) -> &'static str {
    unsafe { CStr::from_ptr(sec1_status_text(status)) }.to_str().unwrap_or("")
}

/// Borrows a part of the bytes that it was read from, where it is present.
fn part_of(bytes: &[u8], part: Part) -> Option<&[u8]> {
    (part.present == 1).then(|| &bytes[part.offset..part.offset + part.len])
}

/// Reads a key. Returns its parts, or the number of the refusal.
fn read_key(bytes: &[u8]) -> Result<KeyParts, u32> {
    let mut parts = KeyParts::default();
    match unsafe { sec1_key_read(bytes.as_ptr(), bytes.len(), &mut parts) } {
        0 => Ok(parts),
        status => Err(status),
    }
}

/// Returns the dotted text of an identifier.
fn identifier_text(content: &[u8]) -> Option<String> {
    let (mut text, mut len) = ([0; SEC1_IDENTIFIER_TEXT_MAX], 0);
    let status = unsafe {
        sec1_identifier_to_text(
            content.as_ptr(),
            content.len(),
            text.as_mut_ptr(),
            text.len(),
            &mut len,
        )
    };
    (status == 0).then(|| String::from_utf8_lossy(&text[..len - 1]).into_owned())
}

/// Returns the length of the field elements of the curve whose identifier has this content, or the
/// number of the refusal.
fn field_len_of(content: &[u8]) -> Result<usize, u32> {
    let mut field_len = 0;
    match unsafe { sec1_curve_field_len(content.as_ptr(), content.len(), &mut field_len) } {
        0 => Ok(field_len),
        status => Err(status),
    }
}

/// Returns the line that tells the places of a point's coordinates, or why there are none.
fn point_line(public_key: &[u8], field_len: usize) -> String {
    let mut point = PointParts::default();
    match unsafe { sec1_point_read(public_key.as_ptr(), public_key.len(), field_len, &mut point) } {
        0 => format!("point: tag {}, x at {}, y at {}", point.tag, point.x.offset, point.y.offset),
        status => format!("no point: {}", status_text(status)),
    }
}

fn main() {
    let path = std::env::args().nth(1).expect("usage: key_parts FILE");
    let key = std::fs::read(path).expect("the file can be read");
    let parts = match read_key(&key) {
        Ok(parts) => parts,
        Err(status) => {
            println!("refused: {status} ({})", status_text(status));
            std::process::exit(1);
        }
    };
    println!("private key: {} bytes at {}", parts.private_key.len, parts.private_key.offset);
    let curve = part_of(&key, parts.curve);
    if let Some(name) = curve.and_then(identifier_text) {
        println!("curve: {name}");
    }
    let Some(public_key) = part_of(&key, parts.public_key) else {
        println!("no point: the key has no public key");
        return;
    };
    let digits: String = public_key.iter().map(|byte| format!("{byte:02X}")).collect();
    println!("public key: {digits}");
    match curve.map(field_len_of) {
        Some(Ok(field_len)) => println!("{}", point_line(public_key, field_len)),
        Some(Err(status)) => println!("no point: {}", status_text(status)),
        None => println!("no point: the key names no curve"),
    }
}
