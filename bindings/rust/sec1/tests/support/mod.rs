//! A key, and bytes in hexadecimal.
#![allow(dead_code)]

/// Returns the bytes that pairs of digits stand for.
pub fn bytes(text: &str) -> Vec<u8> {
    text.as_bytes()
        .chunks(2)
        .map(|pair| u8::from_str_radix(std::str::from_utf8(pair).unwrap(), 16).unwrap())
        .collect()
}

/// A key on P-256 with all parts.
pub fn p256() -> Vec<u8> {
    bytes(include_str!("../data/p256.txt").trim())
}
