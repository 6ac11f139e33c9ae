//! The functions of the library over slices, and the wiping of bytes: all of the `unsafe` code.
//!
//! What `sec1.h` asks of a caller holds here by the types. A pointer and the length after it come
//! from one slice, so that many bytes may be read, or written if the slice is `&mut`. What is
//! written is borrowed by `&mut`, so it overlaps no other argument, and no other thread uses it.

use crate::consts::{Array, ArraySize};
use crate::der::asn1::OctetStringRef;
use crate::written::Written;
use core::num::NonZeroU32;
use core::sync::atomic::{Ordering as Fence, compiler_fence};
use sec1_sys::*;

#[cfg(feature = "alloc")]
use crate::picture::DrawOptions;
#[cfg(feature = "alloc")]
pub(crate) use sec1_sys::sec1_picture_line as PictureLine;
pub(crate) use sec1_sys::{sec1_key_parts as KeyParts, sec1_part as Part};
pub(crate) use sec1_sys::{
    sec1_public_key_parts as PublicKeyParts, sec1_signature_parts as SignatureParts,
};

/// The number of a refusal.
pub(crate) type Status = NonZeroU32;

/// Returns the value if the status is that of success.
#[inline]
fn answer<T>(status: u32, value: T) -> Result<T, Status> {
    match Status::new(status) {
        None => Ok(value),
        Some(status) => Err(status),
    }
}

/// Borrows a part by its place: `Ok(None)` if it is absent.
///
/// # Errors
///
/// The place isn't within the bytes, which the library's contract rules out.
#[inline]
pub(crate) fn part(bytes: &[u8], part: Part) -> Result<Option<&[u8]>, ()> {
    if part.present == 0 {
        return Ok(None);
    }
    match bytes.get(part.offset..).and_then(|rest| rest.get(..part.len)) {
        Some(slice) => Ok(Some(slice)),
        None => Err(()),
    }
}

/// What a private key is written from.
pub(crate) struct Fields<'a> {
    pub private_key: &'a [u8],
    pub curve: &'a [u8],
    pub public_key: Option<&'a [u8]>,
}

/// Reads a private key, and returns the places of its parts, or the refusal and the offset of the
/// first fault.
#[inline]
pub(crate) fn key_read_at(bytes: &[u8]) -> Result<KeyParts, (Status, usize)> {
    let (mut parts, mut offset) = (KeyParts::default(), 0);
    // SAFETY: `bytes` is one slice, and `parts` and `offset` are places of this function.
    let status = unsafe { sec1_key_read_at(bytes.as_ptr(), bytes.len(), &mut parts, &mut offset) };
    answer(status, parts).map_err(|status| (status, offset))
}

/// Reads a private key by itself or in its container, and returns the places of its parts, or the
/// refusal and its offset.
pub(crate) fn private_key_read(bytes: &[u8]) -> Result<KeyParts, (Status, usize)> {
    let (mut parts, mut offset) = (KeyParts::default(), 0);
    // SAFETY: `bytes` is one slice, and `parts` is a place of this function.
    let status = unsafe { sec1_private_key_read(bytes.as_ptr(), bytes.len(), &mut parts) };
    answer(status, parts).map_err(|status| {
        // SAFETY: `bytes` is one slice, and `offset` is a place of this function.
        unsafe { sec1_private_key_fault_at(bytes.as_ptr(), bytes.len(), &mut offset) };
        (status, offset)
    })
}

/// Returns the place of the SubjectPublicKeyInfo in a certificate, or the refusal and the offset of
/// the first fault.
pub(crate) fn certificate_public_key(bytes: &[u8]) -> Result<Part, (Status, usize)> {
    let (mut info, mut offset) = (Part::default(), 0);
    // SAFETY: `bytes` is one slice, and `info` is a place of this function.
    let status =
        unsafe { sec1_certificate_read_public_key(bytes.as_ptr(), bytes.len(), &mut info) };
    answer(status, info).map_err(|status| {
        // SAFETY: `bytes` is one slice, and `offset` is a place of this function.
        unsafe { sec1_certificate_fault_at(bytes.as_ptr(), bytes.len(), &mut offset) };
        (status, offset)
    })
}

/// Checks that the bytes are the container of an EC private key, whose key isn't looked at, or
/// returns the refusal and its offset.
pub(crate) fn container_check(bytes: &[u8]) -> Result<(), (Status, usize)> {
    let mut offset = 0;
    // SAFETY: `bytes` is one slice, and `offset` is a place of this function.
    let status =
        unsafe { sec1_private_key_info_fault_at(bytes.as_ptr(), bytes.len(), &mut offset) };
    answer(status, ()).map_err(|status| (status, offset))
}

/// Reads the SubjectPublicKeyInfo of an EC public key, and returns the places of its parts, or the
/// refusal and its offset.
pub(crate) fn public_key_read(bytes: &[u8]) -> Result<PublicKeyParts, (Status, usize)> {
    let (mut parts, mut offset) = (PublicKeyParts::default(), 0);
    // SAFETY: `bytes` is one slice, and `parts` is a place of this function.
    let status = unsafe { sec1_public_key_read(bytes.as_ptr(), bytes.len(), &mut parts) };
    answer(status, parts).map_err(|status| {
        // SAFETY: `bytes` is one slice, and `offset` is a place of this function.
        unsafe { sec1_public_key_fault_at(bytes.as_ptr(), bytes.len(), &mut offset) };
        (status, offset)
    })
}

/// Reads a signature, and returns the places of its numbers, or the refusal and the offset of the
/// first fault.
pub(crate) fn signature_read(bytes: &[u8]) -> Result<SignatureParts, (Status, usize)> {
    let (mut parts, mut offset) = (SignatureParts::default(), 0);
    // SAFETY: `bytes` is one slice, and `parts` is a place of this function.
    let status = unsafe { sec1_signature_read(bytes.as_ptr(), bytes.len(), &mut parts) };
    answer(status, parts).map_err(|status| {
        // SAFETY: `bytes` is one slice, and `offset` is a place of this function.
        unsafe { sec1_signature_fault_at(bytes.as_ptr(), bytes.len(), &mut offset) };
        (status, offset)
    })
}

/// Writes the container of a private key at the beginning of `out`, and returns its length, or the
/// refusal and the length if that is what `out` is too short for.
pub(crate) fn container_write(fields: &Fields<'_>, out: &mut [u8]) -> Written {
    let (public_key, mut len) = (fields.public_key.unwrap_or_default(), 0);
    // SAFETY: each pointer and length are of one slice, `out` is borrowed by `&mut`, and `len` is a
    // place of this function.
    let status = unsafe {
        sec1_private_key_info_write(
            fields.private_key.as_ptr(),
            fields.private_key.len(),
            fields.curve.as_ptr(),
            fields.curve.len(),
            public_key.as_ptr(),
            public_key.len(),
            usize::from(fields.public_key.is_some()),
            out.as_mut_ptr(),
            out.len(),
            &mut len,
        )
    };
    answer(status, len).map_err(|status| (status, len))
}

/// Writes the SubjectPublicKeyInfo of a public key at the beginning of `out`, and returns its
/// length, or the refusal and the length if that is what `out` is too short for.
pub(crate) fn public_key_write(curve: &[u8], public_key: &[u8], out: &mut [u8]) -> Written {
    let mut len = 0;
    // SAFETY: each pointer and length are of one slice, `out` is borrowed by `&mut`, and `len` is a
    // place of this function.
    let status = unsafe {
        sec1_public_key_write(
            curve.as_ptr(),
            curve.len(),
            public_key.as_ptr(),
            public_key.len(),
            out.as_mut_ptr(),
            out.len(),
            &mut len,
        )
    };
    answer(status, len).map_err(|status| (status, len))
}

/// Writes the signature with these numbers at the beginning of `out`, and returns its length, or
/// the refusal and the length if that is what `out` is too short for.
pub(crate) fn signature_write(r: &[u8], s: &[u8], out: &mut [u8]) -> Written {
    let mut len = 0;
    // SAFETY: each pointer and length are of one slice, `out` is borrowed by `&mut`, and `len` is a
    // place of this function.
    let status = unsafe {
        sec1_signature_write(
            r.as_ptr(),
            r.len(),
            s.as_ptr(),
            s.len(),
            out.as_mut_ptr(),
            out.len(),
            &mut len,
        )
    };
    answer(status, len).map_err(|status| (status, len))
}

/// Returns the length of the encoding of a private key.
#[inline]
pub(crate) fn key_len(fields: &Fields<'_>) -> Result<usize, Status> {
    let (public_key, mut len) = (fields.public_key.unwrap_or_default(), 0);
    // SAFETY: each pointer and length are of one slice, and `len` is a place of this function.
    let status = unsafe {
        sec1_key_len(
            fields.private_key.as_ptr(),
            fields.private_key.len(),
            fields.curve.as_ptr(),
            fields.curve.len(),
            public_key.as_ptr(),
            public_key.len(),
            usize::from(fields.public_key.is_some()),
            &mut len,
        )
    };
    answer(status, len)
}

/// Writes the encoding of a private key at the beginning of `out`, and returns its length.
#[inline]
pub(crate) fn key_write(fields: &Fields<'_>, out: &mut [u8]) -> Result<usize, Status> {
    let (public_key, mut len) = (fields.public_key.unwrap_or_default(), 0);
    // SAFETY: each pointer and length are of one slice, `out` is borrowed by `&mut`, and `len` is a
    // place of this function.
    let status = unsafe {
        sec1_key_write(
            fields.private_key.as_ptr(),
            fields.private_key.len(),
            fields.curve.as_ptr(),
            fields.curve.len(),
            public_key.as_ptr(),
            public_key.len(),
            usize::from(fields.public_key.is_some()),
            out.as_mut_ptr(),
            out.len(),
            &mut len,
        )
    };
    answer(status, len)
}

/// Checks that the bytes are the encoding of a point.
#[inline]
pub(crate) fn point_check(bytes: &[u8], field_len: usize) -> Result<(), Status> {
    // SAFETY: the pointer and the length are of one slice.
    let status = unsafe { sec1_point_check(bytes.as_ptr(), bytes.len(), field_len) };
    answer(status, ())
}

/// Returns the length of a point's encoding with this tag.
#[inline]
pub(crate) fn point_len(tag: u8, field_len: usize) -> Result<usize, Status> {
    let mut len = 0;
    // SAFETY: `len` is a place of this function.
    let status = unsafe { sec1_point_len(usize::from(tag), field_len, &mut len) };
    answer(status, len)
}

/// Writes the hybrid form of a point at the beginning of `out`, and returns its length.
#[inline]
pub(crate) fn point_to_hybrid(
    bytes: &[u8],
    field_len: usize,
    out: &mut [u8],
) -> Result<usize, Status> {
    let mut len = 0;
    // SAFETY: each pointer and length are of one slice, `out` is borrowed by `&mut`, and `len` is a
    // place of this function.
    let status = unsafe {
        sec1_point_to_hybrid(
            bytes.as_ptr(),
            bytes.len(),
            field_len,
            out.as_mut_ptr(),
            out.len(),
            &mut len,
        )
    };
    answer(status, len)
}

/// Writes the hexadecimal text of a point and a byte 0, and returns the length of both.
#[inline]
pub(crate) fn point_to_hex(
    bytes: &[u8],
    field_len: usize,
    lower_case: bool,
    text: &mut [u8],
) -> Result<usize, Status> {
    let mut len = 0;
    // SAFETY: each pointer and length are of one slice, `text` is borrowed by `&mut`, and `len` is
    // a place of this function.
    let status = unsafe {
        sec1_point_to_hex(
            bytes.as_ptr(),
            bytes.len(),
            field_len,
            usize::from(lower_case),
            text.as_mut_ptr(),
            text.len(),
            &mut len,
        )
    };
    answer(status, len)
}

/// Writes the point with this hexadecimal text at the beginning of `out`, and returns its length.
#[inline]
pub(crate) fn point_from_hex(
    text: &str,
    field_len: usize,
    out: &mut [u8],
) -> Result<usize, Status> {
    let mut len = 0;
    // SAFETY: each pointer and length are of one slice, `out` is borrowed by `&mut`, and `len` is a
    // place of this function.
    let status = unsafe {
        sec1_point_from_hex(
            text.as_ptr(),
            text.len(),
            field_len,
            out.as_mut_ptr(),
            out.len(),
            &mut len,
        )
    };
    answer(status, len)
}

/// Writes the point with these coordinates at the beginning of `out`, and returns its length.
#[inline]
pub(crate) fn point_from_coordinates(
    x: &[u8],
    y: &[u8],
    compress: bool,
    out: &mut [u8],
) -> Result<usize, Status> {
    let mut len = 0;
    // SAFETY: each pointer and length are of one slice, `out` is borrowed by `&mut`, and `len` is a
    // place of this function.
    let status = unsafe {
        sec1_point_from_coordinates(
            x.as_ptr(),
            x.len(),
            y.as_ptr(),
            y.len(),
            usize::from(compress),
            out.as_mut_ptr(),
            out.len(),
            &mut len,
        )
    };
    answer(status, len)
}

/// Checks that the bytes are the content of an identifier.
#[inline]
pub(crate) fn identifier_check(content: &[u8]) -> Result<(), Status> {
    // SAFETY: the pointer and the length are of one slice.
    let status = unsafe { sec1_identifier_check(content.as_ptr(), content.len()) };
    answer(status, ())
}

/// Writes the text of an identifier and a byte 0, and returns the length of both.
#[inline]
pub(crate) fn identifier_to_text(content: &[u8], text: &mut [u8]) -> Result<usize, Status> {
    let mut len = 0;
    // SAFETY: each pointer and length are of one slice, `text` is borrowed by `&mut`, and `len` is
    // a place of this function.
    let status = unsafe {
        sec1_identifier_to_text(
            content.as_ptr(),
            content.len(),
            text.as_mut_ptr(),
            text.len(),
            &mut len,
        )
    };
    answer(status, len)
}

/// Writes the content of an identifier, and returns its length.
#[inline]
pub(crate) fn identifier_from_text(text: &str, content: &mut [u8]) -> Result<usize, Status> {
    let mut len = 0;
    // SAFETY: each pointer and length are of one slice, `content` is borrowed by `&mut`, and `len`
    // is a place of this function.
    let status = unsafe {
        sec1_identifier_from_text(
            text.as_ptr(),
            text.len(),
            content.as_mut_ptr(),
            content.len(),
            &mut len,
        )
    };
    answer(status, len)
}

/// Returns the length of a field element of the curve whose identifier has this content.
#[inline]
pub(crate) fn curve_field_len(content: &[u8]) -> Result<usize, Status> {
    let mut len = 0;
    // SAFETY: `content` is one slice, and `len` is a place of this function.
    let status = unsafe { sec1_curve_field_len(content.as_ptr(), content.len(), &mut len) };
    answer(status, len)
}

/// Writes the name of a curve and a byte 0, and returns the length of both.
#[inline]
pub(crate) fn curve_name(content: &[u8], name: &mut [u8]) -> Result<usize, Status> {
    let mut len = 0;
    // SAFETY: each pointer and length are of one slice, `name` is borrowed by `&mut`, and `len` is
    // a place of this function.
    let status = unsafe {
        sec1_curve_name(content.as_ptr(), content.len(), name.as_mut_ptr(), name.len(), &mut len)
    };
    answer(status, len)
}

/// Writes the content of the identifier of the curve with this name, and returns its length.
#[inline]
pub(crate) fn curve_from_name(name: &str, content: &mut [u8]) -> Result<usize, Status> {
    let mut len = 0;
    // SAFETY: each pointer and length are of one slice, `content` is borrowed by `&mut`, and `len`
    // is a place of this function.
    let status = unsafe {
        sec1_curve_from_name(
            name.as_ptr(),
            name.len(),
            content.as_mut_ptr(),
            content.len(),
            &mut len,
        )
    };
    answer(status, len)
}

/// Returns the number of elements of the one tree that all of the bytes are.
#[inline]
pub(crate) fn check_tree(bytes: &[u8]) -> Result<usize, Status> {
    let mut elements = 0;
    // SAFETY: `bytes` is one slice, and `elements` is a place of this function.
    let status = unsafe { sec1_tree_check(bytes.as_ptr(), bytes.len(), &mut elements) };
    answer(status, elements)
}

/// Returns the refusal of a tree, and the offset of its first fault.
#[inline]
pub(crate) fn tree_fault_at(bytes: &[u8]) -> Option<(Status, usize)> {
    let mut offset = 0;
    // SAFETY: `bytes` is one slice, and `offset` is a place of this function.
    let status = unsafe { sec1_tree_fault_at(bytes.as_ptr(), bytes.len(), &mut offset) };
    Status::new(status).map(|status| (status, offset))
}

/// Returns the lengths of the header and of the content of the element that the bytes begin with.
#[inline]
pub(crate) fn element_read(bytes: &[u8]) -> Result<(usize, usize), Status> {
    let (mut header_len, mut content_len) = (0, 0);
    // SAFETY: `bytes` is one slice, and the two lengths are places of this function.
    let status = unsafe {
        sec1_element_read(bytes.as_ptr(), bytes.len(), &mut header_len, &mut content_len)
    };
    answer(status, (header_len, content_len))
}

/// Returns the length of the element with this tag and this content.
#[inline]
pub(crate) fn element_len(tag: u8, content: &[u8]) -> Result<usize, Status> {
    let (none, mut len): (&mut [u8], usize) = (&mut [], 0);
    // SAFETY: each pointer and length are of one slice, `none` is borrowed by `&mut`, and `len` is
    // a place of this function.
    let status = unsafe {
        sec1_element_write(
            usize::from(tag),
            content.as_ptr(),
            content.len(),
            none.as_mut_ptr(),
            none.len(),
            &mut len,
        )
    };
    match status {
        // There is no room for an element, and its length was stored.
        SEC1_BUFFER => Ok(len),
        status => answer(status, len),
    }
}

/// Writes the element with this tag and this content at the beginning of `out`, and returns its
/// length.
#[inline]
pub(crate) fn element_write(tag: u8, content: &[u8], out: &mut [u8]) -> Result<usize, Status> {
    let mut len = 0;
    // SAFETY: each pointer and length are of one slice, `out` is borrowed by `&mut`, and `len` is a
    // place of this function.
    let status = unsafe {
        sec1_element_write(
            usize::from(tag),
            content.as_ptr(),
            content.len(),
            out.as_mut_ptr(),
            out.len(),
            &mut len,
        )
    };
    answer(status, len)
}

/// Returns the length of the one element that all of the bytes are.
#[inline]
pub(crate) fn document_len(bytes: &[u8]) -> Result<usize, Status> {
    let mut len = 0;
    // SAFETY: `bytes` is one slice, and `len` is a place of this function.
    let status = unsafe { sec1_document_len(bytes.as_ptr(), bytes.len(), &mut len) };
    answer(status, len)
}

/// Writes the picture of an input at the beginning of `text`, and returns its length and whether it
/// has a key. What is decoded is written into `room`.
///
/// # Errors
///
/// The refusal, and the length of the picture.
#[cfg(feature = "alloc")]
pub(crate) fn picture_write(
    input: &[u8],
    options: DrawOptions,
    room: &mut [u8],
    text: &mut [u8],
) -> Result<(usize, bool), (Status, usize)> {
    let (mut len, mut is_key) = (0, 0);
    // SAFETY: each pointer and length are of one slice, but NULL and 0, `room` and `text` are borrowed
    // by `&mut`, and `len` and `is_key` are places of this function.
    let status = unsafe {
        sec1_picture_write(
            input.as_ptr(),
            input.len(),
            usize::from(options.all),
            0,
            options.levels,
            options.offset,
            core::ptr::null(),
            0,
            room.as_mut_ptr(),
            room.len(),
            text.as_mut_ptr(),
            text.len(),
            &mut len,
            &mut is_key,
        )
    };
    answer(status, (len, is_key == 1)).map_err(|status| (status, len))
}

/// Stores what each line of the picture of an input is of, as many as there is room for, and returns
/// their number. What is decoded is written into `room`.
#[cfg(feature = "alloc")]
pub(crate) fn picture_lines(
    input: &[u8],
    room: &mut [u8],
    lines: &mut [PictureLine],
) -> Result<usize, Status> {
    let mut count = 0;
    // SAFETY: each pointer and length are of one slice, `room` and `lines` are borrowed by `&mut`,
    // and `count` is a place of this function.
    let status = unsafe {
        sec1_picture_lines(
            input.as_ptr(),
            input.len(),
            room.as_mut_ptr(),
            room.len(),
            lines.as_mut_ptr(),
            lines.len(),
            &mut count,
        )
    };
    answer(status, count)
}

/// Decodes the first block of PEM with this label in a text into the beginning of `room`, and
/// returns the length of that and the number of the block's first line, or the refusal and that
/// number, which is 0 if there is no such block.
pub(crate) fn pem_decode(
    text: &str,
    label: &str,
    room: &mut [u8],
) -> Result<(usize, usize), (Status, usize)> {
    let (mut len, mut line) = (0, 0);
    // SAFETY: each pointer and length are of one slice, `room` is borrowed by `&mut`, and `len` and
    // `line` are places of this function.
    let status = unsafe {
        sec1_pem_decode(
            text.as_ptr(),
            text.len(),
            label.as_ptr(),
            label.len(),
            room.as_mut_ptr(),
            room.len(),
            &mut len,
            &mut line,
        )
    };
    answer(status, (len, line)).map_err(|status| (status, line))
}

/// Writes the text of a status and a byte 0, and returns the length of both.
pub(crate) fn status_to_text(number: u32, text: &mut [u8]) -> Result<usize, Status> {
    let (number, mut len) = (usize::try_from(number).unwrap_or(usize::MAX), 0);
    // SAFETY: `text` is one slice that is borrowed by `&mut`, and `len` is a place of this function.
    let status = unsafe { sec1_status_to_text(number, text.as_mut_ptr(), text.len(), &mut len) };
    answer(status, len)
}

/// Borrows Rust's own array as an `Array`.
#[inline]
pub(crate) fn array<T: Copy, Size: ArraySize>(array: &Size::ArrayType<T>) -> &Array<T, Size> {
    let array: *const Size::ArrayType<T> = array;
    // SAFETY: an `Array` is laid out as its one field, and the borrow is as long.
    unsafe { &*array.cast() }
}

/// Borrows Rust's own array as an `Array` that can be changed.
#[inline]
pub(crate) fn array_mut<T: Copy, Size: ArraySize>(
    array: &mut Size::ArrayType<T>,
) -> &mut Array<T, Size> {
    let array: *mut Size::ArrayType<T> = array;
    // SAFETY: an `Array` is laid out as its one field, and the borrow is as long.
    unsafe { &mut *array.cast() }
}

/// Borrows the content of an octet string as one.
#[inline]
pub(crate) fn octet_string(content: &[u8]) -> &OctetStringRef {
    let content: *const [u8] = content;
    // SAFETY: an `OctetStringRef` is laid out as its one field, and the borrow is as long.
    unsafe { &*(content as *const OctetStringRef) }
}

/// Overwrites the bytes with zeros, even if nobody reads them again.
#[inline]
pub(crate) fn wipe(bytes: &mut [u8]) {
    for byte in bytes {
        // SAFETY: a `&mut u8` is valid to be written and aligned. A volatile write is never left
        // out.
        unsafe { core::ptr::write_volatile(byte, 0) };
    }
    // Keeps what comes after from being moved before the writes.
    compiler_fence(Fence::SeqCst);
}
