#![doc = include_str!("../README.md")]
#![no_std]
#![allow(non_camel_case_types)]

#[cfg(sec1_library = "assembly")]
mod assembly;
#[cfg(sec1_library = "rust")]
#[rustfmt::skip]
#[cfg_attr(not(sec1_without_links), path = "sec1.rs")]
#[cfg_attr(sec1_without_links, path = "../../../../dist/sec1.rs")]
mod translated;

/// Success.
pub const SEC1_OK: u32 = 0;
/// The input, or the element around a part, ends too early.
pub const SEC1_TRUNCATED: u32 = 1;
/// A tag that isn't the expected one, or that no element has.
pub const SEC1_TAG: u32 = 2;
/// A length that isn't in the form of DER, or is above 268,435,455.
pub const SEC1_LENGTH: u32 = 3;
/// Bytes after the last part.
pub const SEC1_TRAILING_DATA: u32 = 4;
/// A content that isn't valid for its tag, or a text that isn't an identifier's.
pub const SEC1_VALUE: u32 = 5;
/// A content to write is above 268,435,455 bytes.
pub const SEC1_OVERLENGTH: u32 = 6;
/// The buffer to write into is too short.
pub const SEC1_BUFFER: u32 = 7;
/// More than 64 nested elements.
pub const SEC1_DEPTH: u32 = 8;
/// The bytes aren't the encoding of a point.
pub const SEC1_POINT_ENCODING: u32 = 9;
/// The length of field elements isn't 1 to 66, or two lengths differ.
pub const SEC1_FIELD_LENGTH: u32 = 10;
/// No curve of the table has this identifier or this name.
pub const SEC1_CURVE: u32 = 11;
/// A key names another curve than its container.
pub const SEC1_OTHER_CURVE: u32 = 12;
/// No block of PEM with a label, or one that isn't whole.
pub const SEC1_PEM: u32 = 13;

/// The point at infinity.
pub const SEC1_POINT_IDENTITY: u8 = 0;
/// x, and an even y that is left out.
pub const SEC1_POINT_COMPRESSED_EVEN: u8 = 2;
/// x, and an odd y that is left out.
pub const SEC1_POINT_COMPRESSED_ODD: u8 = 3;
/// x and y.
pub const SEC1_POINT_UNCOMPRESSED: u8 = 4;
/// x alone.
pub const SEC1_POINT_COMPACT: u8 = 5;
/// x and an even y.
pub const SEC1_POINT_HYBRID_EVEN: u8 = 6;
/// x and an odd y.
pub const SEC1_POINT_HYBRID_ODD: u8 = 7;

/// The greatest length of a point's encoding.
pub const SEC1_POINT_MAX: usize = 133;
/// The greatest length of an identifier's content.
pub const SEC1_IDENTIFIER_CONTENT_MAX: usize = 39;
/// The greatest length of an identifier's text with the byte 0 at its end.
pub const SEC1_IDENTIFIER_TEXT_MAX: usize = 158;
/// The greatest number of an identifier's arcs.
pub const SEC1_IDENTIFIER_ARCS_MAX: usize = 40;
/// The greatest length of what `sec1_public_key_write` writes.
pub const SEC1_PUBLIC_KEY_MAX: usize = 158;
/// The greatest length of a curve's name with the byte 0 at its end.
pub const SEC1_CURVE_NAME_MAX: usize = 16;
/// The greatest length of a point's hexadecimal text with the byte 0 at its end.
pub const SEC1_POINT_TEXT_MAX: usize = 267;
/// The greatest length of a status's text with the byte 0 at its end.
pub const SEC1_STATUS_TEXT_MAX: usize = 42;

/// A part of some bytes, by its place.
#[repr(C)]
#[derive(Clone, Copy, Debug, Default, Eq, PartialEq)]
pub struct sec1_part {
    /// The index of the part's first byte.
    pub offset: usize,
    /// The number of the part's bytes.
    pub len: usize,
    /// 1 if the part is present, otherwise 0.
    pub present: usize,
}

/// The places of a private key's parts in its bytes.
#[repr(C)]
#[derive(Clone, Copy, Debug, Default, Eq, PartialEq)]
pub struct sec1_key_parts {
    /// Always present.
    pub private_key: sec1_part,
    /// The content of the curve's object identifier.
    pub curve: sec1_part,
    /// The bytes of the public key.
    pub public_key: sec1_part,
}

/// The places of a public key's parts in its bytes, both always present.
#[repr(C)]
#[derive(Clone, Copy, Debug, Default, Eq, PartialEq)]
pub struct sec1_public_key_parts {
    /// The content of the curve's object identifier.
    pub curve: sec1_part,
    /// The encoding of the point.
    pub public_key: sec1_part,
}

/// The places of an EC private key's parts in its container, both always present.
#[repr(C)]
#[derive(Clone, Copy, Debug, Default, Eq, PartialEq)]
pub struct sec1_private_key_info_parts {
    /// The content of the curve's object identifier.
    pub curve: sec1_part,
    /// The content of the OCTET STRING, which is the private key.
    pub key: sec1_part,
}

/// The places of a signature's numbers in its bytes, both always present.
#[repr(C)]
#[derive(Clone, Copy, Debug, Default, Eq, PartialEq)]
pub struct sec1_signature_parts {
    /// The content of the INTEGER r.
    pub r: sec1_part,
    /// The content of the INTEGER s.
    pub s: sec1_part,
}

/// The tag of a point, and the places of its coordinates.
#[repr(C)]
#[derive(Clone, Copy, Debug, Default, Eq, PartialEq)]
pub struct sec1_point_parts {
    /// One of `SEC1_POINT_..`.
    pub tag: usize,
    /// Absent only for the identity.
    pub x: sec1_part,
    /// Present for uncompressed and hybrid points.
    pub y: sec1_part,
}

/// A line that stands above the rows of a part that was decoded.
pub const SEC1_LINE_HEADING: usize = 0;
/// A row: an element's header, or bytes that are none.
pub const SEC1_LINE_ROW: usize = 1;
/// A line that says what is wrong with the row above it.
pub const SEC1_LINE_MARK: usize = 2;
/// A line that says what a part is.
pub const SEC1_LINE_WORDS: usize = 3;
/// A command that helps.
pub const SEC1_LINE_COMMAND: usize = 4;

/// A line of a picture. A member that says nothing of a line of its kind is 0.
#[repr(C)]
#[derive(Clone, Copy, Debug, Default, Eq, PartialEq)]
pub struct sec1_picture_line {
    /// One of `SEC1_LINE_..`.
    pub kind: usize,
    /// Of a row, the number of bytes before it; of a heading, where in the room the bytes begin that
    /// were decoded.
    pub offset: usize,
    /// Of a row, the number of bytes of its header.
    pub header_len: usize,
    /// Of a row, the number of bytes of its content that have no other row; of a heading, the number
    /// of bytes that were decoded.
    pub content_len: usize,
    /// Of a row, the number of elements around it.
    pub depth: usize,
    /// Of a row, 1 if its content isn't shown and isn't known to be public.
    pub hidden: usize,
}

unsafe extern "C" {
    /// Reads a private key from all of the bytes, and stores the places of its parts.
    ///
    /// # Safety
    ///
    /// `bytes` is readable for `bytes_len` bytes, and `parts` is writable and overlaps none of
    /// them.
    pub fn sec1_key_read(bytes: *const u8, bytes_len: usize, parts: *mut sec1_key_parts) -> u32;
    /// Stores the length of the encoding of the private key with these parts.
    ///
    /// # Safety
    ///
    /// Each pointer is readable for the length after it, and `len` is writable.
    pub fn sec1_key_len(
        private_key: *const u8,
        private_key_len: usize,
        curve: *const u8,
        curve_len: usize,
        public_key: *const u8,
        public_key_len: usize,
        has_public_key: usize,
        len: *mut usize,
    ) -> u32;
    /// Writes the encoding of the private key with these parts, and stores its length.
    ///
    /// # Safety
    ///
    /// Each `*const` is readable for the length after it. `out` is writable for `out_len` bytes,
    /// `len` is writable, and neither overlaps another argument.
    pub fn sec1_key_write(
        private_key: *const u8,
        private_key_len: usize,
        curve: *const u8,
        curve_len: usize,
        public_key: *const u8,
        public_key_len: usize,
        has_public_key: usize,
        out: *mut u8,
        out_len: usize,
        len: *mut usize,
    ) -> u32;
    /// Checks that all of the bytes are the encoding of a point.
    ///
    /// # Safety
    ///
    /// `bytes` is readable for `bytes_len` bytes.
    pub fn sec1_point_check(bytes: *const u8, bytes_len: usize, field_len: usize) -> u32;
    /// Reads a point from all of the bytes, and stores its tag and the places of its coordinates.
    ///
    /// # Safety
    ///
    /// `bytes` is readable for `bytes_len` bytes, and `parts` is writable and overlaps none of
    /// them.
    pub fn sec1_point_read(
        bytes: *const u8,
        bytes_len: usize,
        field_len: usize,
        parts: *mut sec1_point_parts,
    ) -> u32;
    /// Stores the length of a point's encoding that begins with this byte.
    ///
    /// # Safety
    ///
    /// `len` is writable.
    pub fn sec1_point_len(tag: usize, field_len: usize, len: *mut usize) -> u32;
    /// Writes the compressed form of a point, and stores its length.
    ///
    /// # Safety
    ///
    /// `bytes` is readable for `bytes_len` bytes. `out` is writable for `out_len` bytes, `len` is
    /// writable, and neither overlaps another argument.
    pub fn sec1_point_compress(
        bytes: *const u8,
        bytes_len: usize,
        field_len: usize,
        out: *mut u8,
        out_len: usize,
        len: *mut usize,
    ) -> u32;
    /// Writes the hybrid form of a point, and stores its length.
    ///
    /// # Safety
    ///
    /// As for [`sec1_point_compress`].
    pub fn sec1_point_to_hybrid(
        bytes: *const u8,
        bytes_len: usize,
        field_len: usize,
        out: *mut u8,
        out_len: usize,
        len: *mut usize,
    ) -> u32;
    /// Compares two points, and stores -1, 0 or 1.
    ///
    /// # Safety
    ///
    /// Each `*const` is readable for the length after it, and `order` is writable and overlaps
    /// neither.
    pub fn sec1_point_compare(
        first: *const u8,
        first_len: usize,
        second: *const u8,
        second_len: usize,
        field_len: usize,
        order: *mut i32,
    ) -> u32;
    /// Writes the dotted text of an identifier and a byte 0, and stores the length of both.
    ///
    /// # Safety
    ///
    /// `content` is readable for `content_len` bytes. `text` is writable for `text_len` bytes,
    /// `len` is writable, and neither overlaps another argument.
    pub fn sec1_identifier_to_text(
        content: *const u8,
        content_len: usize,
        text: *mut u8,
        text_len: usize,
        len: *mut usize,
    ) -> u32;
    /// Writes the content of the identifier with this dotted text, and stores its length.
    ///
    /// # Safety
    ///
    /// `text` is readable for `text_len` bytes. `content` is writable for `content_len` bytes,
    /// `len` is writable, and neither overlaps another argument.
    pub fn sec1_identifier_from_text(
        text: *const u8,
        text_len: usize,
        content: *mut u8,
        content_len: usize,
        len: *mut usize,
    ) -> u32;
    /// Checks that all of the bytes are a tree of elements, and stores their number.
    ///
    /// # Safety
    ///
    /// `bytes` is readable for `bytes_len` bytes, and `elements` is writable and overlaps none.
    pub fn sec1_tree_check(bytes: *const u8, bytes_len: usize, elements: *mut usize) -> u32;
    /// Checks that all of the bytes are one element, and stores the length that its header
    /// announces.
    ///
    /// # Safety
    ///
    /// `bytes` is readable for `bytes_len` bytes, and `len` is writable and overlaps none.
    pub fn sec1_document_len(bytes: *const u8, bytes_len: usize, len: *mut usize) -> u32;
    /// Reads the element at the beginning of the bytes, and stores the lengths of its header and of
    /// its content.
    ///
    /// # Safety
    ///
    /// `bytes` is readable for `bytes_len` bytes, and `header_len` and `content_len` are writable
    /// and overlap nothing.
    pub fn sec1_element_read(
        bytes: *const u8,
        bytes_len: usize,
        header_len: *mut usize,
        content_len: *mut usize,
    ) -> u32;
    /// Reads a private key as [`sec1_key_read`] does, and stores the places of its parts, or the
    /// offset of the first fault.
    ///
    /// # Safety
    ///
    /// `bytes` is readable for `bytes_len` bytes. `parts` and `fault_offset` are writable and
    /// overlap nothing.
    pub fn sec1_key_read_at(
        bytes: *const u8,
        bytes_len: usize,
        parts: *mut sec1_key_parts,
        fault_offset: *mut usize,
    ) -> u32;
    /// Returns what [`sec1_key_read`] returns, and stores the offset of the first fault.
    ///
    /// # Safety
    ///
    /// `bytes` is readable for `bytes_len` bytes, and `offset` is writable and overlaps none.
    pub fn sec1_key_fault_at(bytes: *const u8, bytes_len: usize, offset: *mut usize) -> u32;
    /// Returns what [`sec1_tree_check`] returns, and stores the offset of the first fault.
    ///
    /// # Safety
    ///
    /// As for [`sec1_key_fault_at`].
    pub fn sec1_tree_fault_at(bytes: *const u8, bytes_len: usize, offset: *mut usize) -> u32;
    /// Checks that all of the bytes are the content of an identifier.
    ///
    /// # Safety
    ///
    /// `content` is readable for `content_len` bytes.
    pub fn sec1_identifier_check(content: *const u8, content_len: usize) -> u32;
    /// Stores the length of a field element of the curve whose identifier has this content.
    ///
    /// # Safety
    ///
    /// `content` is readable for `content_len` bytes, and `field_len` is writable and overlaps
    /// none.
    pub fn sec1_curve_field_len(
        content: *const u8,
        content_len: usize,
        field_len: *mut usize,
    ) -> u32;
    /// Writes the name of the curve whose identifier has this content and a byte 0, and stores the
    /// length of both.
    ///
    /// # Safety
    ///
    /// `content` is readable for `content_len` bytes. `name` is writable for `name_len` bytes,
    /// `len` is writable, and neither overlaps another argument.
    pub fn sec1_curve_name(
        content: *const u8,
        content_len: usize,
        name: *mut u8,
        name_len: usize,
        len: *mut usize,
    ) -> u32;
    /// Writes the content of the identifier of the curve with this name, and stores its length.
    ///
    /// # Safety
    ///
    /// `name` is readable for `name_len` bytes. `content` is writable for `content_len` bytes,
    /// `len` is writable, and neither overlaps another argument.
    pub fn sec1_curve_from_name(
        name: *const u8,
        name_len: usize,
        content: *mut u8,
        content_len: usize,
        len: *mut usize,
    ) -> u32;
    /// Writes the uncompressed point with these coordinates, or its compressed form if `compress`
    /// isn't 0, and stores its length.
    ///
    /// # Safety
    ///
    /// `x` and `y` are readable for the lengths after them. `out` is writable for `out_len` bytes,
    /// `len` is writable, and neither overlaps another argument.
    pub fn sec1_point_from_coordinates(
        x: *const u8,
        x_len: usize,
        y: *const u8,
        y_len: usize,
        compress: usize,
        out: *mut u8,
        out_len: usize,
        len: *mut usize,
    ) -> u32;
    /// Writes the point at infinity, and stores its length.
    ///
    /// # Safety
    ///
    /// `out` is writable for `out_len` bytes, `len` is writable, and they don't overlap.
    pub fn sec1_point_identity(out: *mut u8, out_len: usize, len: *mut usize) -> u32;
    /// Writes the hexadecimal text of a point and a byte 0, and stores the length of both.
    ///
    /// # Safety
    ///
    /// `bytes` is readable for `bytes_len` bytes. `text` is writable for `text_len` bytes, `len` is
    /// writable, and neither overlaps another argument.
    pub fn sec1_point_to_hex(
        bytes: *const u8,
        bytes_len: usize,
        field_len: usize,
        lower_case: usize,
        text: *mut u8,
        text_len: usize,
        len: *mut usize,
    ) -> u32;
    /// Writes the encoding of the point with this hexadecimal text, and stores its length.
    ///
    /// # Safety
    ///
    /// `text` is readable for `text_len` bytes. `out` is writable for `out_len` bytes, `len` is
    /// writable, and neither overlaps another argument.
    pub fn sec1_point_from_hex(
        text: *const u8,
        text_len: usize,
        field_len: usize,
        out: *mut u8,
        out_len: usize,
        len: *mut usize,
    ) -> u32;
    /// Writes the element with this tag byte and this content, and stores its length.
    ///
    /// # Safety
    ///
    /// `content` is readable for `content_len` bytes. `out` is writable for `out_len` bytes, `len`
    /// is writable, and neither overlaps another argument.
    pub fn sec1_element_write(
        tag: usize,
        content: *const u8,
        content_len: usize,
        out: *mut u8,
        out_len: usize,
        len: *mut usize,
    ) -> u32;
    /// Reads an EC public key from its SubjectPublicKeyInfo, and stores the places of its parts.
    ///
    /// # Safety
    ///
    /// `bytes` is readable for `bytes_len` bytes, and `parts` is writable and overlaps none.
    pub fn sec1_public_key_read(
        bytes: *const u8,
        bytes_len: usize,
        parts: *mut sec1_public_key_parts,
    ) -> u32;
    /// Returns what [`sec1_public_key_read`] returns, and stores the offset of the fault.
    ///
    /// # Safety
    ///
    /// As for [`sec1_key_fault_at`].
    pub fn sec1_public_key_fault_at(bytes: *const u8, bytes_len: usize, offset: *mut usize) -> u32;
    /// Stores the place of the SubjectPublicKeyInfo in a certificate.
    ///
    /// # Safety
    ///
    /// `bytes` is readable for `bytes_len` bytes, and `part` is writable and overlaps none.
    pub fn sec1_certificate_read_public_key(
        bytes: *const u8,
        bytes_len: usize,
        part: *mut sec1_part,
    ) -> u32;
    /// Returns what [`sec1_certificate_read_public_key`] returns, and stores the offset of the first
    /// fault.
    ///
    /// # Safety
    ///
    /// As for [`sec1_key_fault_at`].
    pub fn sec1_certificate_fault_at(bytes: *const u8, bytes_len: usize, offset: *mut usize)
    -> u32;
    /// Reads an EC private key from its container, and stores the places of its parts.
    ///
    /// # Safety
    ///
    /// `bytes` is readable for `bytes_len` bytes, and `parts` is writable and overlaps none.
    pub fn sec1_private_key_info_read(
        bytes: *const u8,
        bytes_len: usize,
        parts: *mut sec1_private_key_info_parts,
    ) -> u32;
    /// Returns what [`sec1_private_key_info_read`] returns, and stores the offset of the fault.
    ///
    /// # Safety
    ///
    /// As for [`sec1_key_fault_at`].
    pub fn sec1_private_key_info_fault_at(
        bytes: *const u8,
        bytes_len: usize,
        offset: *mut usize,
    ) -> u32;
    /// Reads an EC private key by itself or in its container, and stores the places of its parts.
    ///
    /// # Safety
    ///
    /// `bytes` is readable for `bytes_len` bytes, and `parts` is writable and overlaps none.
    pub fn sec1_private_key_read(
        bytes: *const u8,
        bytes_len: usize,
        parts: *mut sec1_key_parts,
    ) -> u32;
    /// Returns what [`sec1_private_key_read`] returns, and stores the offset of the fault.
    ///
    /// # Safety
    ///
    /// As for [`sec1_key_fault_at`].
    pub fn sec1_private_key_fault_at(bytes: *const u8, bytes_len: usize, offset: *mut usize)
    -> u32;
    /// Writes the SubjectPublicKeyInfo of an EC public key, and stores its length.
    ///
    /// # Safety
    ///
    /// Each `*const` is readable for the length after it. `out` is writable for `out_len` bytes,
    /// `len` is writable, and neither overlaps another argument.
    pub fn sec1_public_key_write(
        curve: *const u8,
        curve_len: usize,
        public_key: *const u8,
        public_key_len: usize,
        out: *mut u8,
        out_len: usize,
        len: *mut usize,
    ) -> u32;
    /// Writes the container of an EC private key, and stores its length.
    ///
    /// # Safety
    ///
    /// As [`sec1_public_key_write`].
    pub fn sec1_private_key_info_write(
        private_key: *const u8,
        private_key_len: usize,
        curve: *const u8,
        curve_len: usize,
        public_key: *const u8,
        public_key_len: usize,
        has_public_key: usize,
        out: *mut u8,
        out_len: usize,
        len: *mut usize,
    ) -> u32;
    /// Reads an ECDSA signature, and stores the places of its numbers.
    ///
    /// # Safety
    ///
    /// `bytes` is readable for `bytes_len` bytes, and `parts` is writable and overlaps none.
    pub fn sec1_signature_read(
        bytes: *const u8,
        bytes_len: usize,
        parts: *mut sec1_signature_parts,
    ) -> u32;
    /// Returns what [`sec1_signature_read`] returns, and stores the offset of the first fault.
    ///
    /// # Safety
    ///
    /// As for [`sec1_key_fault_at`].
    pub fn sec1_signature_fault_at(bytes: *const u8, bytes_len: usize, offset: *mut usize) -> u32;
    /// Writes the ECDSA signature with these numbers, and stores its length.
    ///
    /// # Safety
    ///
    /// As [`sec1_public_key_write`].
    pub fn sec1_signature_write(
        r: *const u8,
        r_len: usize,
        s: *const u8,
        s_len: usize,
        out: *mut u8,
        out_len: usize,
        len: *mut usize,
    ) -> u32;
    /// Writes the arcs of the identifier with this content, and stores their number.
    ///
    /// # Safety
    ///
    /// `content` is readable for `content_len` bytes. `arcs` is writable for `arcs_len` numbers,
    /// `count` is writable, and neither overlaps another argument.
    pub fn sec1_identifier_arcs(
        content: *const u8,
        content_len: usize,
        arcs: *mut u32,
        arcs_len: usize,
        count: *mut usize,
    ) -> u32;
    /// Decodes the first block of PEM with this label in a text into the beginning of `room`, and
    /// stores the length of that and the number of the block's first line.
    ///
    /// # Safety
    ///
    /// Each `*const` is readable for the length after it. `room` is writable for `room_len` bytes,
    /// `len` and `line` are writable, and none of these overlaps another argument.
    pub fn sec1_pem_decode(
        text: *const u8,
        text_len: usize,
        label: *const u8,
        label_len: usize,
        room: *mut u8,
        room_len: usize,
        len: *mut usize,
        line: *mut usize,
    ) -> u32;
    /// Writes the picture of an input, and stores its length and whether it has a key.
    ///
    /// # Safety
    ///
    /// `input` is readable for `input_len` bytes, `room` and `text` are writable for the lengths
    /// after them, `len` and `is_key` are writable, and none of these overlaps another argument.
    pub fn sec1_picture_draw(
        input: *const u8,
        input_len: usize,
        all: usize,
        room: *mut u8,
        room_len: usize,
        text: *mut u8,
        text_len: usize,
        len: *mut usize,
        is_key: *mut usize,
    ) -> u32;
    /// Writes a picture as `sec1_picture_draw` does, or as JSON, of some levels or of one element.
    ///
    /// # Safety
    ///
    /// `input` and `file` are readable for the lengths after them, `room` and `text` are writable for
    /// the lengths after them, `len` and `is_key` are writable, and none of these overlaps another
    /// argument.
    pub fn sec1_picture_write(
        input: *const u8,
        input_len: usize,
        all: usize,
        json: usize,
        levels: usize,
        offset: usize,
        file: *const u8,
        file_len: usize,
        room: *mut u8,
        room_len: usize,
        text: *mut u8,
        text_len: usize,
        len: *mut usize,
        is_key: *mut usize,
    ) -> u32;
    /// Stores what each line of the picture of an input is of, and the number of lines.
    ///
    /// # Safety
    ///
    /// `input` is readable for `input_len` bytes, `room` is writable for `room_len` bytes, `lines`
    /// for `lines_len` lines, and `count` is writable, and none of these overlaps another argument.
    pub fn sec1_picture_lines(
        input: *const u8,
        input_len: usize,
        room: *mut u8,
        room_len: usize,
        lines: *mut sec1_picture_line,
        lines_len: usize,
        count: *mut usize,
    ) -> u32;
    /// Writes the text of a status and a byte 0, and stores the length of both.
    ///
    /// # Safety
    ///
    /// `text` is writable for `text_len` bytes, `len` is writable, and neither overlaps another
    /// argument.
    pub fn sec1_status_to_text(
        status: usize,
        text: *mut u8,
        text_len: usize,
        len: *mut usize,
    ) -> u32;
}
