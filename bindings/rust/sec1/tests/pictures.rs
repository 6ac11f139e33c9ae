//! Pictures of inputs: those that were drawn by hand, and a long one.
#![cfg(feature = "alloc")]
#![allow(clippy::unwrap_used)]

mod support;

use sec1::{DrawOptions, Picture, PictureRow, draw, draw_with};
use support::bytes;

/// Returns the lines of a block that begin so, without that beginning.
fn after<'a>(block: &'a str, front: &str) -> Vec<&'a str> {
    block.lines().filter_map(|line| line.strip_prefix(front)).collect()
}

#[test]
fn drawn_by_hand() {
    let blocks = include_str!("data/pictures.txt").trim_end().split("\n\n");
    let mut count = 0;
    for block in blocks {
        let (given, drawn) = block.split_once("\n$").unwrap();
        let (option, drawn) = drawn.split_once('\n').unwrap();
        let (text, status) = drawn.rsplit_once("\n= ").unwrap();
        let written: String = after(given, "< ").iter().map(|line| format!("{line}\n")).collect();
        let input = [written.into_bytes(), bytes(&after(given, "x ").concat())].concat();
        let picture = draw(&input, option == " --all");
        assert_eq!((&picture.text, picture.has_key), (&format!("{text}\n"), status == "0"));
        assert_rows(&picture, &draw(&input, false).text);
        count += 1;
    }
    assert_eq!(count, 46);
}

#[test]
fn that_are_long() {
    let input = [&[0x30, 0x82, 0x20, 0][..], &[5, 0].repeat(4096)].concat();
    let mut text = "   0 30 82 20 00    8192  SEQUENCE\n".to_string();
    for at in (4..input.len()).step_by(2) {
        text += &format!("{at:>4} 05 00{:>14}    NULL\n", 0);
    }
    text += "This is no EC private key (RFC 5915).\n";
    let picture = draw(&input, false);
    assert_eq!((&picture.text, picture.has_key), (&text, false));
    assert_rows(&picture, &text);
}

/// Returns the lines of the rows in the picture of an input with options, whose rows are those
/// without.
fn lines_with(input: &[u8], options: DrawOptions) -> Vec<String> {
    let (plain, picture) = (draw(input, false), draw_with(input, options));
    assert!(picture.rows().eq(plain.rows()));
    assert_eq!(picture.has_key, plain.has_key);
    let is_row = |line: &&str| line.trim_start().starts_with(|it: char| it.is_ascii_digit());
    picture.text.lines().filter(is_row).map(str::to_owned).collect()
}

#[test]
fn of_some_levels_and_of_one_element() {
    // The first picture is of a key on P-256.
    let (block, _) = include_str!("data/pictures.txt").split_once("\n$").unwrap();
    let input = &bytes(&after(block, "x ").concat());
    let picture = draw(input, false);
    let rows: Vec<PictureRow<'_>> = picture.rows().collect();
    for levels in [1, 2, 3, usize::MAX] {
        let lines = lines_with(input, DrawOptions { levels, ..DrawOptions::default() });
        let wanted = rows.iter().filter(|row| row.depth < levels).map(|row| row.line);
        assert!(lines.iter().eq(wanted), "{levels}: {lines:?}");
    }
    // The tag and the length are the same, wherever the element is drawn.
    let header = |line: &str| -> Vec<String> {
        line.split_whitespace().skip(1).take(2).map(str::to_owned).collect()
    };
    for row in &rows {
        let lines = lines_with(input, DrawOptions { offset: row.offset, levels: 1, all: false });
        assert_eq!(lines.len(), 1);
        assert_eq!(header(&lines[0]), header(row.line));
    }
    for offset in [1, 6, usize::MAX] {
        let lines = lines_with(input, DrawOptions { offset, ..DrawOptions::default() });
        assert!(lines.is_empty(), "{lines:?}");
    }
    let shown = [false, true].map(|all| {
        draw_with(input, DrawOptions { all, offset: 5, levels: 0 }).text.contains(" 2D 01 CA 44 ")
    });
    assert_eq!(shown, [false, true]);
}

/// Compares the rows of a picture with its text: a row begins with its offset, its header follows in
/// hexadecimal, and each byte is in one row.
fn assert_rows(picture: &Picture, text: &str) {
    let is_row = |line: &&str| line.trim_start().starts_with(|it: char| it.is_ascii_digit());
    let is_mark = |line: &&str| line.starts_with("     ^ ");
    let wanted: Vec<_> = text.lines().filter(|line| is_row(line) || is_mark(line)).collect();
    let rows: Vec<PictureRow<'_>> = picture.rows().collect();
    let lines: Vec<_> =
        rows.iter().flat_map(|row| [&[row.line][..], &row.marks].concat()).collect();
    assert_eq!(lines, wanted);
    let mut next = 0;
    for row in &rows {
        assert_eq!(row.line.split_whitespace().next(), Some(row.offset.to_string().as_str()));
        next = if row.offset == 0 { 0 } else { next };
        assert_eq!(row.offset, next);
        next += row.header_len + row.content_len;
        let indent = row.line[26..].len() - row.line[26..].trim_start().len();
        assert_eq!(row.depth, indent / 2, "{}", row.line);
    }
}

#[test]
fn that_hide_contents() {
    let hidden = |digits: &str| -> Vec<(usize, usize, usize)> {
        let picture = draw(&bytes(digits), false);
        let rows = picture.rows().filter(|row| row.is_hidden);
        rows.map(|row| (row.offset, row.header_len, row.content_len)).collect()
    };
    assert_eq!(hidden("3006020101040109"), [(5, 2, 1)]);
    // Two numbers, which may be a damaged key's, and six, which are a DSA key's.
    assert_eq!(hidden("300602010102010F"), [(2, 2, 1)]);
    let numbers = [5, 8, 11, 14, 17].map(|offset| (offset, 2, 1));
    assert_eq!(hidden(&format!("3012{}", "020105".repeat(6))), numbers);
    // A public key.
    assert_eq!(hidden("300A300506032B6570030100"), []);
    assert!(draw(&[0x30, 6, 2, 1, 1, 4, 1, 9], true).rows().any(|row| row.is_hidden));
}
