//! Pictures of any input: a text that shows what is in it.

use crate::raw::{self, PictureLine};
use alloc::string::String;
use alloc::vec;
use alloc::vec::Vec;
use core::iter;

/// What of an input is drawn, and how.
///
/// # Examples
///
/// ```
/// use sec1::{DrawOptions, draw_with};
///
/// let options = DrawOptions { levels: 1, ..DrawOptions::default() };
/// let picture = draw_with(&[0x30, 3, 2, 1, 5], options);
/// assert!(picture.text.starts_with("   0 30 03             3  SEQUENCE\nThis is "));
/// ```
#[derive(Clone, Copy, Debug, Default, Eq, PartialEq)]
pub struct DrawOptions {
    /// Whether every content is shown, private keys too.
    pub all: bool,

    /// How many levels of elements are drawn, and 0 for all of them.
    pub levels: usize,

    /// The offset of the element that is drawn alone, and 0 for the whole input.
    pub offset: usize,
}

/// A picture of an input.
///
/// # Examples
///
/// ```
/// use sec1::draw;
///
/// let picture = draw(b"30 06 02 01 01 04 01 09", false);
/// let places: Vec<_> = picture.rows().map(|row| (row.offset, row.depth, row.is_hidden)).collect();
/// assert_eq!(places, [(0, 0, false), (2, 1, false), (5, 1, true)]);
/// ```
#[derive(Clone, Debug, Eq, PartialEq)]
pub struct Picture {
    /// The text: lines of at most 100 characters of ASCII, each of which ends in a line feed.
    pub text: String,

    /// Whether some part of the input is an EC private key (RFC 5915).
    pub has_key: bool,

    /// The text without options, if the other one has some.
    plain: Option<String>,

    /// What each line of that text is of.
    lines: Vec<PictureLine>,
}

/// A row of a picture: an element's header, or bytes that are no element.
#[derive(Clone, Debug, Eq, PartialEq)]
pub struct PictureRow<'a> {
    /// The line that is printed.
    pub line: &'a str,

    /// The lines below it, which say what is wrong with it.
    pub marks: Vec<&'a str>,

    /// The number of bytes before it, in the part that it is of.
    pub offset: usize,

    /// The number of bytes of its header.
    pub header_len: usize,

    /// The number of bytes of its content that have no other row.
    pub content_len: usize,

    /// The number of elements around it.
    pub depth: usize,

    /// Whether its content isn't shown, and isn't known to be public.
    pub is_hidden: bool,
}

impl Picture {
    /// Returns the rows of all parts, in order, as they are without options.
    ///
    /// # Examples
    ///
    /// ```
    /// use sec1::draw;
    ///
    /// let picture = draw(&[0x05, 0x81, 0x00], false);
    /// let row = picture.rows().next().expect("there is one");
    /// assert_eq!((row.header_len, row.content_len), (3, 0));
    /// assert_eq!(row.marks, ["     ^ length in more bytes than needed (X.690 10.1)"]);
    /// ```
    pub fn rows(&self) -> impl Iterator<Item = PictureRow<'_>> {
        let text = self.plain.as_ref().unwrap_or(&self.text);
        let mut lines = text.lines().zip(&self.lines).peekable();
        iter::from_fn(move || {
            let (line, of) = lines.find(|(_, of)| of.kind == sec1_sys::SEC1_LINE_ROW)?;
            let is_mark = |(_, of): &(&str, &PictureLine)| of.kind == sec1_sys::SEC1_LINE_MARK;
            let marks = iter::from_fn(|| lines.next_if(is_mark).map(|(mark, _)| mark)).collect();
            Some(PictureRow {
                line,
                marks,
                offset: of.offset,
                header_len: of.header_len,
                content_len: of.content_len,
                depth: of.depth,
                is_hidden: of.hidden == 1,
            })
        })
    }
}

/// Returns the picture of an input: of DER, damaged perhaps, or of what a text of PEM, hexadecimal
/// or base64 encodes. Each byte is in one row. Shown are headers, contents that a form makes public,
/// and short numbers and identifiers; all contents if `all` is `true`. An element above 16,777,215
/// bytes isn't drawn. What was decoded is wiped.
///
/// # Examples
///
/// ```
/// use sec1::draw;
///
/// let picture = draw(b"30 06 02 01 01 04 01 09", false);
/// assert!(picture.has_key);
/// assert!(picture.text.contains("OCTET STRING, 1 byte       privateKey, not shown"));
/// ```
pub fn draw(input: &[u8], all: bool) -> Picture {
    draw_with(input, DrawOptions { all, ..DrawOptions::default() })
}

/// Returns the picture of an input as [`draw`] does, with the text that the options ask for.
///
/// # Examples
///
/// ```
/// use sec1::{DrawOptions, draw_with};
///
/// let options = DrawOptions { offset: 2, ..DrawOptions::default() };
/// let picture = draw_with(&[0x30, 3, 2, 1, 5], options);
/// assert!(picture.text.starts_with("   0 02 01             1  INTEGER 5\n"));
/// assert_eq!(picture.rows().count(), 2);
/// ```
pub fn draw_with(input: &[u8], options: DrawOptions) -> Picture {
    let (plain, has_key) = drawn(input, DrawOptions::default());
    let lines = lines_of(input, plain.lines().count());
    match options == DrawOptions::default() {
        true => Picture { text: plain, has_key, plain: None, lines },
        false => Picture { text: drawn(input, options).0, has_key, plain: Some(plain), lines },
    }
}

/// Returns the text of the picture of an input, and whether a part of it is a key.
fn drawn(input: &[u8], options: DrawOptions) -> (String, bool) {
    // The first call says how long the text is.
    let mut len = 0;
    loop {
        let mut text = vec![0; len];
        let mut room = vec![0; input.len().saturating_mul(2).saturating_add(2).saturating_add(len)];
        let drawn = raw::picture_write(input, options, &mut room, &mut text);
        raw::wipe(&mut room);
        match drawn {
            Err((_, wanted)) if wanted > len => len = wanted,
            drawn => {
                let has_key = matches!(drawn, Ok((_, true)));
                return (String::from_utf8(text).unwrap_or_default(), has_key);
            }
        }
    }
}

/// Returns what each of so many lines of the picture of an input is of.
fn lines_of(input: &[u8], count: usize) -> Vec<PictureLine> {
    let mut lines = vec![PictureLine::default(); count];
    let mut room = vec![0; input.len().saturating_mul(2).saturating_add(2)];
    let found = raw::picture_lines(input, &mut room, &mut lines);
    raw::wipe(&mut room);
    lines.truncate(found.unwrap_or_default());
    lines
}
