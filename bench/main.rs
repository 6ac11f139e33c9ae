//! Measures the calls of `sec1` beside the same jobs by hand, in one process, in turn.
//!
//!     main verdicts    tests that all sides accept and refuse the same, over stored keys and damaged copies
//!     main measure     runs each line and prints its samples, as nanoseconds
//!     main lines       prints the name of each line, its sides, and how many jobs a call does
//!     main large       reads the longest document there is, once by each side, and prints the seconds
//!     main repeat LINE ours|peer COUNT     runs one side of one line so often, for a profiler
mod heap;

use peer::calls;
use std::arch::global_asm;
use std::hint::black_box;
use std::time::Instant;

// Moves all code that is linked behind it. The linker keeps it (`R`), though nothing calls it.
global_asm!(
    ".section .text.bench_first, \"axR\"",
    ".p2align 6",
    concat!(".skip ", env!("BENCH_SKIP"), ", 0x90"),
    ".text"
);

type OnBytes = unsafe extern "C" fn(*const u8, usize) -> usize;

#[link(name = "sec1_bench", kind = "static")]
unsafe extern "C" {
    fn bench_empty(input: *const u8, len: usize) -> usize;
    fn bench_key_read(input: *const u8, len: usize) -> usize;
    fn bench_key_point(input: *const u8, len: usize) -> usize;
    fn bench_document_copy(input: *const u8, len: usize) -> usize;
    fn bench_document_read(input: *const u8, len: usize) -> usize;
    fn bench_document_read_bytes(input: *const u8, len: usize) -> usize;
    fn bench_headers_read(input: *const u8, len: usize) -> usize;
    fn bench_headers_read_by_reader(input: *const u8, len: usize) -> usize;
    fn bench_headers_read_inline(input: *const u8, len: usize) -> usize;
    fn bench_tree_check(input: *const u8, len: usize) -> usize;
    fn bench_identifier_read(input: *const u8, len: usize) -> usize;
    fn bench_identifier_read_inline(input: *const u8, len: usize) -> usize;
    fn bench_identifier_parse(input: *const u8, len: usize) -> usize;
    fn bench_identifier_text(input: *const u8, len: usize) -> usize;
    fn bench_point_read(input: *const u8, len: usize) -> usize;
    fn bench_point_read_inline(input: *const u8, len: usize) -> usize;
    fn bench_point_copy(input: *const u8, len: usize) -> usize;
    fn bench_point_text(input: *const u8, len: usize) -> usize;
    fn bench_point_print(input: *const u8, len: usize) -> usize;
    fn bench_certificate_point(input: *const u8, len: usize) -> usize;
    fn bench_container_point(input: *const u8, len: usize) -> usize;
    fn bench_point_parse(input: *const u8, len: usize, rounds: usize) -> usize;
    fn bench_points_cmp(input: *const u8, len: usize, rounds: usize) -> usize;
    fn bench_points_eq(input: *const u8, len: usize, rounds: usize) -> usize;
    fn bench_points_eq_inline(input: *const u8, len: usize, rounds: usize) -> usize;
    fn bench_key_rewrite(input: *const u8, len: usize, out: *mut u8, out_len: usize) -> usize;
    fn bench_key_write_bare(
        private_key: *const u8,
        len: usize,
        out: *mut u8,
        out_len: usize,
    ) -> usize;
    fn bench_key_write_bare_inline(
        private_key: *const u8,
        len: usize,
        out: *mut u8,
        out_len: usize,
    ) -> usize;
    fn bench_key_write(
        private_key: *const u8,
        private_key_len: usize,
        public_key: *const u8,
        public_key_len: usize,
        out: *mut u8,
        out_len: usize,
    ) -> usize;
    fn bench_key_write_inline(
        private_key: *const u8,
        private_key_len: usize,
        public_key: *const u8,
        public_key_len: usize,
        out: *mut u8,
        out_len: usize,
    ) -> usize;
    fn bench_key_document(
        private_key: *const u8,
        private_key_len: usize,
        public_key: *const u8,
        public_key_len: usize,
    ) -> usize;
    fn bench_points_compress(
        input: *const u8,
        len: usize,
        out: *mut u8,
        out_len: usize,
        rounds: usize,
    ) -> usize;
    fn bench_points_compress_inline(
        input: *const u8,
        len: usize,
        out: *mut u8,
        out_len: usize,
        rounds: usize,
    ) -> usize;
}

#[link(name = "sec1_bench_calls", kind = "static")]
unsafe extern "C" {
    fn bench_certificate_point_called(input: *const u8, len: usize) -> usize;
    fn bench_certificate_write(
        input: *const u8,
        len: usize,
        out: *mut u8,
        out_len: usize,
        rounds: usize,
    ) -> usize;
}

/// One call, with its arguments.
type Call<'a> = Box<dyn Fn() -> usize + 'a>;

/// A line of the table: the same job by each side, with the number of jobs of a call.
struct Line<'a> {
    name: &'static str,
    sides: Vec<(&'static str, usize, Call<'a>)>,
}

/// The call of the static library on these bytes.
fn on<'a>(call: OnBytes, input: &'a [u8]) -> Call<'a> {
    Box::new(move || unsafe { call(black_box(input).as_ptr(), input.len()) })
}

/// The line of a call of `sec1` and a peer's.
fn line<'a>(
    name: &'static str,
    ours: impl Fn() -> usize + 'a,
    peer: impl Fn() -> usize + 'a,
) -> Line<'a> {
    Line {
        name,
        sides: vec![("ours", 1, Box::new(ours)), ("peer", 1, Box::new(peer))],
    }
}

/// The line of a call of `sec1` alone.
fn alone<'a>(name: &'static str, ours: impl Fn() -> usize + 'a) -> Line<'a> {
    Line {
        name,
        sides: vec![("ours", 1, Box::new(ours))],
    }
}

/// The line of a call of `sec1` and the peer's.
macro_rules! line {
    ($name:expr, $ours:expr, $call:ident($($arg:expr),*)) => {
        line($name, $ours, move || calls::$call($($arg),*))
    };
}

impl<'a> Line<'a> {
    fn jobs(mut self, jobs: usize) -> Line<'a> {
        self.sides.iter_mut().for_each(|side| side.1 = jobs);
        self
    }
}

/// What the lines are measured on.
struct Inputs {
    /// A key on P-256 with all its fields, 121 bytes (RFC 5915 section 3).
    key: Vec<u8>,
    /// This key, those without one or both of the options, one with a long identifier, and one on P-521.
    keys: Vec<Vec<u8>>,
    /// A key on P-384, of 167 bytes, and one on P-521, of 223.
    key_384: Vec<u8>,
    key_521: Vec<u8>,
    /// The key without a curve and a public key, 39 bytes.
    bare: Vec<u8>,
    /// The key with another first tag.
    other_tag: Vec<u8>,
    /// An octet string of 10,000 bytes.
    long: Vec<u8>,
    /// A sequence of 1,000 integers of one byte.
    wide: Vec<u8>,
    /// 64 sequences, one inside the other.
    deep: Vec<u8>,
    /// 64 headers of lengths from 0 to 268,435,455.
    headers: Vec<u8>,
    /// 64 uncompressed points that differ in their last bytes only where they aren't the same.
    points: Vec<u8>,
    /// One of them, compressed.
    compressed: Vec<u8>,
    /// The hexadecimal text of one of them.
    text: String,
}

const PRIVATE_KEY: std::ops::Range<usize> = 7..39;
const PUBLIC_KEY: std::ops::Range<usize> = 56..121;

/// P-256 by its identifier, 1.2.840.10045.3.1.7.
const CURVE: [u8; 8] = [0x2A, 0x86, 0x48, 0xCE, 0x3D, 3, 1, 7];

/// P-384 and P-521, 1.3.132.0.34 and 1.3.132.0.35.
const P384: [u8; 5] = [0x2B, 0x81, 4, 0, 0x22];
const P521: [u8; 5] = [0x2B, 0x81, 4, 0, 0x23];

/// id-ecPublicKey, 1.2.840.10045.2.1.
const ALGORITHM: [u8; 7] = [0x2A, 0x86, 0x48, 0xCE, 0x3D, 2, 1];

fn element(tag: u8, content: &[u8]) -> Vec<u8> {
    let mut bytes = header(tag, content.len());
    bytes.extend(content);
    bytes
}

/// A key with all its fields, for field elements of `field` bytes.
fn key_over(field: usize, curve: &[u8]) -> Vec<u8> {
    let private_key: Vec<u8> = noise(5).take(field).collect();
    let bits: Vec<u8> = [0, 4].into_iter().chain(noise(6).take(2 * field)).collect();
    let fields = [
        element(0x02, &[1]),
        element(0x04, &private_key),
        element(0xA0, &element(0x06, curve)),
        element(0xA1, &element(0x03, &bits)),
    ];
    element(0x30, &fields.concat())
}

fn header(tag: u8, length: usize) -> Vec<u8> {
    if length < 0x80 {
        return vec![tag, length as u8];
    }
    let digits: Vec<u8> = length
        .to_be_bytes()
        .into_iter()
        .skip_while(|&digit| digit == 0)
        .collect();
    let mut bytes = vec![tag, 0x80 + digits.len() as u8];
    bytes.extend(digits);
    bytes
}

/// Bytes that look like chance, the same in each run.
fn noise(seed: u32) -> impl Iterator<Item = u8> {
    let mut state = seed;
    std::iter::repeat_with(move || {
        state = state.wrapping_mul(1_664_525).wrapping_add(1_013_904_223);
        (state >> 24) as u8
    })
}

fn points() -> Vec<u8> {
    let mut points = Vec::new();
    for i in 0..64u32 {
        points.push(4);
        points.extend(noise(7).take(56));
        points.extend(noise(i / 2).take(8));
    }
    points
}

impl Inputs {
    fn new() -> Inputs {
        let version = element(0x02, &[1]);
        let private_key = element(0x04, &noise(1).take(32).collect::<Vec<u8>>());
        let parameters = element(0xA0, &element(0x06, &CURVE));
        let points = points();
        let mut bits = vec![0];
        bits.extend(&points[..65]);
        let public_key = element(0xA1, &element(0x03, &bits));
        let key = element(
            0x30,
            &[&version[..], &private_key, &parameters, &public_key].concat(),
        );
        let mut other_tag = key.clone();
        other_tag[0] = 0x31;
        let long_curve = element(0xA0, &element(0x06, &[0x2B, 0x24, 3, 3, 2, 8, 1, 1, 7]));
        let long_private_key = element(0x04, &noise(3).take(66).collect::<Vec<u8>>());
        bits.extend(noise(4).take(68));
        let long_public_key = element(0xA1, &element(0x03, &bits));
        let bare = element(0x30, &[&version[..], &private_key].concat());
        let keys = vec![
            key.clone(),
            bare.clone(),
            element(0x30, &[&version[..], &private_key, &parameters].concat()),
            element(0x30, &[&version[..], &private_key, &public_key].concat()),
            element(0x30, &[&version[..], &private_key, &long_curve].concat()),
            element(
                0x30,
                &[
                    &version[..],
                    &long_private_key,
                    &parameters,
                    &long_public_key,
                ]
                .concat(),
            ),
        ];
        Inputs {
            keys,
            key_384: key_over(48, &P384),
            key_521: key_over(66, &P521),
            bare,
            other_tag,
            long: element(0x04, &noise(2).take(10_000).collect::<Vec<u8>>()),
            wide: element(0x30, &element(0x02, &[1]).repeat(1_000)),
            deep: (0..63).fold(element(0x30, &[]), |inside, _| element(0x30, &inside)),
            headers: (0..64)
                .flat_map(|i| header(0x30, LENGTHS[i % LENGTHS.len()]))
                .collect(),
            text: points[..65]
                .iter()
                .map(|byte| format!("{byte:02X}"))
                .collect(),
            compressed: [&[2], &points[1..33]].concat(),
            points,
            key,
        }
    }
}

/// Lengths of each number of digits; most headers of keys and certificates have two to four bytes.
const LENGTHS: [usize; 8] = [1, 32, 0x77, 0x81, 3, 0x1F0, 0x1_2345, 0x0FFF_FFFF];

/// How often each call on many points goes over them, and how often a text is read.
const ROUNDS: usize = 200;

/// The name of the line that calls nothing.
const EMPTY: &str = "an empty call";

const DOTTED: &[u8] = b"1.2.840.10045.3.1.7";

/// The lines on keys.
fn key_lines(inputs: &Inputs) -> Vec<Line<'_>> {
    let (key, bare) = (&inputs.key[..], &inputs.bare[..]);
    let (other_tag, cut) = (&inputs.other_tag[..], &inputs.key[..60]);
    let (d, q) = (&key[PRIVATE_KEY], &key[PUBLIC_KEY]);
    let mut lines = vec![];
    for (name, input) in [
        ("read a key", key),
        ("read a key without options", bare),
        ("read a key on P-384", &inputs.key_384[..]),
        ("read a key on P-521", &inputs.key_521[..]),
        ("refuse at the first tag", other_tag),
        ("refuse a key cut at 60", cut),
    ] {
        lines.push(line!(
            name,
            on(bench_key_read, input),
            key_read(black_box(input))
        ));
    }
    lines.extend([
        line!(
            "write a key",
            write(bench_key_write, d, q),
            key_write(black_box(d), q, &mut [0; 128])
        ),
        line!(
            "write a key, inlined",
            write(bench_key_write_inline, d, q),
            key_write_inline(black_box(d), q, &mut [0; 128])
        ),
        line!(
            "write a key without options",
            into(bench_key_write_bare, d),
            key_write_bare(black_box(d), &mut [0; 128])
        ),
        line!(
            "write a key without options, inlined",
            into(bench_key_write_bare_inline, d),
            key_write_bare_inline(black_box(d), &mut [0; 128])
        ),
        line!(
            "read a key and write it",
            into(bench_key_rewrite, key),
            key_rewrite(black_box(key), &mut [0; 128])
        ),
        line(
            "a key's document",
            move || unsafe {
                bench_key_document(black_box(d).as_ptr(), d.len(), q.as_ptr(), q.len())
            },
            move || calls::key_document(black_box(d), q),
        ),
    ]);
    lines
}

type Write = unsafe extern "C" fn(*const u8, usize, *const u8, usize, *mut u8, usize) -> usize;

fn write<'a>(call: Write, d: &'a [u8], q: &'a [u8]) -> Call<'a> {
    Box::new(move || {
        let (mut out, d) = ([0; 128], black_box(d));
        unsafe {
            call(
                d.as_ptr(),
                d.len(),
                q.as_ptr(),
                q.len(),
                out.as_mut_ptr(),
                out.len(),
            )
        }
    })
}

type Into = unsafe extern "C" fn(*const u8, usize, *mut u8, usize) -> usize;

fn into(call: Into, input: &[u8]) -> Call<'_> {
    Box::new(move || {
        let (mut out, input) = ([0; 128], black_box(input));
        unsafe { call(input.as_ptr(), input.len(), out.as_mut_ptr(), out.len()) }
    })
}

/// The lines on elements, documents and identifiers.
fn der_lines(inputs: &Inputs) -> Vec<Line<'_>> {
    let (key, long) = (&inputs.key[..], &inputs.long[..]);
    let (wide, deep, headers) = (&inputs.wide[..], &inputs.deep[..], &inputs.headers[..]);
    let by_peer = |name, ours: OnBytes, peer: fn(&[u8]) -> usize, input| {
        line(name, on(ours, input), move || peer(black_box(input)))
    };
    vec![
        by_peer(
            "a header, of 64",
            bench_headers_read,
            calls::headers_read,
            headers,
        )
        .jobs(64),
        by_peer(
            "a header, of 64, from a reader",
            bench_headers_read_by_reader,
            calls::headers_read_by_reader,
            headers,
        )
        .jobs(64),
        by_peer(
            "a header, of 64, inlined",
            bench_headers_read_inline,
            calls::headers_read_inline,
            headers,
        )
        .jobs(64),
        by_peer(
            "check a key's tree",
            bench_tree_check,
            calls::tree_check,
            key,
        ),
        by_peer(
            "check a wide tree, an element",
            bench_tree_check,
            calls::tree_check,
            wide,
        )
        .jobs(1001),
        by_peer(
            "check a deep tree, an element",
            bench_tree_check,
            calls::tree_check,
            deep,
        )
        .jobs(64),
        by_peer(
            "a document of 10 KB, copied",
            bench_document_copy,
            calls::document_copy,
            long,
        ),
        by_peer(
            "a key's document, read whole",
            bench_document_read,
            calls::document_read,
            key,
        ),
        by_peer(
            "a document of 10 KB, read whole",
            bench_document_read,
            calls::document_read,
            long,
        ),
        by_peer(
            "a key's document, read by bytes",
            bench_document_read_bytes,
            calls::document_read_bytes,
            key,
        ),
        by_peer(
            "a document of 10 KB, read by bytes",
            bench_document_read_bytes,
            calls::document_read_bytes,
            long,
        ),
        line!(
            "an identifier's content",
            on(bench_identifier_read, &CURVE),
            identifier_read(black_box(&CURVE))
        ),
        line!(
            "an identifier's content, inlined",
            on(bench_identifier_read_inline, &CURVE),
            identifier_read_inline(black_box(&CURVE))
        ),
        line!(
            "an identifier's content of 5 bytes",
            on(bench_identifier_read, &P384),
            identifier_read(black_box(&P384))
        ),
        line!(
            "an identifier's content of 7 bytes",
            on(bench_identifier_read, &ALGORITHM),
            identifier_read(black_box(&ALGORITHM))
        ),
        line!(
            "an identifier's text, read",
            on(bench_identifier_parse, DOTTED),
            identifier_parse(black_box(DOTTED))
        ),
        line!(
            "an identifier's text, made",
            on(bench_identifier_text, &CURVE),
            identifier_text(black_box(&CURVE))
        ),
    ]
}

type OnPoints = unsafe extern "C" fn(*const u8, usize, usize) -> usize;

fn many<'a>(call: OnPoints, points: &'a [u8]) -> Call<'a> {
    Box::new(move || unsafe { call(black_box(points).as_ptr(), points.len(), black_box(ROUNDS)) })
}

type Compress = unsafe extern "C" fn(*const u8, usize, *mut u8, usize, usize) -> usize;

fn compress(call: Compress, points: &[u8]) -> Call<'_> {
    Box::new(move || {
        let (mut out, points) = ([0; 128], black_box(points));
        let rounds = black_box(ROUNDS);
        unsafe {
            call(
                points.as_ptr(),
                points.len(),
                out.as_mut_ptr(),
                out.len(),
                rounds,
            )
        }
    })
}

/// The lines on points.
fn point_lines(inputs: &Inputs) -> Vec<Line<'_>> {
    let (point, compressed) = (&inputs.points[..65], &inputs.compressed[..]);
    let (text, points) = (inputs.text.as_bytes(), &inputs.points[..]);
    let rounds = || black_box(ROUNDS);
    vec![
        line!(
            "a point from bytes",
            on(bench_point_read, point),
            point_read(black_box(point))
        ),
        line!(
            "a point from bytes, inlined",
            on(bench_point_read_inline, point),
            point_read_inline(black_box(point))
        ),
        line!(
            "a compressed point from bytes",
            on(bench_point_read, compressed),
            point_read(black_box(compressed))
        ),
        line!(
            "a compressed point from bytes, inlined",
            on(bench_point_read_inline, compressed),
            point_read_inline(black_box(compressed))
        ),
        line!(
            "a point from bytes, and to bytes",
            on(bench_point_copy, point),
            point_copy(black_box(point))
        ),
        line!(
            "a point from text",
            many(bench_point_parse, text),
            point_parse(black_box(text), rounds())
        )
        .jobs(ROUNDS),
        line!(
            "a point from bytes, and to text",
            on(bench_point_text, point),
            point_text(black_box(point))
        ),
        line!(
            "a point from bytes, and printed",
            on(bench_point_print, point),
            point_print(black_box(point))
        ),
        line!(
            "compress a point",
            compress(bench_points_compress, points),
            points_compress(black_box(points), &mut [0; 128], rounds())
        )
        .jobs(64 * ROUNDS),
        line!(
            "compress a point, inlined",
            compress(bench_points_compress_inline, points),
            points_compress_inline(black_box(points), &mut [0; 128], rounds())
        )
        .jobs(64 * ROUNDS),
        line!(
            "compare two points, cmp",
            many(bench_points_cmp, points),
            points_cmp(black_box(points), rounds())
        )
        .jobs(63 * ROUNDS),
        line!(
            "compare two points, eq",
            many(bench_points_eq, points),
            points_eq(black_box(points), rounds())
        )
        .jobs(63 * ROUNDS),
        line!(
            "compare two points, eq, inlined",
            many(bench_points_eq_inline, points),
            points_eq_inline(black_box(points), rounds())
        )
        .jobs(63 * ROUNDS),
    ]
}

const CERTIFICATE: &[u8] = include_bytes!("p256_certificate.der");
const CONTAINER: &[u8] = include_bytes!("p256_container.der");

/// The name of a file that holds a key.
const FILE: &str = concat!(env!("BENCH_FOLDER"), "/../dist/examples/p256.der");

fn file() -> Vec<u8> {
    std::fs::read(FILE).expect("a file with a key")
}

/// The lines on records of a caller's own, and on a file.
fn record_lines<'a>() -> Vec<Line<'a>> {
    vec![
        line(
            "a certificate to a point",
            on(bench_certificate_point, CERTIFICATE),
            || calls::certificate_point(black_box(CERTIFICATE)),
        ),
        line(
            "a certificate to a point, by a call",
            on(bench_certificate_point_called, CERTIFICATE),
            || calls::certificate_point_called(black_box(CERTIFICATE)),
        ),
        alone("a certificate, written", || {
            let mut out = [0; 512];
            unsafe {
                bench_certificate_write(
                    black_box(CERTIFICATE).as_ptr(),
                    CERTIFICATE.len(),
                    out.as_mut_ptr(),
                    out.len(),
                    black_box(ROUNDS),
                )
            }
        })
        .jobs(ROUNDS),
        line(
            "a container to a key to a point",
            on(bench_container_point, CONTAINER),
            || calls::container_point(black_box(CONTAINER)),
        ),
        line!(
            "a file to a key to a point",
            || {
                let key = file();
                unsafe { bench_key_point(key.as_ptr(), key.len()) }
            },
            key_point(&file())
        ),
    ]
}

/// What `f` is given: the bytes, their prefixes, one byte more, and a copy for each byte with
/// another value.
fn damaged(bytes: &[u8], mut f: impl FnMut(&[u8])) {
    (0..=bytes.len()).for_each(|len| f(&bytes[..len]));
    f(&[bytes, &[0]].concat());
    let mut copy = bytes.to_vec();
    for i in 0..bytes.len() {
        for value in 0..=255 {
            copy[i] = value;
            f(&copy);
        }
        copy[i] = bytes[i];
    }
}

/// Tests that the peer accepts what `sec1` accepts, with the same result and the same reason of a refusal.
fn verdicts(inputs: &Inputs) {
    let mut count = 0;
    let mut same = |ours: OnBytes, peer: fn(&[u8]) -> usize, bytes: &[u8]| {
        damaged(bytes, |bytes| {
            let number = unsafe { ours(bytes.as_ptr(), bytes.len()) };
            assert_eq!(number, peer(bytes), "{bytes:02X?}");
            count += 1;
        })
    };
    for key in &inputs.keys {
        same(bench_key_read, calls::key_read, key);
        same(bench_key_point, calls::key_point, key);
    }
    for content in [
        &CURVE[..],
        &[0x2B, 0x81, 4, 0, 0x22],
        &[0x8F, 0xFF, 0xFF, 0xFF, 0x7F, 1, 1, 1, 0x81, 1],
    ] {
        same(bench_identifier_read, calls::identifier_read, content);
    }
    for text in [DOTTED, b"2.999.4294967295", b"1.39"] {
        same(bench_identifier_parse, calls::identifier_parse, text);
    }
    for point in [
        &inputs.points[..65],
        &[&[3], &inputs.points[1..33]].concat(),
    ] {
        same(bench_point_read, calls::point_read, point);
        let text: String = point.iter().map(|byte| format!("{byte:02X}")).collect();
        damaged(text.as_bytes(), |text| {
            let number = unsafe { bench_point_parse(text.as_ptr(), text.len(), 1) };
            assert_eq!(number, calls::point_parse(text, 1), "{text:02X?}");
        });
    }
    same(
        bench_certificate_point,
        calls::certificate_point,
        CERTIFICATE,
    );
    println!("{count} inputs, most of them damaged: the same verdicts by sec1 and by its peer");
}

/// How long `count` calls take, in nanoseconds.
fn time(call: &dyn Fn() -> usize, count: usize) -> f64 {
    let start = Instant::now();
    for _ in 0..count {
        black_box(call());
    }
    start.elapsed().as_nanos() as f64
}

/// How many samples of each side of a line are taken in a run.
const SAMPLES: usize = 61;

/// About how long a sample takes, in nanoseconds.
const SAMPLE: f64 = 200_000.0;

/// How many calls make a sample.
fn calls_of(call: &dyn Fn() -> usize) -> usize {
    let mut count = 1;
    while time(call, count) < SAMPLE / 4.0 {
        count *= 2;
    }
    count * 4
}

/// Takes samples of all sides of a line in turn, and prints each as nanoseconds a job.
fn measure(line: &Line) {
    for (side, _, call) in &line.sides {
        assert_eq!(
            call(),
            (line.sides[0].2)(),
            "{}: {side} doesn't do the same",
            line.name
        );
    }
    let counts: Vec<usize> = line.sides.iter().map(|side| calls_of(&side.2)).collect();
    for _ in 0..SAMPLES {
        for ((side, jobs, call), &count) in line.sides.iter().zip(&counts) {
            let job = time(call, count) / (count * jobs) as f64;
            println!("{}\t{side}\t{job:.3}", line.name);
        }
    }
}

/// Reads a document of 268,435,455 bytes of content once by each side, and prints the seconds.
fn large() {
    let document = element(0x04, &vec![0; 0x0FFF_FFFF]);
    for (side, call) in [
        ("ours", on(bench_document_read, &document)),
        ("peer", Box::new(|| calls::document_read(&document))),
    ] {
        let start = Instant::now();
        assert_eq!(call(), document.len());
        println!(
            "{side}: {:.2} s for {} bytes",
            start.elapsed().as_secs_f64(),
            document.len()
        );
    }
}

fn main() {
    let inputs = Inputs::new();
    let empty = line(EMPTY, on(bench_empty, &inputs.key), || {
        calls::empty(black_box(&inputs.key))
    });
    let lines: Vec<Line> = [
        vec![empty],
        key_lines(&inputs),
        der_lines(&inputs),
        point_lines(&inputs),
        record_lines(),
    ]
    .into_iter()
    .flatten()
    .collect();
    let args: Vec<String> = std::env::args().skip(1).collect();
    match args.iter().map(String::as_str).collect::<Vec<&str>>()[..] {
        ["measure"] => lines[1..].iter().for_each(measure),
        ["verdicts"] => verdicts(&inputs),
        ["lines"] => {
            for line in &lines {
                for (side, jobs, _) in &line.sides {
                    println!("{}\t{side}\t{jobs}", line.name);
                }
            }
        }
        ["large"] => large(),
        ["repeat", name, side, count] => {
            let line = lines.iter().find(|line| line.name == name).expect("a line");
            let call = &line
                .sides
                .iter()
                .find(|found| found.0 == side)
                .expect("a side")
                .2;
            for _ in 0..count.parse().expect("a count") {
                black_box(call());
            }
        }
        _ => eprintln!("usage: main measure | verdicts | lines | large | repeat LINE SIDE COUNT"),
    }
}
