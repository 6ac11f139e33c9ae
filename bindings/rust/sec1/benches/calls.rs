//! Nanoseconds of a call of this crate, and of the same call of plain Rust: the fastest tenth of
//! 301 samples of 2,000 calls each.
//!
//! With the arguments LINE, SIDE and NUMBER it makes one call so many times and measures nothing,
//! for a program that counts instructions: the line of the table from 0 on, and 0 for this crate or
//! 1 for plain Rust. `../instructions.py` runs it so, and prints a table.
#![allow(clippy::unwrap_used)]

#[path = "../tests/support/plain.rs"]
mod plain;
#[path = "../tests/support/mod.rs"]
mod support;

use sec1::consts::U32;
use sec1::der::Encode;
use sec1::der::asn1::ObjectIdentifier;
use sec1::{EcPrivateKey, EncodedPoint};
use std::hint::black_box;
use std::time::Instant;

type Plain = plain::Point<32, 65>;
type Ours = EncodedPoint<U32>;

const SAMPLES: usize = 301;
const CALLS: u32 = 2000;
const CURVE: &str = "1.2.840.10045.3.1.7";

fn sample(call: &mut dyn FnMut()) -> f64 {
    let start = Instant::now();
    (0..CALLS).for_each(|_| call());
    start.elapsed().as_nanos() as f64 / f64::from(CALLS)
}

/// The lines of the table, or one call of one of them.
struct Table {
    line: usize,
    only: Option<[usize; 3]>,
}

impl Table {
    fn line(&mut self, name: &str, mut ours: impl FnMut(), mut theirs: impl FnMut()) {
        let line = self.line;
        self.line += 1;
        match self.only {
            None => measure(name, ours, theirs),
            Some([only, 0, number]) if only == line => (0..number).for_each(|_| ours()),
            Some([only, 1, number]) if only == line => (0..number).for_each(|_| theirs()),
            Some(_) => (),
        }
    }
}

fn measure(name: &str, mut ours: impl FnMut(), mut theirs: impl FnMut()) {
    let mut times = [Vec::new(), Vec::new()];
    for _ in 0..SAMPLES {
        times[0].push(sample(&mut ours));
        times[1].push(sample(&mut theirs));
    }
    let [a, b] = times.map(|mut times| {
        times.sort_by(f64::total_cmp);
        times[SAMPLES / 10]
    });
    println!("{name:30} {a:8.1} {b:8.1} {:6.1}", a / b);
}

macro_rules! call {
    ($call:expr) => {
        || {
            let _ = black_box($call);
        }
    };
}

fn main() {
    let der = &support::p256()[..];
    let (key, peer) = (EcPrivateKey::try_from(der).unwrap(), plain::Key::from_der(der).unwrap());
    let bytes = key.public_key.unwrap();
    let (ours, theirs) = (Ours::from_bytes(bytes).unwrap(), Plain::from_bytes(bytes).unwrap());
    let (small, less) = (ours.compress(), theirs.compress());
    let text = ours.to_string();

    // Cargo gives benches `--bench`.
    let words: Vec<String> = std::env::args().skip(1).filter(|word| word != "--bench").collect();
    let numbers: Result<Vec<usize>, _> = words.iter().map(|word| word.parse()).collect();
    let only = numbers.unwrap().try_into().ok();
    let mut table = Table { line: 0, only };
    if only.is_none() {
        println!("{:30} {:>8} {:>8} {:>6}", "", "crate", "plain", "ratio");
    }
    let (cut, tagged) = (&der[..60], &der[1..]);
    let short =
        EcPrivateKey { parameters: None, public_key: None, ..key.clone() }.to_der().unwrap();
    table.line(
        "read a key",
        call!(EcPrivateKey::try_from(black_box(der))),
        call!(plain::Key::from_der(black_box(der))),
    );
    table.line(
        "refuse a key cut at 60",
        call!(EcPrivateKey::try_from(black_box(cut))),
        call!(plain::Key::from_der(black_box(cut))),
    );
    table.line(
        "refuse a key by its first tag",
        call!(EcPrivateKey::try_from(black_box(tagged))),
        call!(plain::Key::from_der(black_box(tagged))),
    );
    table.line(
        "read a key without options",
        call!(EcPrivateKey::try_from(black_box(&short[..]))),
        call!(plain::Key::from_der(black_box(&short))),
    );
    table.line("to_der", call!(black_box(&key).to_der()), call!(black_box(&peer).to_der()));
    table.line(
        "a point from bytes",
        call!(Ours::from_bytes(black_box(bytes))),
        call!(Plain::from_bytes(black_box(bytes))),
    );
    table.line(
        "coordinates",
        call!(black_box(&ours).coordinates()),
        call!(black_box(&theirs).coordinates()),
    );
    table.line(
        "compress",
        call!(black_box(&ours).compress()),
        call!(black_box(&theirs).compress()),
    );
    table.line(
        "cmp",
        call!(black_box(&ours).cmp(black_box(&small))),
        call!(black_box(&theirs).as_bytes().cmp(black_box(&less).as_bytes())),
    );
    table.line(
        "an identifier from text",
        call!(ObjectIdentifier::new(black_box(CURVE))),
        call!(plain::Identifier::parse(black_box(CURVE))),
    );
    table.line(
        "a point from text",
        call!(black_box(&text).parse::<Ours>()),
        call!(Plain::parse(black_box(&text))),
    );
}
