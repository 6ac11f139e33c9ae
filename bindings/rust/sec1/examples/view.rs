//! Draws files of DER, PEM, hexadecimal or base64: view [--all] FILE.. With --all private keys are
//! shown too. The status is 0 if each file has an EC private key, 1 if one has none, and 2 if one
//! can't be read.

use std::env;
use std::fs;
use std::io::{self, Write};
use std::process::ExitCode;

/// Draws a file, and returns whether it has a key.
fn view(path: &str, all: bool) -> io::Result<bool> {
    let picture = sec1::draw(&fs::read(path)?, all);
    io::stdout().write_all(picture.text.as_bytes())?;
    Ok(picture.has_key)
}

fn main() -> ExitCode {
    let (options, paths): (Vec<_>, Vec<_>) = env::args().skip(1).partition(|word| word == "--all");
    if paths.is_empty() {
        eprintln!("usage: view [--all] FILE..");
        return ExitCode::from(2);
    }
    let mut status = 0;
    for path in &paths {
        if paths.len() > 1 {
            println!("{path}:");
        }
        match view(path, !options.is_empty()) {
            Ok(has_key) => status = status.max(u8::from(!has_key)),
            Err(error) => {
                eprintln!("view: {path}: {error}");
                status = 2;
            }
        }
    }
    ExitCode::from(status)
}
