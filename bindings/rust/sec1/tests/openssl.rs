//! Keys that OpenSSL has written, damaged copies of them, and keys made by hand: what is printed of
//! each is what the second reader of the repository says, and each key is written again as it was.
#![cfg(feature = "std")]
#![allow(clippy::unwrap_used)]

mod support;

use sec1::der::{Encode, ErrorKind};
use sec1::{EcParameters, EcPrivateKey, Error};

const ASKED: &str = include_str!("data/replay.txt");
const ANSWERS: &str = include_str!("data/replay_answers.txt");

fn text(bytes: &[u8]) -> String {
    if bytes.is_empty() {
        return "-".into();
    }
    bytes.iter().map(|byte| format!("{byte:02X}")).collect()
}

#[test]
fn agrees_on_keys_of_openssl() {
    let asked = ASKED.lines().filter(|line| !line.starts_with('#'));
    let (mut read, mut refused) = (0, 0);
    for (line, answer) in asked.zip(ANSWERS.lines()) {
        let Some(digits) = line.strip_prefix("ec-private-key ") else {
            continue;
        };
        let bytes = support::bytes(digits);
        match EcPrivateKey::try_from(&bytes[..]) {
            Ok(key) => {
                read += 1;
                let parts: Vec<&str> = answer.split(' ').collect();
                assert_eq!(parts[0], text(key.private_key), "{digits}");
                let curve = key.parameters.and_then(EcParameters::named_curve);
                let curve = curve.map_or("none".to_string(), |curve| curve.to_string());
                assert_eq!(parts[1], curve, "{digits}");
                assert_eq!(parts[2], key.public_key.map_or("none".into(), text), "{digits}");
                assert_eq!(key.to_der().unwrap(), bytes);
            }
            Err(Error::Asn1(error)) => {
                refused += 1;
                assert_eq!(answer, format!("refused: {:?}", error.kind()), "{digits}");
                assert!(error.position().is_some(), "{digits}");
                assert_ne!(error.kind(), ErrorKind::Failed);
            }
            Err(error) => panic!("{error}: {digits}"),
        }
    }
    assert_eq!(read + refused, 2791);
    assert!(read >= 656, "{read}");
}
