//! Keys in PEM: texts of OpenSSL, and damaged ones, which all packages refuse alike.
#![cfg(all(feature = "pem", feature = "std"))]

use sec1::der::{self, Encode, ErrorKind, Length, SecretDocument};
use sec1::pem::{LineEnding, PemLabel, room_len};
use sec1::{DecodeEcPrivateKey, EcPrivateKey, EcPublicKey, EncodeEcPrivateKey, Error};
use std::{env, fs, process};

/// Returns what a text is of, what is read of it, and the text.
fn cases() -> Vec<(&'static str, &'static str, String)> {
    let lines = include_str!("data/pem.txt").lines().filter(|line| !line.starts_with('#'));
    let parts = lines.map(|line| line.split('|').collect::<Vec<_>>());
    parts.map(|it| (it[0], it[1], unescaped(it[2]))).collect()
}

fn unescaped(text: &str) -> String {
    let marks = [("\\n", "\n"), ("\\r", "\r"), ("\\t", "\t"), ("\\a", "\x07")];
    marks.iter().fold(text.to_owned(), |text, (mark, byte)| text.replace(mark, byte))
}

fn hex(bytes: &[u8]) -> String {
    bytes.iter().map(|byte| format!("{byte:02x}")).collect()
}

/// Reads a text, and returns what is written of it in DER, or the kind of the refusal and its place.
fn told(call: &str, text: &str, room: &mut [u8]) -> String {
    let read = match call {
        "key" => {
            EcPrivateKey::from_pem(text, room).and_then(|key| key.to_der()).map_err(Error::from)
        }
        _ => EcPublicKey::from_pem(text, room).and_then(|key| key.to_der()),
    };
    match read {
        Ok(bytes) => hex(&bytes),
        Err(Error::Asn1(error)) => match error.position() {
            Some(position) => format!("{:?} {position}", error.kind()),
            None => format!("{:?}", error.kind()),
        },
        Err(error) => format!("{error:?}"),
    }
}

#[test]
fn reads_each_text_as_the_file_says() {
    let cases = cases();
    let refused = cases.iter().filter(|(_, wanted, _)| wanted.contains(' ') || *wanted == "Pem");
    assert_eq!((cases.len(), refused.count()), (42, 29));
    for (call, wanted, text) in &cases {
        let mut room = vec![0; room_len(text)];
        assert_eq!(&told(call, text, &mut room), wanted, "{text:?}");
        room.pop();
        assert_eq!(told(call, text, &mut room), "Buffer", "{text:?}");
    }
}

#[test]
fn writes_what_openssl_wrote() -> Result<(), Error> {
    let cases = cases();
    let mut room = [0; 2000];
    for (_, _, text) in &cases[..2] {
        let key = EcPrivateKey::from_pem(text, &mut room)?;
        assert_eq!(*key.to_pem(LineEnding::LF)?, cases[0].2);
        assert_eq!(*key.to_pkcs8_pem(LineEnding::LF)?, cases[1].2);
        assert_eq!(*key.to_pem(LineEnding::CRLF)?, cases[0].2.replace('\n', "\r\n"));
        assert_eq!(*key.to_pem(LineEnding::CR)?, cases[0].2.replace('\n', "\r"));
    }
    let public_key = EcPublicKey::from_pem(&cases[2].2, &mut room)?;
    assert_eq!(public_key.to_pem(LineEnding::default())?, cases[2].2);
    Ok(())
}

#[test]
fn lines_have_64_digits() -> Result<(), der::Error> {
    for len in 0..200 {
        let private_key = vec![0xFB; len];
        let key = EcPrivateKey { private_key: &private_key, parameters: None, public_key: None };
        let text = key.to_pem(LineEnding::LF)?;
        let lines: Vec<_> = text.lines().collect();
        let body = &lines[1..lines.len() - 1];
        assert!(body[..body.len() - 1].iter().all(|line| line.len() == 64));
        assert!(body[body.len() - 1].len() <= 64);
        // The last digits are those of the zeros that fill the last three bytes.
        let mut room = vec![0; room_len(&text)];
        assert_eq!(EcPrivateKey::from_pem(&text, &mut room)?.private_key, private_key);
    }
    Ok(())
}

/// A key type that keeps its document.
struct Document(SecretDocument);

impl DecodeEcPrivateKey for Document {
    fn from_sec1_der(bytes: &[u8]) -> sec1::Result<Self> {
        Ok(Document(EcPrivateKey::try_from(bytes)?.try_into()?))
    }
}

impl EncodeEcPrivateKey for Document {
    fn to_sec1_der(&self) -> sec1::Result<SecretDocument> {
        Ok(self.0.clone())
    }
}

#[test]
fn key_types_are_read_from_texts_and_files() -> Result<(), Error> {
    let (_, der, text) = &cases()[0];
    let path = env::temp_dir().join(format!("sec1-key-{}.pem", process::id()));
    let key = Document::from_sec1_pem(text)?;
    assert_eq!(hex(key.0.as_bytes()), *der);
    assert_eq!(*key.to_sec1_pem(LineEnding::LF)?, *text);
    key.write_sec1_pem_file(&path, LineEnding::LF)?;
    assert_eq!(fs::read_to_string(&path).map_err(der::Error::from)?, *text);
    assert_eq!(hex(Document::read_sec1_pem_file(&path)?.0.as_bytes()), *der);
    fs::write(&path, format!("{}\n{text}", "words ".repeat(9000))).map_err(der::Error::from)?;
    let (label, document) = SecretDocument::read_pem_file(&path)?;
    assert_eq!((label.as_str(), hex(document.as_bytes())), ("EC PRIVATE KEY", (*der).to_owned()));
    fs::remove_file(&path).map_err(der::Error::from)?;
    Ok(())
}

/// A key type finds its block behind others, and refuses one of another label.
#[test]
fn a_key_is_in_the_block_with_its_label() -> Result<(), Error> {
    let cases = cases();
    let text = format!("{}{}", cases[2].2, cases[0].2);
    assert_eq!(hex(Document::from_sec1_pem(&text)?.0.as_bytes()), cases[0].1);
    assert!(Document::from_sec1_pem(&cases[1].2).is_err());
    assert!(EcPrivateKey::validate_pem_label("EC PRIVATE KEY").is_ok());
    for label in ["PRIVATE KEY", "AN EC PRIVATE KEY", "EC PRIVATE KEYS", ""] {
        assert!(EcPrivateKey::validate_pem_label(label).is_err());
    }
    Ok(())
}

/// A file is read as far as it may be a text, and is one in UTF-8.
#[test]
fn files_that_are_no_text_are_refused() -> Result<(), der::Error> {
    let path = env::temp_dir().join(format!("sec1-none-{}.pem", process::id()));
    for bytes in [&b""[..], b"\0", b"\xFF", b"-----BEGIN A-----\n", b"no PEM"] {
        fs::write(&path, bytes)?;
        let kind = SecretDocument::read_pem_file(&path).map(|_| ()).unwrap_err().kind();
        assert_eq!(kind, ErrorKind::Pem, "{bytes:?}");
    }
    fs::remove_file(&path)?;
    #[cfg(target_os = "linux")]
    assert_eq!(
        SecretDocument::read_pem_file("/dev/zero").map(|_| ()).unwrap_err().kind(),
        ErrorKind::Pem
    );
    Ok(())
}

/// The first block counts for a document, whose label is returned.
#[test]
fn a_document_is_of_the_first_block() -> Result<(), der::Error> {
    let public_key = &cases()[2].2;
    let text = format!("words\n{public_key}{}", cases()[0].2);
    let (label, document) = SecretDocument::from_pem(&text)?;
    assert_eq!((label, document.len()), ("PUBLIC KEY", Length::try_from(91_usize)?));
    assert_eq!(*document.to_pem(label, LineEnding::LF)?, *public_key);
    let text = cases()[0].2.replace('\n', "\r");
    assert_eq!(SecretDocument::from_pem(&text)?.0, EcPrivateKey::PEM_LABEL);
    for text in ["", "-----BEGIN -----\n", "-----BEGIN a-----\n-----END a-----\n"] {
        let kind = SecretDocument::from_pem(text).map(|_| ()).unwrap_err().kind();
        assert_eq!(kind, ErrorKind::Pem, "{text:?}");
    }
    Ok(())
}
