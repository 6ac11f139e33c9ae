//! Documents, texts in PEM, and what is decoded, are wiped before their memory is given back.
#![cfg(all(feature = "std", feature = "pem"))]
#![allow(clippy::unwrap_used)]

use sec1::der::SecretDocument;
use sec1::{EcPrivateKey, LineEnding, draw};
use std::alloc::{GlobalAlloc, Layout, System};
use std::sync::atomic::{AtomicUsize, Ordering};

/// A byte that no other memory of the test holds: it is in no text and in no header.
const BYTE: u8 = 0xF5;
const SECRET: [u8; 32] = [BYTE; 32];
/// Three of them in base64.
const DIGITS: &[u8] = b"9fX1";

static FREED: AtomicUsize = AtomicUsize::new(0);

/// The allocator of the system, which counts the blocks that hold a part of the secret when they are
/// freed.
struct Watching;

// SAFETY: each call is that of the system's allocator. A block is read before it is freed, and only
// if it was filled, since those of this size are vectors of the test.
unsafe impl GlobalAlloc for Watching {
    unsafe fn alloc(&self, layout: Layout) -> *mut u8 {
        // SAFETY: as the caller promises. Memory is zeroed so that it may be read.
        unsafe { System.alloc_zeroed(layout) }
    }

    unsafe fn dealloc(&self, block: *mut u8, layout: Layout) {
        // SAFETY: the block has this size, and was zeroed when it was allocated.
        let bytes = unsafe { std::slice::from_raw_parts(block, layout.size()) };
        if bytes.contains(&BYTE) || bytes.windows(4).any(|it| it == DIGITS) {
            FREED.fetch_add(1, Ordering::SeqCst);
        }
        // SAFETY: as the caller promises.
        unsafe { System.dealloc(block, layout) }
    }
}

#[global_allocator]
static ALLOCATOR: Watching = Watching;

fn freed(run: impl FnOnce()) -> usize {
    let before = FREED.load(Ordering::SeqCst);
    run();
    FREED.load(Ordering::SeqCst) - before
}

#[test]
fn secrets_are_wiped() {
    let key = EcPrivateKey { private_key: &SECRET, parameters: None, public_key: None };
    assert_eq!(freed(|| drop(SECRET.to_vec())), 1, "the allocator watches");
    assert_eq!(freed(|| drop(SecretDocument::try_from(&key).unwrap())), 0);
    // One that was longer before it became a document.
    let document = SecretDocument::try_from(&key).unwrap();
    let shorter = || {
        let mut bytes = [&[0x30, 0][..], document.as_bytes()].concat();
        bytes.truncate(2);
        drop(SecretDocument::try_from(bytes).unwrap());
    };
    assert_eq!(freed(shorter), 0);
    // One that is refused.
    let refused = || {
        let bytes = [document.as_bytes(), &[0]].concat();
        assert!(SecretDocument::try_from(bytes).is_err());
    };
    assert_eq!(freed(refused), 0);
    // One that is read from a file, whole, too long or cut.
    let path = std::env::temp_dir().join(format!("sec1-wiped-{}.der", std::process::id()));
    let read = |bytes: &[u8]| {
        std::fs::write(&path, bytes).unwrap();
        freed(|| drop(SecretDocument::read_der_file(&path)))
    };
    let whole = document.as_bytes();
    assert_eq!(read(whole), 0);
    assert_eq!(read(&[whole, &[0; 9]].concat()), 0);
    assert_eq!(read(whole.split_last().unwrap().1), 0);
    // One of which the bytes that are read first have a part of the secret.
    assert_eq!(read(&[&[4, 32], &SECRET[..]].concat()), 0);
    std::fs::remove_file(&path).unwrap();
    // One in PEM, whole, cut, and in a file that grows while it is read.
    let text = document.to_pem("EC PRIVATE KEY", LineEnding::LF).unwrap().to_string();
    assert_eq!(freed(|| drop(text.clone())), 1, "the allocator watches");
    assert_eq!(freed(|| drop(document.to_pem("A", LineEnding::CRLF))), 0);
    assert_eq!(freed(|| drop(key.to_pem(LineEnding::LF))), 0);
    assert_eq!(freed(|| drop(SecretDocument::from_pem(&text))), 0);
    assert_eq!(freed(|| drop(SecretDocument::from_pem(&text[..text.len() - 9]))), 0);
    for words in [0, 5000, 20_000] {
        std::fs::write(&path, format!("{}\n{text}{}", "a".repeat(words), "b".repeat(words)))
            .unwrap();
        assert_eq!(freed(|| drop(SecretDocument::read_pem_file(&path).unwrap())), 0);
    }
    std::fs::write(&path, format!("{text}\0")).unwrap();
    assert_eq!(freed(|| assert!(SecretDocument::read_pem_file(&path).is_err())), 0);
    std::fs::write(&path, [text.as_bytes(), b"\xFF"].concat()).unwrap();
    assert_eq!(freed(|| assert!(SecretDocument::read_pem_file(&path).is_err())), 0);
    std::fs::remove_file(&path).unwrap();
    // Copies have memory of their own.
    assert_eq!(freed(|| drop(document.to_bytes())), 0);
    let copy = document.clone();
    // In hexadecimal, so that it is decoded.
    let digits: String = document.as_bytes().iter().map(|byte| format!("{byte:02X}")).collect();
    assert_eq!(freed(|| drop(document)), 0);
    assert_eq!(copy.decode_msg::<EcPrivateKey<'_>>().unwrap().private_key, SECRET);
    assert_eq!(freed(|| drop(copy)), 0);
    for all in [false, true] {
        assert_eq!(freed(|| assert!(draw(digits.as_bytes(), all).has_key)), 0);
    }
}
