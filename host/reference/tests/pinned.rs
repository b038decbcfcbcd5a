//! The text that is compiled starts with the original's, unchanged: the three digests are pinned here.

use sha2::{Digest, Sha256};

const PINNED: [(&str, &str); 3] = [
    (
        "distort_image.rs",
        "0a031473fe6b1ae2dc4469917dceda5e0d1044bb6b4e5510a2f9a9eb2b3ce032",
    ),
    (
        "deep.rs",
        "90020e64f5bb011e798a95f73c942db4ba7acb0cad6bd9d4dbe9e87c199d3eb1",
    ),
    (
        "resize.rs",
        "0a6dbbf1796f3a46c161c43e4b84b88b83c17572032253ecec1862884ff26d9d",
    ),
];

#[test]
fn the_original_is_the_pinned_one() {
    reference::reference_or_skip!();
    assert_eq!(reference::ORIGINALS.len(), PINNED.len());
    for ((name, digest), original) in PINNED.iter().zip(reference::ORIGINALS) {
        let (found, written, length, compiled) = original;
        assert_eq!(name, found);
        assert_eq!(digest, written, "{name} is not the pinned original");
        let start = &compiled.as_bytes()[..*length];
        assert_eq!(*digest, hex(start), "{name} was changed");
    }
}

/// The SHA-256 digest in hexadecimal.
fn hex(bytes: &[u8]) -> String {
    format!("{:x}", Sha256::digest(bytes))
}

#[test]
fn published_examples() {
    let empty = "e3b0c44298fc1c149afbf4c8996fb92427ae41e4649b934ca495991b7852b855";
    let abc = "ba7816bf8f01cfea414140de5dae2223b00361a396177a9cb410ff61f20015ad";
    let two = "248d6a61d20638b8e5c026930c3e6039a33ce45964ff2167f6ecedd419db06c1";
    assert_eq!(hex(b""), empty);
    assert_eq!(hex(b"abc"), abc);
    assert_eq!(
        hex(b"abcdbcdecdefdefgefghfghighijhijkijkljklmklmnlmnomnopnopq"),
        two
    );
}
