//! Files that are not the commit's are refused by name.

#[path = "../sha256.rs"]
mod sha256;
#[path = "../sources.rs"]
mod sources;

use sha256::checksum;
use sources::{MODULES, TESTING, refused};

#[test]
fn checksums_are_those_of_the_standard() {
    for (bytes, expected) in [
        ("", "e3b0c44298fc1c149afbf4c8996fb92427ae41e4649b934ca495991b7852b855"),
        ("abc", "ba7816bf8f01cfea414140de5dae2223b00361a396177a9cb410ff61f20015ad"),
        (
            "abcdbcdecdefdefgefghfghighijhijkijkljklmklmnlmnomnopnopq",
            "248d6a61d20638b8e5c026930c3e6039a33ce45964ff2167f6ecedd419db06c1",
        ),
    ] {
        assert_eq!(checksum(bytes.as_bytes()), expected);
    }
    let million = vec![b'a'; 1_000_000];
    let expected = "cdc76e5c9914fb9281a1c7e284d73e67f1809a48a497200e046d39ccc7112cd0";
    assert_eq!(checksum(&million), expected);
}

#[test]
fn another_text_is_refused_by_name() {
    for source in MODULES.into_iter().chain([TESTING]) {
        let refusal = refused(source, b"fn main() {}\n").expect("a refusal");
        assert!(refusal.starts_with(source.0) && refusal.contains("614c9f3608"), "{refusal}");
    }
}

#[test]
fn the_text_with_the_checksum_is_taken() {
    assert_eq!(refused(("a.rs", Box::leak(checksum(b"a").into_boxed_str())), b"a"), None);
}
