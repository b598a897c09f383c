//! The name rule, and the table of printable characters.

use vtoc_tests::audit::is_name;
use vtoc_tests::generate::names::{lawful, unlawful};
use vtoc_tests::generate::rng::Rng;
use vtoc_tests::reference::name::{obeys, PRINTABLE};
use vtoc_tests::volumes::{ebcdic, name};

#[test]
fn printable_characters_differ() {
    let characters = b"ABCDEFGHIJKLMNOPQRSTUVWXYZ0123456789$#@-.";
    assert_eq!(characters.len(), 41);
    for &c in characters {
        assert_eq!(PRINTABLE[usize::from(ebcdic(c))], c);
    }
    assert_eq!(PRINTABLE.iter().filter(|&&c| c == b'?').count(), 256 - 41);
    assert_eq!(PRINTABLE[0x40], b'?');
}

#[test]
fn each_byte_in_each_place() {
    for text in ["A", "ABCDEFGH", "A.B.C", "ABCD.EFGHIJKL.M", "A-9.@$#"] {
        let whole = name(text);
        assert!(obeys(&whole), "{text}");
        for at in 0..44 {
            for byte in 0..=255 {
                let mut changed = whole;
                changed[at] = byte;
                assert_eq!(obeys(&changed), is_name(&changed), "{text} {at} {byte:02X}");
            }
        }
    }
}

#[test]
fn names_of_all_lengths() {
    // Parts of one to nine characters, as many as fit: both rules count alike.
    for part in 1..=9 {
        for length in 0..=44 {
            let mut bytes = [0x40; 44];
            for (at, byte) in bytes[..length].iter_mut().enumerate() {
                *byte = if at % (part + 1) == part { 0x4B } else { 0xC1 };
            }
            let lawful = part <= 8 && length > 0 && length % (part + 1) != 0
                || part == 9 && (1..=8).contains(&length);
            assert_eq!(obeys(&bytes), lawful, "{part} {length}");
            assert_eq!(is_name(&bytes), lawful, "{part} {length}");
        }
    }
}

#[test]
fn random_names() {
    let mut rng = Rng::new(5);
    for _ in 0..20_000 {
        let good: [u8; 44] = lawful(&mut rng, 100_000).try_into().expect("44 bytes");
        assert!(obeys(&good) && is_name(&good));
        let other: [u8; 44] = unlawful(&mut rng).try_into().expect("44 bytes");
        assert_eq!(obeys(&other), is_name(&other), "{other:02X?}");
    }
}
