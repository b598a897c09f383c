//! Refusals 1 to 5 of each call, and which comes first where several apply.

use vtoc_tests::call::{Call, NO_DATE, NO_OPTION};
use vtoc_tests::desk::{attributes, attributes_of, Desk};
use vtoc_tests::reference::{initialise, taken};
use vtoc_tests::short::scratch;
use vtoc_tests::volumes::name;

/// N = 4: two sets, the VTOC full, tracks 17–19 free. A has no secondary amount, B has.
fn full() -> Desk {
    let mut desk = Desk::begin(4, 5, 2, 1, 2);
    desk.tracks("A", 4, 0).granted(&[(3, 4)]);
    desk.tracks("B", 10, 2).granted(&[(7, 10)]);
    desk
}

/// The same with a byte of the format 4 changed: no longer taken.
fn unsound() -> Desk {
    let mut desk = full();
    desk.table[60] = 1;
    assert!(!taken(&desk.table));
    desk
}

fn allocate(text: &str, kind: u32, start: u32, amount: u32, secondary: u32) -> Call {
    let (name, attributes) = (name(text).to_vec(), attributes(3));
    let (option, expiry) = (NO_OPTION, NO_DATE.to_vec());
    Call::Allocate { name, attributes, kind, start, amount, secondary, option, expiry }
}

/// Every call on a table but initialise, with a lawful name that is on the volume; the previews last.
fn calls() -> Vec<Call> {
    let n = || name("B").to_vec();
    let mut calls = vec![
        allocate("NEW", 0, 0, 1, 0),
        Call::Extend { name: n() },
        Call::Release { name: n(), ttr: 1 },
        scratch("B"),
        Call::Rename { old: n(), new: name("NEW").to_vec() },
        Call::Obtain { name: n() },
        Call::Lspace,
    ];
    let previews: Vec<Call> = calls.iter().filter_map(Call::preview).collect();
    calls.extend(previews);
    calls
}

/// The call with its name (in a rename the old one) replaced.
fn with_name(call: &Call, bytes: Vec<u8>) -> Call {
    let mut call = call.clone();
    match &mut call {
        Call::Allocate { name, .. }
        | Call::Extend { name }
        | Call::Release { name, .. }
        | Call::Scratch { name, .. }
        | Call::Rename { old: name, .. }
        | Call::Obtain { name } => *name = bytes,
        Call::Preview(call) => **call = with_name(call, bytes),
        _ => {}
    }
    call
}

const BAD_NAMES: [&str; 14] = [
    "",
    " A",
    "1A",
    "-A",
    ".A",
    "A.",
    "A..B",
    "A.1B",
    "ABCDEFGHI",
    "A.BCDEFGHIJ",
    "A B",
    "A?",
    "A.-",
    "AAAAAAAA.AAAAAAAA.AAAAAAAA.AAAAAAAA.AAAAAAA.",
];

#[test]
fn initialise_1_then_2() {
    let bad = [
        (0, 5, 4, 1, 2),
        (4, 0, 4, 1, 2),
        (4, 5, 0, 1, 2),
        (4, 5, 4, 0, 2),
        (4, 5, 4, 1, 0),
        (4, 256, 4, 1, 2),
        (4, 5, 256, 1, 1),
        (65_536, 1, 4, 1, 2),
        (258, 255, 4, 1, 2),
        (4, 5, 4, 19, 2),
        (4, 5, 4, 20, 1),
        (4, 5, 2, 1, 1),
        (65_535, 1, 67, 1, 7),
        (65_535, 1, 1, 1, 469),
        (u32::MAX, u32::MAX, u32::MAX, u32::MAX, u32::MAX),
        (4, 5, 4, u32::MAX, 2),
        (4, 5, 1 << 31, 1, 2),
        (1 << 31, 2, 4, 1, 2),
    ];
    for (c, h, d, s, v) in bad {
        // Any length of the buffers: 1 comes first.
        for (table, answer) in [(0, 24), (1120, 24), (1120, 0)] {
            let result = initialise(&mut vec![7; table], c, h, d, s, v, &mut vec![9; answer]);
            assert_eq!(result, 1, "{c} {h} {d} {s} {v}");
        }
    }
    for (table, answer) in [(1119, 24), (1121, 24), (980, 24), (0, 24), (1120, 23), (1120, 25)] {
        let (mut bytes, mut reply) = (vec![7; table], vec![9; answer]);
        assert_eq!(initialise(&mut bytes, 4, 5, 4, 1, 2, &mut reply), 2);
        assert!(bytes.iter().all(|&b| b == 7) && reply.iter().all(|&b| b == 9));
    }
    // What was in the buffer does not matter.
    let mut bytes = vec![7; 1120];
    assert_eq!(initialise(&mut bytes, 4, 5, 4, 1, 2, &mut [9; 24]), 0);
    assert_eq!(bytes, Desk::begin(4, 5, 4, 1, 2).table);
}

#[test]
fn lengths_come_before_all_else() {
    // The table is unsound and the names are bad as well.
    let mut desk = unsound();
    let whole = desk.table.len();
    for call in calls() {
        for answer in [0, 23, 25] {
            assert_eq!(desk.sized(whole, answer, 280, call.clone()), 2);
        }
        for table in [0, 1, 139, 140, 280, 419, 421, 561, 140 * 469] {
            assert_eq!(desk.sized(table, 24, 280, call.clone()), 2, "{table}");
        }
        if call != Call::Lspace {
            for length in [0, 1, 43, 45, 100] {
                let call = with_name(&call, vec![0; length]);
                assert_eq!(desk.sized(whole, 24, 280, call), 2);
            }
        }
    }
    for labels in [0, 140, 279, 281, 420] {
        let call = Call::Obtain { name: vec![0; 44] };
        assert_eq!(desk.sized(whole, 24, labels, call), 2);
    }
    for length in [0, 43, 45] {
        let call = Call::Rename { old: vec![0; 44], new: vec![0; length] };
        assert_eq!(desk.sized(whole, 24, 280, call), 2);
    }
    for length in [0, 51, 53] {
        let mut call = allocate("", 9, 0, 0, 0);
        if let Call::Allocate { attributes, .. } = &mut call {
            *attributes = attributes_of(length, 1);
        }
        assert_eq!(desk.sized(whole, 24, 280, call), 2);
    }
}

#[test]
fn a_table_of_lawful_length_that_is_not_n_is_unsound() {
    let mut desk = full();
    for call in calls() {
        assert_eq!(desk.sized(3 * 140, 24, 280, call.clone()), 3);
        assert_eq!(desk.sized(468 * 140, 24, 280, call), 3);
    }
}

#[test]
fn unsound_comes_before_names_and_the_rest() {
    for call in calls() {
        unsound().call(with_name(&call, vec![0; 44])).refused(3);
    }
    unsound().allocate("", 9, 0, 0, 0).refused(3);
    unsound().release("NONE", 99, 0).refused(3);
}

#[test]
fn bad_names() {
    for text in BAD_NAMES {
        for call in calls() {
            if call != Call::Lspace {
                full().call(with_name(&call, name(text).to_vec())).refused(4);
            }
        }
        // Before 7, before 5, before 6.
        full().allocate(text, 9, 0, 0, 0).refused(4);
        full().rename("NONE", text).refused(4);
        full().rename("A", text).refused(4);
        full().rename(text, "A").refused(4);
    }
    for byte in [0x00, 0x40, 0xC0, 0xCA, 0xD0, 0xDA, 0xE0, 0xE1, 0xEA, 0xF0, 0xFA, 0xFF, 0x60, 0x4B]
    {
        let mut bytes = name("XY");
        bytes[0] = byte;
        full().call(Call::Extend { name: bytes.to_vec() }).refused(4);
    }
    // A character after the blanks.
    let mut bytes = name("A");
    bytes[43] = 0xC1;
    full().call(Call::Obtain { name: bytes.to_vec() }).refused(4);
    for text in ["A", "@", "#1", "$-", "A.B.C", "ABCDEFGH.ABCDEFGH", "Z9-@#$"] {
        assert_ne!(full().extend(text).result, 4, "{text} is a lawful name");
    }
    full().extend("AAAAAAAA.AAAAAAAA.AAAAAAAA.AAAAAAAA.AAAAAAAA").refused(5);
}

#[test]
fn not_found() {
    let mut desk = full();
    desk.extend("C").refused(5);
    desk.release("C", 0xFFFF, 0).refused(5);
    desk.call(Call::Release { name: name("C").to_vec(), ttr: u32::MAX }).refused(5);
    desk.scratch("C").refused(5);
    desk.obtain("C").refused(5);
    desk.rename("C", "D").refused(5);
    // Before 6.
    desk.rename("C", "A").refused(5);
    desk.rename("C", "C").refused(5);
}
