//! Volumes of known make-up for benchmarks and tests, built by calls of the reference.

use crate::call::{NO_DATE, NO_OPTION, TODAY};
use crate::generate::rng::Rng;
use crate::naming;
use crate::reference::{self, allocate, extend, initialise, release};

pub const ANSWER: usize = 24;
pub const ATTRIBUTES: [u8; 52] = [0x11; 52];

/// An ASCII text of name characters as a 44-byte name.
pub fn name(text: &str) -> [u8; 44] {
    let mut bytes = [0x40; 44];
    for (byte, c) in bytes.iter_mut().zip(text.bytes()) {
        *byte = ebcdic(c);
    }
    bytes
}

/// The EBCDIC of an ASCII name character; a byte that no name holds for any other.
pub fn ebcdic(c: u8) -> u8 {
    match c {
        b'A'..=b'I' => 0xC1 + (c - b'A'),
        b'J'..=b'R' => 0xD1 + (c - b'J'),
        b'S'..=b'Z' => 0xE2 + (c - b'S'),
        b'0'..=b'9' => 0xF0 + (c - b'0'),
        b'.' => 0x4B,
        b'-' => 0x60,
        b'$' => 0x5B,
        b'#' => 0x7B,
        b'@' => 0x7C,
        b' ' => 0x40,
        _ => 0x6F,
    }
}

/// A table fresh from initialise.
pub fn fresh(c: u32, h: u32, d: u32, s: u32, v: u32) -> Vec<u8> {
    let mut table = vec![0; (v * d) as usize * 140];
    assert_eq!(initialise(&mut table, c, h, d, s, v, &mut [0; ANSWER]), 0, "bad geometry");
    table
}

/// Allocates and insists that it is accepted.
pub fn place(table: &mut [u8], text: &str, kind: u32, start: u32, amount: u32, secondary: u32) {
    place_name(table, &name(text), kind, start, amount, secondary);
}

/// The same for the 44 bytes of a name.
pub fn place_name(
    table: &mut [u8], name: &[u8; 44], kind: u32, start: u32, amount: u32, secondary: u32,
) {
    let answer = &mut [0; ANSWER];
    let (attributes, option, expiry) = (&ATTRIBUTES, NO_OPTION, &NO_DATE);
    let result =
        allocate(table, name, attributes, kind, start, amount, secondary, option, expiry, answer);
    assert_eq!(result, 0, "allocate {name:02X?}");
}

/// Scratches a set that has no expiry date; 0 or the refusal.
pub fn scratch(table: &mut [u8], name: &[u8]) -> u32 {
    reference::scratch(table, name, &TODAY, 0, &mut [0; ANSWER])
}

/// The name of a numbered set, as long as production names are.
pub fn set_name(number: usize) -> String {
    format!("PROD.BILLING.MASTER.V{number:04}")
}

/// `sets` sets of one track each with a hole after each.
pub fn scattered(c: u32, h: u32, d: u32, s: u32, v: u32, sets: usize) -> Vec<u8> {
    let mut table = fresh(c, h, d, s, v);
    for number in 0..sets {
        place(&mut table, &set_name(number), 2, s + v + 1 + 2 * number as u32, 1, 0);
    }
    table
}

/// Free extents of 2H - 2 tracks, each from the second track of a cylinder to the last but one of the
/// next: one cylinder each by its length, and not one whole. Between them sets of two tracks; the
/// last takes the rest.
pub fn cut_cylinders(c: u32, h: u32, d: u32, s: u32, v: u32, holes: u32) -> Vec<u8> {
    let mut table = fresh(c, h, d, s, v);
    let (mut at, mut next) = (s + v, h + 1);
    for number in 0..=holes {
        let end = if number < holes { next } else { c * h };
        place(&mut table, &format!("CUT.N{number}"), 2, at, end - at, 0);
        at = next + 2 * h - 2;
        next += 2 * h;
    }
    table
}

/// 8 records and 20 tracks: document 01's Volume A after its eighth step.
pub fn small() -> Vec<u8> {
    let mut table = fresh(4, 5, 4, 1, 2);
    place(&mut table, "FLT.A", 0, 0, 4, 0);
    place(&mut table, "FLT.B", 1, 0, 1, 0);
    place(&mut table, "FLT.C", 0, 0, 7, 0);
    assert_eq!(scratch(&mut table, &name("FLT.B")), 0);
    assert_eq!(release(&mut table, &name("FLT.C"), 0x000401, &mut [0; ANSWER]), 0);
    table
}

/// 28,000 bytes, 100 sets.
pub fn medium() -> Vec<u8> {
    scattered(1000, 15, 50, 1, 4, 100)
}

/// 65,520 bytes, 446 names.
pub fn many_names() -> Vec<u8> {
    scattered(4369, 15, 52, 1, 9, 446)
}

/// 65,520 bytes, 176 sets of 16 extents each (2,816) and 2,812 holes between them.
pub fn many_extents() -> Vec<u8> {
    let mut table = fresh(4369, 15, 52, 1, 9);
    let (mut sets, mut tracks) = (0, 0);
    while sets < 176 {
        // Stayers and leavers side by side, as many as the free slots let in. Each round
        // asks for one track more, so the holes of earlier rounds are too short for it.
        tracks += 1;
        let round = (176 - sets).min(open_slots(&table) / 4);
        let stayer = |i: usize| set_name(sets + i);
        let leaver = |i: usize| format!("LEAVER.V{i:04}");
        for i in 0..round {
            place(&mut table, &stayer(i), 0, 0, tracks, tracks);
            place(&mut table, &leaver(i), 0, 0, tracks, tracks);
        }
        for text in (1..16).flat_map(|_| (0..round).flat_map(|i| [stayer(i), leaver(i)])) {
            assert_eq!(extend(&mut table, &name(&text), &mut [0; ANSWER]), 0, "extend {text}");
        }
        for i in 0..round {
            assert_eq!(scratch(&mut table, &name(&leaver(i))), 0);
        }
        sets += round;
    }
    table
}

/// A 3330 pack with 468 records and 461 sets with names as in examples/host.c.
pub fn survey_two_counters() -> Vec<u8> {
    survey(naming::two_counters)
}

/// The same with three counters in each name.
pub fn survey_three_counters() -> Vec<u8> {
    survey(naming::three_counters)
}

/// 461 sets of one to four tracks, one after another but for a few holes.
fn survey(name: fn(usize) -> [u8; 44]) -> Vec<u8> {
    let mut table = fresh(404, 19, 39, 1, 12);
    let rng = &mut Rng::new(1);
    let mut at = 13;
    for number in 0..461 {
        let tracks = rng.range(1, 4);
        place_name(&mut table, &name(number), 2, at, tracks, 0);
        at += tracks + u32::from(rng.chance(5));
    }
    table
}

/// The number of format 0s by the format 4.
pub fn open_slots(table: &[u8]) -> usize {
    usize::from(table[50]) << 8 | usize::from(table[51])
}
