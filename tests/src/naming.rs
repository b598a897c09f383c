//! Names of several kinds, each kind as many as a table holds: with counters, random, and crafted
//! against the library's own hash.

use crate::generate::rng::Rng;
use crate::volumes::{ebcdic, name};

type Name = [u8; 44];

/// PAYROLL.D0001 and on.
pub fn one_counter(number: usize) -> Name {
    name(&format!("PAYROLL.D{:04}", number + 1))
}

/// Flights of 21 strips, named as in examples/host.c; the counters end eight bytes apart.
pub fn two_counters(number: usize) -> Name {
    let (flight, strip) = flight_and_strip(number);
    name(&format!("SURVEY.{flight}.{strip}"))
}

/// The same counters sixteen bytes apart.
pub fn two_counters_far(number: usize) -> Name {
    let (flight, strip) = flight_and_strip(number);
    name(&format!("SURVEY.{flight}.SECTION.{strip}"))
}

fn flight_and_strip(number: usize) -> (String, String) {
    let (flight, strip) = (number / 21, number % 21);
    (format!("FLT{:02}{:02}", 3 + flight / 11, 1 + flight % 11), format!("STRIP{:02}", strip + 1))
}

/// Blocks of seven lines of eleven strips.
pub fn three_counters(number: usize) -> Name {
    let (block, line, strip) = (number / 77, number / 11 % 7, number % 11);
    name(&format!("SURVEY.BLK{:02}.LINE{:02}.STRIP{:02}", block + 1, line + 1, strip + 1))
}

const LEADING: &[u8] = b"ABCDEFGHIJKLMNOPQRSTUVWXYZ$#@";
const LATER: &[u8] = b"ABCDEFGHIJKLMNOPQRSTUVWXYZ$#@0123456789-";

/// A lawful name of 1 to 44 characters, each length as likely.
pub fn random(rng: &mut Rng) -> Name {
    let length = 1 + rng.below(44);
    random_of_length(rng, length)
}

/// A lawful name of so many characters, in parts of 1 to 8.
pub fn random_of_length(rng: &mut Rng, length: usize) -> Name {
    let mut text = vec![];
    let mut rest = length;
    while rest > 0 {
        let mut part = (1 + rng.below(8)).min(rest);
        if rest - part == 1 {
            // A period cannot end the name.
            part = if part == 1 { 2 } else { part - 1 };
        }
        text.push(*rng.pick(LEADING).expect("letters"));
        text.extend((1..part).map(|_| *rng.pick(LATER).expect("characters")));
        rest -= part;
        if rest > 0 {
            text.push(b'.');
            rest -= 1;
        }
    }
    name(std::str::from_utf8(&text).expect("ASCII"))
}

/// `count` such names, no two alike.
pub fn distinct_random(rng: &mut Rng, count: usize) -> Vec<Name> {
    let mut names: Vec<Name> = Vec::with_capacity(count);
    while names.len() < count {
        let name = random(rng);
        if !names.contains(&name) {
            names.push(name);
        }
    }
    names
}

/// The first `count` names CRAFTED.A0000000 and on that have the tag 0.
pub fn crafted(count: usize) -> Vec<Name> {
    let mut name = name("CRAFTED.A0000000");
    let mut found = Vec::with_capacity(count);
    while found.len() < count {
        if tag(&name) == 0 {
            found.push(name);
        }
        advance(&mut name[8..16]);
    }
    found
}

/// The next of a letter and digits after it.
fn advance(part: &mut [u8]) {
    for digit in part[1..].iter_mut().rev() {
        if *digit != ebcdic(b'9') {
            *digit += 1;
            return;
        }
        *digit = ebcdic(b'0');
    }
    part[0] += 1;
}

/// The tag by which the library tells names apart before it compares them.
fn tag(name: &Name) -> u64 {
    const KEYS: [u64; 6] = [
        0x243F_6A88_85A3_08D3,
        0x1319_8A2E_0370_7344,
        0xA409_3822_299F_31D0,
        0x082E_FA98_EC4E_6C89,
        0x4528_21E6_38D0_1377,
        0xBE54_66CF_34E9_0C6C,
    ];
    let mut folded = 0;
    for (at, key) in [0, 8, 16, 24, 32, 36].into_iter().zip(KEYS) {
        let word = u64::from_le_bytes(name[at..at + 8].try_into().expect("eight bytes")) ^ key;
        folded ^= (word & 0xFFFF_FFFF) * (word >> 32);
    }
    let short = (folded ^ folded >> 32) & 0xFFFF_FFFF;
    ((short * 2_654_435_769) >> 16) & 0xFFFF
}
