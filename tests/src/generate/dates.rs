//! Dates for calls: good ones at their edges, those around what a set has, and hostile ones: document
//! 02, [5].

use super::glance::stored_date;
use super::rng::Rng;
use crate::audit::dates::{of_packed, of_stored, packed, stored};
use crate::call::{Call, NO_DATE};

/// Years and days at which something changes.
pub const YEARS: [u32; 10] = [1900, 1901, 1904, 1980, 1999, 2000, 2001, 2026, 2096, 2099];
pub const DAYS: [u32; 10] = [1, 2, 99, 100, 255, 256, 257, 364, 365, 366];

/// Overrides; each but the first is one.
pub const OVERRIDES: [u32; 6] = [0, 1, 2, 256, 1 << 31, u32::MAX];

/// Year and day of a date.
fn good(rng: &mut Rng) -> (u32, u32) {
    loop {
        let year =
            if rng.chance(70) { YEARS[rng.below(YEARS.len())] } else { rng.range(1900, 2099) };
        let day = if rng.chance(70) { DAYS[rng.below(DAYS.len())] } else { rng.range(1, 366) };
        if of_packed(&packed(year, day)).is_some() {
            return (year, day);
        }
    }
}

fn good_packed(rng: &mut Rng) -> Vec<u8> {
    let (year, day) = good(rng);
    packed(year, day).to_vec()
}

/// Year and day of no date, in most draws: day 366 of 1900, or a day that no year has, or most have not.
fn bad(rng: &mut Rng) -> (u32, u32) {
    if rng.chance(25) {
        return (1900, 366);
    }
    let (year, _) = good(rng);
    (year, [0, 366, 366, 367, 511, 512, 999, rng.range(367, 999)][rng.below(8)])
}

/// The date with half byte `at`, from 0, replaced.
pub fn with_half_byte(mut date: Vec<u8>, at: usize, half: u8) -> Vec<u8> {
    let byte = &mut date[at / 2];
    *byte = if at.is_multiple_of(2) { half << 4 | *byte & 0x0F } else { *byte & 0xF0 | half };
    date
}

/// The values that half byte `at` of a packed date may not have.
pub fn wrong_half_bytes(at: usize) -> std::ops::Range<u8> {
    match at {
        0 => 1..16,
        1 => 2..16,
        7 => 0..15,
        _ => 10..16,
    }
}

/// Four bytes that are most likely no packed date, or others than four.
fn bad_packed(rng: &mut Rng) -> Vec<u8> {
    match rng.below(8) {
        // The sign of other systems.
        0 => with_half_byte(good_packed(rng), 7, 0x0C),
        1 | 2 => {
            let at = rng.below(8);
            let wrong: Vec<u8> = wrong_half_bytes(at).collect();
            with_half_byte(good_packed(rng), at, *rng.pick(&wrong).expect("some"))
        }
        3 | 4 => {
            let (year, day) = bad(rng);
            packed(year, day).to_vec()
        }
        5 => [[0; 4], [0xFF; 4], [0, 0, 0, 0x0F], [0, 0, 0, 1]][rng.below(4)].to_vec(),
        6 => (0..4).map(|_| rng.byte()).collect(),
        _ => {
            let date = good_packed(rng);
            resized(rng, date)
        }
    }
}

/// Three bytes that are most likely no stored date, or others than three.
fn bad_stored(rng: &mut Rng) -> Vec<u8> {
    match rng.below(6) {
        0 => {
            let (_, day) = good(rng);
            stored(rng.range(2100, 2155), day).to_vec()
        }
        1 | 2 => {
            let (year, day) = bad(rng);
            stored(year, day).to_vec()
        }
        3 => any_stored(rng).to_vec(),
        4 => {
            let (year, day) = good(rng);
            let [year, high, low] = stored(year, day);
            vec![year, low, high]
        }
        _ => {
            let (year, day) = good(rng);
            resized(rng, stored(year, day).to_vec())
        }
    }
}

fn resized(rng: &mut Rng, mut date: Vec<u8>) -> Vec<u8> {
    date.resize(rng.below(8), 0x0F);
    date
}

/// What a volume of earlier days may hold in the place of an expiry date.
pub fn any_stored(rng: &mut Rng) -> [u8; 3] {
    match rng.below(5) {
        0 => [0xFF; 3],
        1 => [0; 3],
        2 => [[0, 0, 1], [199, 1, 111], [200, 0, 1], [80, 0xFF, 0xFF]][rng.below(4)],
        _ => [rng.byte(), rng.byte(), rng.byte()],
    }
}

/// The day before a date, the date, or the day after it.
fn beside(rng: &mut Rng, (year, day): (u32, u32)) -> (u32, u32) {
    let is_date = |year, day| of_packed(&packed(year, day)).is_some();
    match rng.below(3) {
        0 if day > 1 => (year, day - 1),
        0 if year > 1900 => (year - 1, if is_date(year - 1, 366) { 366 } else { 365 }),
        1 if is_date(year, day + 1) => (year, day + 1),
        1 if year < 2099 => (year + 1, 1),
        _ => (year, day),
    }
}

/// A day for the scratch of a set with these bytes: around its expiry date, or any.
fn today(rng: &mut Rng, expiry: Option<[u8; 3]>) -> Vec<u8> {
    match expiry.and_then(|bytes| of_stored(&bytes)) {
        _ if rng.chance(3) => NO_DATE.to_vec(),
        _ if rng.chance(8) => bad_packed(rng),
        Some(date) if rng.chance(80) => {
            let (year, day) = beside(rng, date);
            packed(year, day).to_vec()
        }
        _ => good_packed(rng),
    }
}

/// Gives an allocate its expiry date, a scratch its day and its override; some calls become the
/// conversion of a date.
pub fn dress(rng: &mut Rng, call: &mut Call, table: &[u8]) {
    if rng.chance(4) {
        *call = conversion(rng);
        return;
    }
    match call {
        Call::Allocate { expiry, .. } => {
            *expiry = match rng.below(20) {
                0..=8 => NO_DATE.to_vec(),
                9..=18 => good_packed(rng),
                _ => bad_packed(rng),
            }
        }
        Call::Scratch { name, today: date, overriding } => {
            *date = today(rng, stored_date(table, name));
            *overriding = if rng.chance(60) { 0 } else { OVERRIDES[rng.below(OVERRIDES.len())] };
        }
        _ => {}
    }
}

/// A conversion of a good date or of a hostile one.
fn conversion(rng: &mut Rng) -> Call {
    match rng.below(6) {
        0 => Call::DateToStored { packed: good_packed(rng) },
        1 | 2 => Call::DateToStored { packed: bad_packed(rng) },
        3 => {
            let (year, day) = good(rng);
            Call::DateToPacked { stored: stored(year, day).to_vec() }
        }
        _ => Call::DateToPacked { stored: bad_stored(rng) },
    }
}
