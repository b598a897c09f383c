//! Calls with dates by the row: each half byte wrong in each way, days and years at their edges, dates
//! around the stored one, and bytes of earlier days: document 02, [5].

use super::around::with_previews;
use super::dates::{with_half_byte, wrong_half_bytes, DAYS, OVERRIDES, YEARS};
use super::glance::EXPIRY;
use super::grids::{row, Row};
use crate::audit::dates::{packed, stored};
use crate::audit::{table_with, Set};
use crate::call::{Call, NO_DATE, TODAY};
use crate::short::{expiring, scratch_on, to_packed, to_stored, tracks};
use crate::volumes::{name, small};

/// Four bytes of all kinds, and some of other lengths.
fn packed_forms() -> Vec<Vec<u8>> {
    let mut forms: Vec<Vec<u8>> = vec![NO_DATE.to_vec(), vec![0xFF; 4], vec![0x99; 4]];
    for (year, day) in [(1900, 1), (1980, 365), (2000, 366), (2099, 199)] {
        let date = packed(year, day).to_vec();
        let wrong = |at: usize| wrong_half_bytes(at).map(move |half| (at, half));
        let halves = (0..8).flat_map(wrong);
        forms.extend(halves.map(|(at, half)| with_half_byte(date.clone(), at, half)));
        forms.extend((0..=7).map(|length| [&date[..], &date].concat()[..length].to_vec()));
    }
    for year in YEARS.into_iter().chain([2100, 2899]) {
        let days = DAYS.into_iter().chain([0, 363, 367, 511, 512, 999]);
        forms.extend(days.map(|day| packed(year, day).to_vec()));
    }
    forms
}

/// Three bytes of all kinds, and some of other lengths.
fn stored_forms() -> Vec<Vec<u8>> {
    let mut forms: Vec<Vec<u8>> = (0..=7).map(|length| [80; 7][..length].to_vec()).collect();
    for year in 1900..=2155 {
        let days = [0, 1, 255, 256, 365, 366, 367, 512, 0x0201, 0xFF01, 0xFFFF];
        forms.extend(days.map(|day| stored(year, day).to_vec()));
    }
    forms
}

/// Both conversions; allocate and scratch with each packed form, and their previews.
pub fn forms() -> Vec<Row> {
    let table = small();
    let mut rows = vec![];
    for form in packed_forms() {
        let calls = vec![
            to_stored(&form),
            expiring(tracks("NEW", 1, 0), &form),
            expiring(tracks("FLT.A", 0, 0), &form),
            scratch_on("FLT.A", &form, 0),
            scratch_on("FLT.A", &form, 1),
            scratch_on("NONE", &form, 0),
        ];
        rows.extend(with_previews(calls, &table));
    }
    rows.extend(stored_forms().iter().map(|form| row(to_packed(form), &[])));
    rows
}

/// Scratches of sets that expire at edges, on days around them, with and without an override.
pub fn scratches() -> Vec<Row> {
    let mut rows = vec![];
    for (year, day) in [(1900, 1), (1980, 255), (1980, 256), (1999, 365), (2000, 366), (2099, 365)]
    {
        let table = with_date(stored(year, day));
        let years = [year.max(1901) - 1, year, year.min(2098) + 1];
        let days = [1, day.max(2) - 1, day, day + 1, 254, 255, 256, 257, 365, 366];
        for today in years.into_iter().flat_map(|year| days.map(|day| packed(year, day))) {
            let calls = OVERRIDES.map(|overriding| scratch_on("FLT.A", &today, overriding));
            rows.extend(with_previews(calls.to_vec(), &table));
        }
    }
    rows.extend(of_earlier_days());
    rows
}

/// Sets with bytes that are no date, in tables of ours and of the audit.
fn of_earlier_days() -> Vec<Row> {
    let mut rows = vec![];
    for bytes in [[0; 3], [0xFF; 3], [0, 0, 1], [80, 0, 0], [80, 1, 110], [80, 109, 1], [200, 0, 1]]
    {
        for table in [with_date(bytes), from_elsewhere(bytes)] {
            for today in [packed(1900, 1), TODAY, packed(1980, 366), packed(2099, 365), NO_DATE] {
                let calls = [0, 1].map(|overriding| scratch_on("FLT.A", &today, overriding));
                rows.extend(with_previews(calls.to_vec(), &table));
            }
            let name = name("FLT.A").to_vec();
            rows.push(row(Call::Obtain { name }, &table));
        }
    }
    rows
}

/// Volume A's end with these bytes in the label of FLT.A.
fn with_date(bytes: [u8; 3]) -> Vec<u8> {
    let mut table = small();
    table[2 * 140..][EXPIRY].copy_from_slice(&bytes);
    table
}

/// One set of five extents, X'81' among them.
fn from_elsewhere(bytes: [u8; 3]) -> Vec<u8> {
    let extents = [(0x01, 4, 4), (0x81, 5, 9), (0x01, 12, 13), (0x01, 10, 10), (0x01, 19, 19)];
    let set = Set::new(5, Some(2), name("FLT.A"), 0xC0, 1, extents.to_vec());
    table_with([4, 5, 4, 1, 2], vec![set.expiring(bytes)]).expect("sound")
}
