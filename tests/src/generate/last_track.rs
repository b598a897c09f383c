//! Every call at the end of a volume of 65,535 tracks, for each H: document 02, [4].

use super::around::{with_previews, Rows};
use super::wrapped::FULL_HEADS;
use crate::call::Call;
use crate::reference::layout::{RECORD, UNIT, UNIT_CYLINDERS};
use crate::short::{absolute, allocation, extend, release, scratch};
use crate::volumes::{fresh, name, place};

/// T, and the first track after the VTOC.
const TRACKS: u32 = 65_535;
const START: u32 = 3;

/// C, H, D, S, V.
fn numbers(h: u32) -> [u32; 5] {
    [TRACKS / h, h, 5, 1, 2]
}

/// A has all tracks but so many at the end; its unit is tracks, or cylinders.
fn with_free(h: u32, free: u32, is_cylinders: bool) -> Vec<u8> {
    let [c, h, d, s, v] = numbers(h);
    let mut table = fresh(c, h, d, s, v);
    place(&mut table, "A", 0, 0, TRACKS - START - free, 1);
    if is_cylinders {
        table[2 * RECORD + UNIT] = UNIT_CYLINDERS;
    }
    table
}

/// The last cylinder free, of a file of tracks and of one of cylinders; the last track; none; and the
/// last cylinder as END, of type X'81'.
fn tables(h: u32) -> Vec<Vec<u8>> {
    let mut with_end = with_free(h, h, false);
    place(&mut with_end, "END", 1, 0, 1, 0);
    vec![
        with_free(h, h, false),
        with_free(h, h, true),
        with_free(h, 1, false),
        with_free(h, 0, false),
        with_end,
    ]
}

fn calls(h: u32) -> Vec<Call> {
    let [c, h, d, s, v] = numbers(h);
    let (old, new) = (name("A").to_vec(), name("NEW").to_vec());
    let mut calls = vec![
        Call::Lspace,
        Call::Obtain { name: old.clone() },
        Call::Rename { old, new },
        Call::Initialise { c, h, d, s, v },
        Call::Initialise { c, h, d, s: TRACKS - v, v },
        Call::Initialise { c, h, d, s: TRACKS - v + 1, v },
        extend("A"),
        scratch("A"),
        scratch("END"),
    ];
    for (kind, amount) in [(0, 1), (0, h), (0, h + 1), (1, 1), (1, 2), (1, c)] {
        calls.extend((0..=3).map(|option| allocation("NEW", kind, 0, amount, 1, option)));
    }
    for (start, count) in [(TRACKS - 1, 1), (TRACKS - 1, 2), (TRACKS - h, h), (TRACKS, 1)] {
        calls.push(absolute("NEW", start, count));
    }
    for tracks in [1, 2, h, h + 1, TRACKS - START - h, TRACKS - START - 1, TRACKS - START] {
        calls.extend(["A", "END"].map(|text| release(text, tracks - 1, 1)));
    }
    calls
}

/// Each call, and its preview, on each table.
pub fn rows() -> Rows {
    let of = |h: u32| tables(h).into_iter().flat_map(move |table| with_previews(calls(h), &table));
    FULL_HEADS.into_iter().flat_map(of).collect()
}
