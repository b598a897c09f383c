//! Calls with numbers that are good ones again modulo 65,536 or 2^32: document 02, [4].

use super::glance::{glance, Glance, SetGlance};
use super::grids::{row, Row};
use super::wrapped::full_volumes;
use crate::call::{Call, NO_OPTION};
use crate::reference::geometry::Geometry;
use crate::reference::layout::{RECORD, UNIT, UNIT_CYLINDERS, UNIT_TRACKS};
use crate::short::{allocation, extend};
use crate::volumes::{fresh, place, scattered, small};

pub type Rows = Vec<Row>;

/// What numbers wrap at, where they are kept in two bytes or in four.
const AROUND: [u64; 2] = [1 << 16, 1 << 32];

/// C, H, D, S, V of volumes that there are.
const GOOD: [[u32; 5]; 6] = [
    [4, 5, 4, 1, 2],
    [1, 16, 8, 3, 1],
    [257, 255, 4, 1, 2],
    [4_095, 16, 16, 100, 1],
    [2_184, 30, 2, 65_000, 3],
    [65_535, 1, 128, 65_534, 1],
];

/// The least and the greatest other number of four bytes whose product with `factor` is the same
/// modulo `around`.
fn same_product(number: u32, factor: u32, around: u64) -> Vec<u32> {
    let step = around >> factor.trailing_zeros();
    let number = u64::from(number);
    let most = (u64::from(u32::MAX) - number) / step;
    let turns = if most == 0 { vec![] } else { vec![1, most] };
    turns.into_iter().map(|turns| (number + turns * step) as u32).collect()
}

/// Initialise with C × H, V × D and S + V that wrap to good ones, and with single numbers that do.
pub fn geometries() -> Rows {
    let mut rows = vec![];
    for good @ [c, h, d, s, v] in GOOD {
        let mut bad: Vec<[u32; 5]> = vec![];
        for around in AROUND {
            bad.extend(same_product(c, h, around).into_iter().map(|c| [c, h, d, s, v]));
            bad.extend(same_product(v, d, around).into_iter().map(|v| [c, h, d, s, v]));
            let sums = [0, 1, s, s + v, c * h].into_iter().map(u64::from);
            let starts = sums.filter_map(|sum| u32::try_from(around + sum - u64::from(v)).ok());
            bad.extend(starts.map(|s| [c, h, d, s, v]));
        }
        for (at, more) in (0..5).flat_map(|at| [1 << 8, 1 << 16, 1 << 24, 1 << 31].map(|m| (at, m)))
        {
            let mut numbers = good;
            numbers[at] += more;
            bad.push(numbers);
        }
        let table = vec![0xEE; 140 * (v * d) as usize];
        bad.retain(|&[c, h, d, s, v]| Geometry::new(c, h, d, s, v).is_none());
        rows.push(row(Call::Initialise { c, h, d, s, v }, &table));
        let call = |[c, h, d, s, v]: [u32; 5]| Call::Initialise { c, h, d, s, v };
        rows.extend(bad.into_iter().map(|numbers| row(call(numbers), &table)));
    }
    rows
}

/// These calls and the previews of those that have one, on a table.
pub fn with_previews(calls: Vec<Call>, table: &[u8]) -> Rows {
    let previews: Vec<Call> = calls.iter().filter_map(Call::preview).collect();
    calls.into_iter().chain(previews).map(|call| row(call, table)).collect()
}

/// Volumes of all sizes, with free extents at their end, between, and none.
fn volumes() -> Vec<Vec<u8>> {
    let mut tables = full_volumes();
    tables.extend([small(), scattered(100, 4, 20, 1, 2, 26), fresh(4_095, 16, 8, 1, 1)]);
    tables
}

/// Allocate with such numbers, and extend and release of sets there.
pub fn amounts() -> Rows {
    let mut rows = vec![];
    for table in volumes() {
        let seen = glance(&table).expect("sound");
        let calls = [absolute(&seen), amounts_of(&seen), releases(&seen)].concat();
        rows.extend(with_previews(calls, &table));
        rows.extend(secondary(&seen, &table));
    }
    rows
}

/// At the first, the longest and the last free extent: the end, the start or the count wraps to a good
/// one. And requests that just reach the end of the volume.
fn absolute(seen: &Glance) -> Vec<Call> {
    let mut calls = vec![];
    let longest = seen.holes.iter().max_by_key(|&&(_, length)| length);
    for &(start, length) in [seen.holes.first(), longest, seen.holes.last()].into_iter().flatten() {
        let end = start + length;
        let mut numbers = vec![(end - 1, 1), (end - 1, 2), (start, length), (start, length + 1)];
        for around in AROUND {
            // Start + count is `around` and a track of the free extent, with the greatest count.
            let before = |sum: u32, count: u32| around + u64::from(sum) - u64::from(count);
            let sums = [0, start, start + 1, end].into_iter();
            let starts = sums.flat_map(|sum| [(before(sum, 65_535), 65_535), (before(sum, 1), 1)]);
            let starts = starts.chain([(around + u64::from(start), length), (around, end)]);
            let four = |(start, count)| Some((u32::try_from(start).ok()?, count));
            numbers.extend(starts.filter_map(four));
            numbers.extend(u32::try_from(around + u64::from(length)).ok().map(|n| (start, n)));
        }
        calls.extend(numbers);
    }
    calls
        .into_iter()
        .map(|(start, count)| allocation("NEW", 2, start, count, 0, NO_OPTION))
        .collect()
}

/// Tracks: 65,536 more than there are. Cylinders: so many that their tracks wrap to what there is.
fn amounts_of(seen: &Glance) -> Vec<Call> {
    let longest = seen.holes.iter().map(|&(_, length)| length).max().unwrap_or(1);
    let tracks = [1, longest, longest + 1].map(|n| (0, 65_536 + n));
    let h = seen.geometry.heads;
    let fits = |n: &u32| n * h > 65_535 && (n * h % 65_536) <= longest;
    let many: Vec<u32> = (1..=65_535).filter(fits).collect();
    let few = many.iter().take(3).chain(many.iter().rev().take(3));
    let cylinders = few.map(|&n| (1, n)).chain([(1, 65_537), (1, 65_535), (0, 65_535)]);
    let options = |(kind, n)| (0..=3).map(move |option| allocation("NEW", kind, 0, n, 1, option));
    tracks.into_iter().chain(cylinders).flat_map(options).collect()
}

/// TT = 65,535, for which TT + 1 is 65,536, and TTRs of more than three bytes.
fn releases(seen: &Glance) -> Vec<Call> {
    let longest = seen.sets.iter().max_by_key(|set| set.tracks());
    let of = |set: &SetGlance| {
        let last = set.tracks() - 1;
        let tts = [0, last, last + 1, 65_534, 65_535, 65_536, 65_536 + last, (1 << 24) - 1];
        let release = |tt: u32| Call::Release { name: set.name.clone(), ttr: tt << 8 | 1 };
        tts.map(release).to_vec()
    };
    longest.map_or(vec![], of)
}

/// Extend of a set whose secondary amount is a good one modulo 65,536, in tracks and in cylinders.
fn secondary(seen: &Glance, table: &[u8]) -> Rows {
    if seen.holes.is_empty() || seen.open.len() < 2 {
        return vec![];
    }
    let around = 65_536 >> seen.geometry.heads.trailing_zeros();
    let mut rows = vec![];
    for (unit, amount) in [
        (UNIT_TRACKS, 65_535),
        (UNIT_TRACKS, 65_536),
        (UNIT_TRACKS, 65_537),
        (UNIT_CYLINDERS, around),
        (UNIT_CYLINDERS, around + 1),
    ] {
        // It begins with a track: not every table has a whole cylinder left.
        let mut table = table.to_vec();
        place(&mut table, "LARGE", 0, 0, 1, amount);
        table[RECORD * seen.open[0] + UNIT] = unit;
        rows.extend(with_previews(vec![extend("LARGE")], &table));
    }
    rows
}
