//! Sound tables to begin with: volumes of 65,535 tracks for every H, others near it, small ones; with
//! sets of up to sixteen extents and up to three format 5s.

use super::super::rng::Rng;
use crate::audit::{table_with, Extent, Set};
use crate::volumes::name;

/// Every H of a volume of 65,535 tracks, which are 3 × 5 × 17 × 257.
pub const FULL_HEADS: [u32; 8] = [1, 3, 5, 15, 17, 51, 85, 255];

/// D, S and V of the volumes of 65,535 tracks: the VTOC at the start, between and at the end.
const FULL_VTOCS: [[u32; 3]; 3] = [[16, 1, 1], [8, 30_000, 3], [2, 65_525, 10]];

/// C, H, D, S, V.
const OTHERS: [[u32; 5]; 24] = [
    [4_095, 16, 16, 1, 1],
    [4_095, 16, 128, 65_000, 1],
    // The second format 5 is slot 11, the last one of its track.
    [13_107, 5, 6, 1, 3],
    [32_767, 2, 12, 1, 2],
    [1_285, 51, 2, 9, 8],
    [1_000, 30, 4, 77, 4],
    [2_184, 30, 15, 1, 1],
    [2_184, 30, 2, 7, 8],
    [32_767, 2, 4, 1, 4],
    [511, 128, 32, 60_000, 1],
    [1_023, 64, 64, 40_000, 1],
    [258, 254, 255, 30_000, 1],
    [3, 16, 8, 1, 2],
    [2, 30, 4, 50, 4],
    [3, 30, 16, 1, 1],
    [60, 1, 16, 1, 1],
    [60, 1, 5, 55, 3],
    [30, 2, 16, 1, 1],
    [12, 5, 7, 2, 2],
    [4, 15, 14, 59, 1],
    [1, 60, 16, 1, 1],
    [1, 127, 4, 100, 4],
    [1, 200, 20, 1, 1],
    [1, 255, 16, 254, 1],
];

/// Runs of tracks, free and not, before the rest of the volume.
const RUNS: u32 = 120;

/// The volumes of 65,535 tracks: for each H, three VTOCs, of which the first has data at the end and
/// the second a free extent.
pub fn full_volumes() -> Vec<Vec<u8>> {
    let numbers =
        FULL_HEADS.into_iter().flat_map(|h| FULL_VTOCS.map(|[d, s, v]| [65_535 / h, h, d, s, v]));
    tables(numbers.collect())
}

/// All sound tables, always the same.
pub fn bases() -> Vec<Vec<u8>> {
    let mut all = full_volumes();
    all.extend(tables(OTHERS.to_vec()));
    all
}

fn tables(numbers: Vec<[u32; 5]>) -> Vec<Vec<u8>> {
    let rng = &mut Rng::new(16);
    let table = |(i, numbers): (usize, [u32; 5])| {
        table(rng, numbers, i % 2 == 1)
            .unwrap_or_else(|| panic!("no table for C, H, D, S, V = {numbers:?}"))
    };
    numbers.into_iter().enumerate().map(table).collect()
}

/// A table whose last run before the end, or before a VTOC there, is free or one set's.
fn table(rng: &mut Rng, numbers: [u32; 5], ends_free: bool) -> Option<Vec<u8>> {
    let [c, h, _, s, v] = numbers;
    let mut lists: Vec<Vec<Extent>> = vec![vec![]; 5];
    let (mut at, mut run) = (1, 0);
    while at < c * h {
        if (s..s + v).contains(&at) {
            at = s + v;
            continue;
        }
        let limit = if at < s { s } else { c * h };
        let is_rest = limit == c * h && (run >= RUNS || limit - at <= 2 * h + 2);
        let end = if is_rest { limit } else { run_end(rng, run, at, limit, numbers) };
        let is_free = if is_rest { ends_free } else { run % 2 == 1 };
        if !is_free {
            put(&mut lists, at, end, h);
        }
        (at, run) = (end, run + 1);
    }
    labelled(numbers, lists)
}

/// Where a run ends. Runs up to the VTOC take what is left there once there are enough of them.
fn run_end(rng: &mut Rng, run: u32, at: u32, limit: u32, [c, h, ..]: [u32; 5]) -> u32 {
    if run > RUNS / 2 && limit < c * h && limit - at > 1_000 {
        return limit;
    }
    // Small volumes have room for short runs only.
    let most = (c * h / 30).clamp(1, 2 * h + 2);
    let end = at + rng.range(1, most);
    let whole = end.next_multiple_of(h);
    if most > h && rng.chance(30) {
        whole.min(limit)
    } else {
        end.min(limit)
    }
}

/// Gives a run to the set with the most extents that has room, so that some get to sixteen; the last
/// set keeps to three and so has no format 3. Whole cylinders are X'81'.
fn put(lists: &mut [Vec<Extent>], at: u32, end: u32, h: u32) {
    let whole = at.is_multiple_of(h) && end.is_multiple_of(h);
    let kind = if whole { 0x81 } else { 0x01 };
    let last = lists.len() - 1;
    let owner = if lists[last].len() < 3 && !lists[0].is_empty() {
        last
    } else {
        let longest = (0..last).filter(|&i| lists[i].len() < 16).max_by_key(|&i| lists[i].len());
        longest.expect("64 extents at the most")
    };
    lists[owner].push((kind, at, end - 1));
}

/// Sets in the slots from 2 on, their format 3s after them.
fn labelled(numbers: [u32; 5], mut lists: Vec<Vec<Extent>>) -> Option<Vec<u8>> {
    lists.retain(|list| !list.is_empty());
    let mut next = 2 + lists.len();
    let mut sets = vec![];
    for (i, extents) in lists.into_iter().enumerate() {
        let format_3 = (extents.len() > 3).then_some(next);
        next += usize::from(format_3.is_some());
        let text = name(&format!("WRAPPED.N{i}"));
        sets.push(Set::new(2 + i, format_3, text, [0x80, 0xC0][i % 2], 1, extents));
    }
    table_with(numbers, sets)
}
