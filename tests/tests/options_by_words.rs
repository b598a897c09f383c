//! Document 02's sentences on the space options, followed word by word and slowly, beside the
//! reference on volumes of all shapes.

use std::cmp::Reverse;

use vtoc_tests::audit::{picture, Picture};
use vtoc_tests::call::{ALX, CONTIG, MXIG};
use vtoc_tests::desk::Desk;
use vtoc_tests::generate::session::lives;

/// Runs of neighbouring units (tracks or whole cylinders) that are free, start and count in units:
/// a free extent's whole cylinders are such a run, since free extents do not touch.
fn candidates(picture: &Picture, unit: u32) -> Vec<(u32, u32)> {
    let mut is_free = vec![false; (picture.c * picture.h) as usize];
    for &(start, length) in &picture.free {
        is_free[start as usize..(start + length) as usize].fill(true);
    }
    let mut runs: Vec<(u32, u32)> = vec![];
    for (at, tracks) in is_free.chunks_exact(unit as usize).enumerate() {
        match runs.last_mut() {
            _ if tracks.contains(&false) => {}
            Some((start, count)) if *start + *count == at as u32 => *count += 1,
            _ => runs.push((at as u32, 1)),
        }
    }
    runs
}

/// Document 02 word by word, in units.
fn chosen(option: u32, candidates: &[(u32, u32)], amount: u32) -> Option<Vec<(u32, u32)>> {
    let mut serving = candidates.to_vec();
    serving.retain(|&(_, count)| count >= amount);
    serving.sort_by_key(|&(start, count)| (Reverse(count), start));
    let shortest = serving.iter().min_by_key(|&&(start, count)| (count, start))?;
    match option {
        CONTIG => Some(vec![(shortest.0, amount)]),
        MXIG => Some(vec![serving[0]]),
        ALX => Some(serving.into_iter().take(5).collect()),
        _ => None,
    }
}

/// Amounts at and around each candidate's length.
fn amounts(candidates: &[(u32, u32)]) -> Vec<u32> {
    let mut amounts: Vec<u32> =
        candidates.iter().flat_map(|&(_, n)| [n - 1, n, n + 1]).chain([1]).collect();
    amounts.retain(|&amount| amount > 0);
    amounts.sort_unstable();
    amounts.dedup();
    amounts
}

/// Every option with every such amount, in tracks and in cylinders; counts what is granted and what
/// is refused for space.
fn compare(table: &[u8], counts: &mut [usize; 2]) {
    let desk = Desk { table: table.to_vec(), rows: vec![] };
    let before = picture(table).expect("not taken");
    for (kind, unit) in [(0, 1), (1, before.h)] {
        let candidates = candidates(&before, unit);
        for amount in amounts(&candidates) {
            for option in [CONTIG, MXIG, ALX] {
                let expected = chosen(option, &candidates, amount);
                let made = desk.clone().allocate_by(option, "SLOW.WAY", kind, 0, amount, 0);
                match (expected, made.result) {
                    // The name is there, or slots are short.
                    (_, 6) | (Some(_), 11) => {}
                    (Some(units), 0) => {
                        let in_tracks = |&(at, n): &(u32, u32)| (at * unit, n * unit);
                        made.granted(&units.iter().map(in_tracks).collect::<Vec<_>>());
                        counts[0] += 1;
                    }
                    (expected, result) => {
                        assert_eq!((expected, result), (None, 9));
                        counts[1] += 1;
                    }
                }
            }
        }
    }
}

/// Volumes of all shapes, a few times in their lives.
#[test]
fn as_the_words_say() {
    let mut counts = [0; 2];
    lives(40, 12, |table| compare(table, &mut counts));
    let [granted, refused] = counts;
    assert!(granted > 1_000 && refused > 300, "{granted} granted, {refused} refused");
}
