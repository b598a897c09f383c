//! The kinds that have no sound table beside them.

use super::super::rng::Rng;
use super::draft::{Draft, Ends};
use super::{Kind, Past};
use crate::stops::{Place, Step, Stop};

/// C and H of the volumes.
const VOLUMES: [(u32, u32); 12] = [
    (257, 255),
    (4_369, 15),
    (65_535, 1),
    (13_107, 5),
    (4_095, 16),
    (2_184, 30),
    (511, 128),
    (1_000, 19),
    (300, 4),
    (40, 1),
    (4, 15),
    (2, 30),
];

impl Past {
    pub fn stops(self) -> Vec<Stop> {
        let mut stops = vec![(Place::Vtoc, Step::Difference), (Place::Vtoc, Step::Sum)];
        match self {
            Past::LastBeforeFirst => {}
            Past::LastBeyond => {
                stops.extend([(Place::VtocLast, Step::Product), (Place::VtocLast, Step::Sum)]);
            }
            Past::EndsThere => stops.push((Place::Vtoc, Step::End)),
        }
        stops
    }
}

/// Each such table on each volume that has room for it.
pub fn every(rng: &mut Rng, tries: usize, mut show: impl FnMut(Kind, Vec<u8>)) {
    let mut draw = |kind: Kind, draft: Option<Draft>| {
        if let Some(table) = draft.and_then(|draft| draft.table()) {
            show(kind, table);
        }
    };
    for &volume in &VOLUMES {
        for _ in 0..tries {
            for past in [Past::LastBeforeFirst, Past::LastBeyond, Past::EndsThere] {
                draw(Kind::VtocPast(past), vtoc_past(rng, volume, past));
            }
            draw(Kind::VtocTooLong, vtoc_too_long(rng, volume));
            draw(Kind::ExtentBackwards, backwards(rng, volume));
            draw(Kind::Total, total(rng, volume));
        }
    }
    for h in [2, 4, 8, 16, 32, 64, 128] {
        (0..tries).for_each(|_| draw(Kind::VolumeOf65536, Some(of_65536(rng, h))));
    }
}

/// A set of one extent and all other tracks from `from` on free.
fn shared_out(rng: &mut Rng, from: u32, tracks: u32) -> (Vec<Ends>, Vec<(u32, u32)>) {
    let at = rng.range(from, tracks - 1);
    let end = rng.range(at + 1, tracks);
    let free = [(from, at - from), (end, tracks - end)];
    (vec![(at, end - 1)], free.into_iter().filter(|&(_, length)| length > 0).collect())
}

/// A VTOC that no track of the volume need be left out for: from S up to S + V modulo 65,536 there is
/// none.
fn vtoc_past(rng: &mut Rng, (c, h): (u32, u32), past: Past) -> Option<Draft> {
    let v = rng.range(2, 6);
    // Past 65,535 by how much; the end must be on the volume.
    let beyond = if past == Past::EndsThere { 0 } else { rng.range(1, v - 1) };
    let first = 65_536 + beyond - v;
    let last = match past {
        Past::LastBeforeFirst => beyond - 1,
        Past::LastBeyond => 65_535 + beyond,
        Past::EndsThere => 65_535,
    };
    // With H = 1 no CC tells more than 65,535.
    if past == Past::LastBeyond && h == 1 {
        return None;
    }
    // Labels lie on the first two tracks, which are of sixteen bits.
    let d = rng.range(4, 12);
    let (extents, free) = shared_out(rng, 1, c * h);
    Some(Draft { c, h, d, slots: (v * d) as usize, vtoc: (first, last), extents, free })
}

/// V × D = N + 65,536 × turns.
fn vtoc_too_long(rng: &mut Rng, (c, h): (u32, u32)) -> Option<Draft> {
    let d = *rng.pick(&[2, 16, 64, 128, 50, 140, 200, 254, 255])?;
    let turns = if rng.chance(70) { 1 } else { rng.range(1, 3) };
    let around = 65_536 * turns;
    let v = (around + 4).div_ceil(d) + rng.range(0, 1);
    let slots = v * d - around;
    if slots > 468 || 1 + v >= c * h {
        return None;
    }
    let s = rng.range(1, c * h - v - 1);
    let (extents, mut free) = shared_out(rng, s + v, c * h);
    if s > 1 {
        free.insert(0, (1, s - 1));
    }
    Some(Draft { c, h, d, slots: slots as usize, vtoc: (s, s + v - 1), extents, free })
}

/// Two extents share some tracks; a third ends so many before its first.
fn backwards(rng: &mut Rng, (c, h): (u32, u32)) -> Option<Draft> {
    let middle = rng.range(8, c * h - 3);
    let shared = rng.range(1, 3);
    let first = rng.range(shared + 1, c * h - 1);
    let extents = vec![(2, middle), (middle + 1 - shared, c * h - 1), (first, first - shared - 1)];
    Some(Draft { c, h, d: 4, slots: 4, vtoc: (1, 1), extents, free: vec![] })
}

/// All tracks in one extent, and again as many extents as have 65,536 tracks, once or twice over.
fn total(rng: &mut Rng, (c, h): (u32, u32)) -> Option<Draft> {
    let (first, last) = (2, c * h - 1);
    let mut extents = vec![(first, last)];
    let mut left = 65_536 * rng.range(1, 2);
    while left > 0 {
        let length = left.min(last + 1 - first);
        let from = rng.range(first, last + 1 - length);
        extents.push((from, from + length - 1));
        left -= length;
    }
    let d = 2 + 2 * extents.len().div_ceil(16) as u32;
    (d <= 255).then_some(())?;
    Some(Draft { c, h, d, slots: d as usize, vtoc: (1, 1), extents, free: vec![] })
}

/// Tracks 0 to 65,535.
fn of_65536(rng: &mut Rng, h: u32) -> Draft {
    let (extents, free) = shared_out(rng, 2, 65_536);
    Draft { c: 65_536 / h, h, d: 6, slots: 6, vtoc: (1, 1), extents, free }
}
