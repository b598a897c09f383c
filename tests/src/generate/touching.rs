//! Volumes on which an extend may join: sets with free tracks right behind their last extent, many of
//! them with three or with sixteen extents, and hardly a slot left. Written by the audit, since types are
//! mixed as our own calls leave none.

use super::names;
use super::rng::Rng;
use crate::audit::{table_with, Extent, Set};

/// The most extents of a set.
const MOST: usize = 16;
/// The first track behind a VTOC of one track.
const FIRST: u32 = 2;

/// What lies next on the volume.
#[derive(Clone, Copy)]
enum Item {
    /// An extent of this grower, not its last.
    Own(usize),
    /// Its last extent, and free tracks behind it.
    End(usize),
    /// Free tracks.
    Free(u32),
}

/// A set that has free tracks behind it.
struct Grower {
    unit: u8,
    /// Tracks in its unit.
    tracks: u32,
    earlier: Vec<Extent>,
    last: Option<Extent>,
    /// The units behind its last extent, and whether they are but a part of what it asks for.
    behind: u32,
    wants_more: bool,
}

/// A strip of tracks that is dealt out.
struct Strip<'a> {
    rng: &'a mut Rng,
    h: u32,
    at: u32,
    free: Vec<(u32, u32)>,
    /// What is left to other sets.
    others: Vec<Extent>,
}

/// A sound table.
pub fn table(rng: &mut Rng) -> Vec<u8> {
    loop {
        // Not all draws have names that differ.
        if let Some(table) = draw(rng) {
            return table;
        }
    }
}

fn draw(rng: &mut Rng) -> Option<Vec<u8>> {
    let h = rng.range(1, 4);
    let mut growers: Vec<Grower> = (0..1 + rng.below(2)).map(|_| grower(rng, h)).collect();
    let mut items: Vec<Item> = (0..rng.below(6)).map(|_| Item::Free(rng.range(1, 3))).collect();
    for (i, grower) in growers.iter().enumerate() {
        let counts = match grower.wants_more {
            true => [1, 2, 2, 3, 3, 7, 11, 12, 13, 13, 14, 14, 15, 15, 16, 16],
            false => [1, 1, 2, 3, 3, 3, 4, 6, 7, 8, 11, 12, 13, 15, 16, 16],
        };
        let count = *rng.pick(&counts).expect("counts");
        items.extend((1..count).map(|_| Item::Own(i)));
        items.push(Item::End(i));
    }
    for i in (1..items.len()).rev() {
        items.swap(i, rng.below(i + 1));
    }
    let mut strip = Strip { rng, h, at: FIRST, free: vec![], others: vec![] };
    items.into_iter().for_each(|item| strip.lay(item, &mut growers));
    strip.wall(strip.at.next_multiple_of(h) + h);
    let Strip { at, free, others, .. } = strip;
    labelled(rng, [at / h, h], &growers, &free, &others)
}

fn grower(rng: &mut Rng, h: u32) -> Grower {
    let (unit, tracks) = if rng.chance(45) { (0xC0, h) } else { (0x80, 1) };
    // More than any other free extent has, where it is to be the first piece of several.
    let wants_more = rng.chance(35);
    let behind = if wants_more { rng.range(4, 6) } else { rng.range(1, 3) };
    Grower { unit, tracks, earlier: vec![], last: None, behind, wants_more }
}

impl Strip<'_> {
    /// Other sets have the tracks up to `end`.
    fn wall(&mut self, end: u32) {
        if self.at < end {
            self.others.push((0x01, self.at, end - 1));
            self.at = end;
        }
    }

    fn free(&mut self, length: u32) {
        self.free.push((self.at, length));
        self.at += length;
        // So that the next free extent is one of its own.
        self.wall(self.at + 1);
    }

    fn lay(&mut self, item: Item, growers: &mut [Grower]) {
        match item {
            Item::Free(length) => {
                let whole = self.rng.chance(50);
                if whole {
                    self.wall(self.at.next_multiple_of(self.h));
                }
                self.free(if whole { length * self.h } else { length });
            }
            Item::Own(i) => {
                let extent = self.extent(growers[i].tracks);
                let earlier = &mut growers[i].earlier;
                // Some lists go backwards.
                earlier.insert(if self.rng.chance(30) { 0 } else { earlier.len() }, extent);
                if self.rng.chance(70) {
                    self.wall(self.at + 1);
                }
            }
            Item::End(i) => {
                growers[i].last = Some(self.extent(growers[i].tracks));
                self.free(growers[i].behind * growers[i].tracks);
            }
        }
    }

    /// An extent in units of so many tracks; whole cylinders are X'81' or X'01'.
    fn extent(&mut self, tracks: u32) -> Extent {
        if tracks > 1 || self.rng.chance(30) {
            self.wall(self.at.next_multiple_of(self.h));
        }
        let unit = if self.rng.chance(30) { self.h } else { tracks };
        let (first, end) = (self.at, self.at + unit * self.rng.range(1, 2));
        self.at = end;
        let whole = first.is_multiple_of(self.h) && end.is_multiple_of(self.h);
        (if whole && self.rng.chance(60) { 0x81 } else { 0x01 }, first, end - 1)
    }
}

/// What a grower asks for: what lies behind it, that and a few of the longest others, or anything.
fn secondary(rng: &mut Rng, grower: &Grower, free: &[(u32, u32)]) -> u32 {
    let mut others: Vec<u32> = free.iter().map(|&(_, length)| length / grower.tracks).collect();
    others.sort_unstable_by(|a, b| b.cmp(a));
    let first_of = |count: usize| others.iter().take(count).sum::<u32>();
    match rng.below(8) {
        0 => rng.range(1, 4),
        _ if !grower.wants_more => grower.behind,
        _ => (first_of(2 + rng.below(4)) - rng.range(0, 1)).max(1),
    }
}

/// Labels for the growers and for what is left, in slots drawn at random.
fn labelled(
    rng: &mut Rng, [c, h]: [u32; 2], growers: &[Grower], free: &[(u32, u32)], others: &[Extent],
) -> Option<Vec<u8>> {
    let mut lists = vec![];
    for grower in growers {
        let extents = grower.earlier.iter().copied().chain(grower.last).collect();
        lists.push((grower.unit, secondary(rng, grower, free), extents));
    }
    lists.extend(others.chunks(MOST).map(|extents| (0x00, 0, extents.to_vec())));
    let labels: usize = lists.iter().map(|(_, _, extents)| labels_of(extents)).sum();
    let spare = rng.weighted(&[5, 2, 2, 1]);
    let mut slots: Vec<usize> = (2..2 + labels + spare).collect();
    let n = 2 + slots.len() as u32;
    let mut slot = |rng: &mut Rng| slots.swap_remove(rng.below(slots.len()));
    let mut sets = vec![];
    for (unit, secondary, extents) in lists {
        let name = names::lawful(rng, 600).try_into().expect("44 bytes");
        let format_1 = slot(rng);
        let format_3 = (labels_of(&extents) > 1).then(|| slot(rng));
        sets.push(Set::new(format_1, format_3, name, unit, secondary, extents));
    }
    table_with([c, h, n, 1, FIRST - 1], sets)
}

/// The records of a set with these extents.
fn labels_of(extents: &[Extent]) -> usize {
    1 + usize::from(extents.len() > 3)
}
