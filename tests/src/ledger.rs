//! The ledger of document 01 with the units of document 02, [2]: fed with the calls' arguments,
//! results and replies, never with the table, it must come to the same names, units and tracks.

use std::collections::BTreeMap;

use crate::audit::{Picture, Set};
use crate::call::Call;

const CYLINDERS: u8 = 0xC0;

#[derive(Clone, Debug, Default, PartialEq, Eq)]
struct Entry {
    unit: u8,
    tracks: Vec<u32>,
}

impl Entry {
    fn of(set: &Set) -> Entry {
        Entry { unit: set.unit(), tracks: set.tracks() }
    }

    /// Keeps the first `count` tracks and, in cylinders, those after them as long as each is the next
    /// on the volume and in the same cylinder.
    fn keep_first(&mut self, mut count: usize, heads: u32) {
        let goes_on = |two: &[u32]| two[1] == two[0] + 1 && two[1] / heads == two[0] / heads;
        if self.unit == CYLINDERS {
            while count < self.tracks.len() && goes_on(&self.tracks[count - 1..=count]) {
                count += 1;
            }
        }
        self.tracks.truncate(count);
    }
}

/// The unit of the sets that an allocate of this kind makes.
fn unit_of(kind: u32) -> u8 {
    match kind {
        0 => 0x80,
        1 => CYLINDERS,
        _ => 0x00,
    }
}

#[derive(Clone, Debug, Default, PartialEq, Eq)]
pub struct Ledger {
    sets: BTreeMap<Vec<u8>, Entry>,
    /// H.
    heads: u32,
    pub granted: u32,
    pub given_back: u32,
}

impl Ledger {
    /// The ledger of a volume met in mid-life, as if one call had granted all it holds.
    pub fn of(picture: &Picture) -> Ledger {
        let mut ledger = Ledger { heads: picture.h, ..Ledger::default() };
        for set in &picture.sets {
            ledger.granted += set.tracks().len() as u32;
            ledger.sets.insert(set.name.to_vec(), Entry::of(set));
        }
        ledger
    }

    /// Enters one call with its result and answer bytes.
    pub fn enter(&mut self, call: &Call, result: u32, answer: &[u8]) {
        if result != 0 {
            return;
        }
        let word = |at: usize| u32::from(answer[at]) << 8 | u32::from(answer[at + 1]);
        let pieces = || -> Vec<u32> {
            let piece = |i: usize| word(3 + 4 * i)..word(3 + 4 * i) + word(5 + 4 * i);
            (0..usize::from(answer[2])).flat_map(piece).collect()
        };
        match call {
            Call::Initialise { h, .. } => *self = Ledger { heads: *h, ..Ledger::default() },
            Call::Allocate { name, kind, .. } => {
                self.granted += word(0);
                let entry = Entry { unit: unit_of(*kind), tracks: pieces() };
                self.sets.insert(name.clone(), entry);
            }
            Call::Extend { name } => {
                self.granted += word(0);
                self.sets.entry(name.clone()).or_default().tracks.extend(pieces());
            }
            Call::Release { name, ttr } => {
                self.given_back += word(0);
                let entry = self.sets.entry(name.clone()).or_default();
                entry.keep_first((ttr >> 8) as usize + 1, self.heads);
            }
            Call::Scratch { name, .. } => {
                self.given_back += word(0);
                self.sets.remove(name);
            }
            Call::Rename { old, new } => {
                let entry = self.sets.remove(old).unwrap_or_default();
                self.sets.insert(new.clone(), entry);
            }
            Call::Obtain { .. } | Call::Lspace | Call::Preview(_) => {}
            Call::DateToStored { .. } | Call::DateToPacked { .. } => {}
        }
    }

    /// Whether the table says the same, and the balance of the tracks is right.
    pub fn agrees(&self, picture: &Picture) -> bool {
        let sets = picture.sets.iter().map(|set| (set.name.to_vec(), Entry::of(set))).collect();
        let free: u32 = picture.free.iter().map(|&(_, length)| length).sum();
        let at_first = picture.c * picture.h - 1 - picture.v;
        let balanced = free + self.granted == at_first + self.given_back;
        self.heads == picture.h && self.sets == sets && balanced
    }
}
