//! Calls aimed at what the volume holds, so that rare paths and refusals come up often.

use super::glance::{Glance, SetGlance};
use super::names;
use super::rng::Rng;
use crate::call::{Call, ALX, CONTIG, MXIG, NO_DATE, NO_OPTION, TODAY};
use crate::desk::attributes;

/// Names in use at a time; few, so that lookups hit and duplicates happen.
const VARIETY: usize = 600;

pub struct Aim<'a> {
    pub rng: &'a mut Rng,
    pub glance: &'a Glance,
}

/// Scratch of a set that has no expiry date.
pub fn scratch_of(name: Vec<u8>) -> Call {
    Call::Scratch { name, today: TODAY.to_vec(), overriding: 0 }
}

impl Aim<'_> {
    /// The name of a set there is; now and then some other.
    fn name(&mut self) -> Vec<u8> {
        if self.rng.chance(6) {
            return names::lawful(self.rng, VARIETY);
        }
        self.set().map_or_else(|| names::lawful(self.rng, VARIETY), |set| set.name)
    }

    fn set(&mut self) -> Option<SetGlance> {
        self.rng.pick(&self.glance.sets).cloned()
    }

    /// A number of tracks that holes make interesting: one hole, or the sum of the longest
    /// few, give or take one.
    fn amount(&mut self, mut lengths: Vec<u32>) -> u32 {
        lengths.sort_unstable_by(|a, b| b.cmp(a));
        let near = match self.rng.below(5) {
            0 => return self.rng.range(1, 3),
            1 => *self.rng.pick(&lengths).unwrap_or(&1),
            2 => self.rng.range(1, 1 + lengths.iter().take(2).sum::<u32>()),
            _ => {
                let most = 1 + self.rng.below(6);
                let sum: u32 = lengths.iter().take(most).sum();
                let last = lengths.get(most.min(lengths.len()).max(1) - 1).copied().unwrap_or(0);
                sum - self.rng.below(last as usize + 1) as u32
            }
        };
        (near + self.rng.range(0, 2)).saturating_sub(1).clamp(1, 65_535)
    }

    fn secondary(&mut self) -> u32 {
        match self.rng.below(8) {
            0 | 1 => 0,
            2 | 3 => 1,
            4 | 5 => self.rng.range(1, 4),
            6 => self.amount(self.glance.holes.iter().map(|&(_, length)| length).collect()),
            _ => *self.rng.pick(&[65_535, 65_536, 16_777_215]).expect("numbers"),
        }
    }

    /// An amount and an option for candidates of these lengths: none, or one for which some of
    /// them just serve or just do not.
    fn amount_and_option(&mut self, mut lengths: Vec<u32>) -> (u32, u32) {
        if self.rng.chance(60) {
            return (self.amount(lengths), NO_OPTION);
        }
        let option = [CONTIG, MXIG, ALX, ALX][self.rng.below(4)];
        if self.rng.chance(20) {
            return (self.amount(lengths), option);
        }
        lengths.sort_unstable_by(|a, b| b.cmp(a));
        lengths.truncate(7);
        let near = *self.rng.pick(&lengths).unwrap_or(&1);
        ((near + self.rng.range(0, 2)).saturating_sub(1).max(1), option)
    }

    fn allocation(
        &mut self, kind: u32, start: u32, amount: u32, secondary: u32, option: u32,
    ) -> Call {
        let name = if self.rng.chance(4) { self.name() } else { names::lawful(self.rng, VARIETY) };
        let (attributes, expiry) = (attributes(self.rng.byte()), NO_DATE.to_vec());
        Call::Allocate { name, attributes, kind, start, amount, secondary, option, expiry }
    }

    pub fn tracks(&mut self) -> Call {
        let lengths = self.glance.holes.iter().map(|&(_, length)| length).collect();
        let (amount, option) = self.amount_and_option(lengths);
        let (start, secondary) = (self.rng.word() as u32, self.secondary());
        self.allocation(0, start, amount, secondary, option)
    }

    pub fn cylinders(&mut self) -> Call {
        let h = self.glance.geometry.heads;
        let whole = |&(start, length): &(u32, u32)| {
            ((start + length) / h).saturating_sub(start.div_ceil(h))
        };
        let lengths = self.glance.holes.iter().map(whole).filter(|&n| n > 0).collect();
        let (amount, option) = self.amount_and_option(lengths);
        let secondary = self.secondary();
        self.allocation(1, 0, amount, secondary, option)
    }

    /// Tracks at the front, in the middle, at the end or over the edge of a hole.
    pub fn absolute(&mut self) -> Call {
        let (start, length) = self.rng.pick(&self.glance.holes).copied().unwrap_or((1, 1));
        let inner = self.rng.range(1, length);
        let (start, count) = match self.rng.below(12) {
            0 => (start, length),
            1 => (start, inner),
            2 => (start + length - inner, inner),
            3 => (start + length - inner, inner + 1),
            4 => (start - 1, inner),
            5 => (self.rng.range(0, self.glance.geometry.tracks()), self.rng.range(0, 3)),
            6 | 7 => (self.middle(), 1),
            8 => (self.longest().0, 1),
            _ => (start + self.rng.range(0, length - 1), 1),
        };
        self.allocation(2, start, count, 0, NO_OPTION)
    }

    fn longest(&self) -> (u32, u32) {
        let longest = self.glance.holes.iter().copied().max_by_key(|&(_, length)| length);
        longest.unwrap_or((1, 1))
    }

    /// A track near the middle of the longest hole: of the two holes that a set there leaves, the
    /// longer one may hold fewer whole cylinders.
    fn middle(&mut self) -> u32 {
        let (start, length) = self.longest();
        let off = self.glance.geometry.heads.min(length / 2);
        start + (length - off) / 2 + self.rng.range(0, off)
    }

    /// One-track sets two apart: each makes one hole more.
    pub fn wall(&mut self) -> Call {
        let (start, length) = self.longest();
        self.allocation(2, start + u32::from(length > 1), 1, 0, NO_OPTION)
    }

    pub fn extend(&mut self) -> Call {
        // Sets about to get a format 3, or to have sixteen extents, are dear.
        let dear: Vec<&SetGlance> = self
            .glance
            .sets
            .iter()
            .filter(|set| {
                set.secondary > 0 && [2, 3, 4, 12, 14, 15, 16].contains(&set.extents.len())
            })
            .collect();
        let growing: Vec<&SetGlance> =
            self.glance.sets.iter().filter(|set| set.secondary > 0).collect();
        let longest = growing.iter().copied().max_by_key(|set| set.extents.len());
        let chosen = match self.rng.below(4) {
            0 => longest,
            1 => self.rng.pick(&dear).copied(),
            2 => self.rng.pick(&growing).copied(),
            _ => None,
        };
        Call::Extend { name: chosen.map_or_else(|| self.name(), |set| set.name.clone()) }
    }

    pub fn release(&mut self) -> Call {
        // Most sets of a worn volume have one track and nothing to give back.
        let least = [1, 2, 4][self.rng.below(3)];
        let enough = |set: &&SetGlance| set.extents.len() >= least && set.tracks() > 1;
        let worth: Vec<&SetGlance> = self.glance.sets.iter().filter(enough).collect();
        let chosen = self.rng.pick(&worth).map(|&set| set.clone()).or_else(|| self.set());
        let Some(set) = chosen else {
            return Call::Release { name: self.name(), ttr: self.rng.word() as u32 };
        };
        let ends: Vec<u32> = set
            .extents
            .iter()
            .scan(0, |sum, &(_, length)| {
                *sum += length;
                Some(*sum)
            })
            .collect();
        let tt = match self.rng.below(8) {
            0 => self.rng.range(0, set.tracks()),
            1 => set.tracks() - 1,
            2 => set.tracks() - 1 + self.rng.range(0, 1),
            3 => 0,
            4 => ends.get(2).copied().unwrap_or(1) - 1,
            5 => self.rng.range(0, ends[0] - 1),
            _ => *self.rng.pick(&ends).unwrap_or(&1) - 1,
        };
        let r = match self.rng.below(6) {
            0 => 0,
            1 => 255,
            _ => 1,
        };
        Call::Release { name: set.name, ttr: tt << 8 | r }
    }

    pub fn scratch(&mut self) -> Call {
        scratch_of(self.name())
    }

    pub fn rename(&mut self) -> Call {
        let old = self.name();
        let new = if self.rng.chance(30) { self.name() } else { names::lawful(self.rng, VARIETY) };
        Call::Rename { old, new }
    }

    pub fn obtain(&mut self) -> Call {
        Call::Obtain { name: self.name() }
    }
}
