//! Data extents whose tracks are others, the same modulo 65,536, and one that goes one too far.

use super::{Digits, Part, Patient, Which};
use crate::generate::glance::SetGlance;
use crate::reference::layout::{format_1_extent_at, format_3_extent_at, EXTENT_COUNT, RECORD};

impl Part {
    fn holds(self, e: usize) -> bool {
        match self {
            Part::Format1 => e < 3,
            Part::Format3Front => (3..7).contains(&e),
            Part::Format3Back => e >= 7,
        }
    }
}

/// Where extent `e` of a set lies in the table, or would lie; nothing where there is no record for it.
fn extent_at(set: &SetGlance, e: usize) -> Option<usize> {
    match set.format_3 {
        _ if e < 3 => Some(set.slot * RECORD + format_1_extent_at(e)),
        Some(slot) if e < 16 => Some(slot * RECORD + format_3_extent_at(e)),
        _ => None,
    }
}

impl Patient<'_> {
    pub(super) fn extent(&mut self, part: Part, which: Which, digits: Digits) -> Option<()> {
        let extents = |set: &SetGlance| (0..set.extents.len()).filter(|&e| part.holds(e)).collect();
        let places: Vec<usize> = self
            .glance
            .sets
            .iter()
            .flat_map(|set| {
                let numbers: Vec<usize> = extents(set);
                numbers.into_iter().filter_map(|e| extent_at(set, e))
            })
            .collect();
        let at = *self.rng.pick(&places)?;
        self.ends_at(at + 2, which, digits)
    }

    /// Track 65,535 instead of 65,534: one after it is 65,536.
    pub(super) fn extent_one_too_far(&mut self) -> Option<()> {
        let h = self.heads();
        let places = self.glance.sets.iter().flat_map(|set| {
            let ends = |&e: &usize| set.extents[e].0 + set.extents[e].1 == 65_535;
            (0..set.extents.len()).filter(ends).filter_map(|e| extent_at(set, e))
        });
        let at = places.min()?;
        self.put(at + 6, 65_535 / h);
        self.put(at + 8, 65_535 % h);
        Some(())
    }

    /// One more extent, from any track to 65,535.
    pub(super) fn extent_up_to_0(&mut self) -> Option<()> {
        let h = self.heads();
        let room = |set: &&SetGlance| extent_at(set, set.extents.len()).is_some();
        let sets: Vec<&SetGlance> = self.glance.sets.iter().filter(room).collect();
        let set = *self.rng.pick(&sets)?;
        let (e, first) = (set.extents.len(), self.rng.range(0, 65_535));
        let at = extent_at(set, e)?;
        self.table[set.slot * RECORD + EXTENT_COUNT] += 1;
        self.table[at..at + 2].copy_from_slice(&[0x01, e as u8]);
        for (at, track) in [(at + 2, first), (at + 6, 65_535)] {
            self.put(at, track / h);
            self.put(at + 2, track % h);
        }
        Some(())
    }
}
