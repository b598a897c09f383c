//! The free list: the entries of the format 5 chain, ascending, edited in place.

use super::layout::ENTRIES;

/// A run of tracks: a free extent (hole), a data extent or a piece of a grant.
#[derive(Clone, Copy, Debug, Default, PartialEq, Eq)]
pub struct Run {
    pub start: u32,
    pub length: u32,
}

impl Run {
    /// The track after the last.
    #[inline]
    pub fn end(&self) -> u32 {
        self.start + self.length
    }
}

#[derive(Debug)]
pub struct FreeList {
    holes: Vec<Run>,
    /// Entries before this one are as they were read, so their format 5s stand.
    unchanged: usize,
}

impl FreeList {
    /// An empty list, as read from a chain, with room for `capacity` entries.
    pub fn with_capacity(capacity: usize) -> FreeList {
        FreeList { holes: Vec::with_capacity(capacity), unchanged: usize::MAX }
    }

    pub fn holes(&self) -> &[Run] {
        &self.holes
    }

    pub fn unchanged(&self) -> usize {
        self.unchanged
    }

    /// Appends an entry just read from the chain; false unless it starts after the last
    /// one ends and does not touch it.
    #[inline]
    pub fn read(&mut self, hole: Run) -> bool {
        let apart = self.holes.last().is_none_or(|last| hole.start > last.end());
        self.holes.push(hole);
        apart
    }

    /// The format 5s that the entries need.
    pub fn members(&self) -> usize {
        self.holes.len().div_ceil(ENTRIES).max(1)
    }

    /// The hole that holds all of `run`.
    pub fn holding(&self, run: Run) -> Option<usize> {
        let at = self.holes.partition_point(|hole| hole.start <= run.start).checked_sub(1)?;
        (run.end() <= self.holes[at].end()).then_some(at)
    }

    /// Takes `run` out of the hole that holds it: split, shortened or gone. Without such a
    /// hole, nothing happens.
    pub fn take(&mut self, run: Run) {
        let Some(at) = self.holding(run) else { return };
        self.unchanged = self.unchanged.min(at);
        let hole = self.holes[at];
        let before = Run { start: hole.start, length: run.start - hole.start };
        let after = Run { start: run.end(), length: hole.end() - run.end() };
        match (before.length > 0, after.length > 0) {
            (false, false) => {
                self.holes.remove(at);
            }
            (false, true) => self.holes[at] = after,
            (true, false) => self.holes[at] = before,
            (true, true) => {
                self.holes[at] = before;
                self.holes.insert(at + 1, after);
            }
        }
    }

    /// Puts `run` back, joined to the holes it touches.
    pub fn give(&mut self, run: Run) {
        let at = self.holes.partition_point(|hole| hole.start < run.start);
        let after = self.holes.get(at).filter(|hole| hole.start == run.end()).copied();
        let joins_before = at > 0 && self.holes[at - 1].end() == run.start;
        self.unchanged = self.unchanged.min(at - usize::from(joins_before));
        match (joins_before, after) {
            (true, Some(after)) => {
                self.holes[at - 1].length += run.length + after.length;
                self.holes.remove(at);
            }
            (true, None) => self.holes[at - 1].length += run.length,
            (false, Some(after)) => {
                self.holes[at] = Run { start: run.start, length: run.length + after.length };
            }
            (false, None) => self.holes.insert(at, run),
        }
    }
}
