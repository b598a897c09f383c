//! Choosing the pieces of a grant from the free list.

use super::free::{FreeList, Run};

/// The most pieces of one grant.
pub const MAX_PIECES: usize = 5;

/// The pieces granted, in the order taken.
#[derive(Clone, Copy, Debug, Default)]
pub struct Grant {
    pieces: [Run; MAX_PIECES],
    count: usize,
}

impl Grant {
    pub fn one(piece: Run) -> Grant {
        let mut grant = Grant::default();
        grant.push(piece);
        grant
    }

    pub fn pieces(&self) -> &[Run] {
        &self.pieces[..self.count]
    }

    pub fn tracks(&self) -> u32 {
        self.pieces().iter().map(|piece| piece.length).sum()
    }

    /// A grant counted in units of so many tracks, in tracks.
    fn times(mut self, unit: u32) -> Grant {
        for piece in &mut self.pieces[..self.count] {
            *piece = Run { start: piece.start * unit, length: piece.length * unit };
        }
        self
    }

    fn push(&mut self, piece: Run) {
        self.pieces[self.count] = piece;
        self.count += 1;
    }
}

/// How candidates are chosen. "OS jobs pass three space options with a track or cylinder amount"
/// (document 02).
#[derive(Clone, Copy, Debug, PartialEq, Eq)]
pub enum SpaceOption {
    None,
    Contig,
    Mxig,
    Alx,
}

impl SpaceOption {
    pub fn numbered(number: u32) -> Option<SpaceOption> {
        match number {
            0 => Some(SpaceOption::None),
            1 => Some(SpaceOption::Contig),
            2 => Some(SpaceOption::Mxig),
            3 => Some(SpaceOption::Alx),
            _ => None,
        }
    }
}

/// Tracks: every hole is a candidate.
pub fn tracks(free: &FreeList, amount: u32, option: SpaceOption) -> Option<Grant> {
    choose(free.holes().iter().copied(), amount, option, 1)
}

/// Cylinders: the whole cylinders inside a hole are a candidate, where there are any.
/// A length of so many times H is not enough: the hole may begin inside a cylinder.
pub fn cylinders(free: &FreeList, heads: u32, amount: u32, option: SpaceOption) -> Option<Grant> {
    let whole = |hole: &Run| {
        // Most holes of a worn volume are too short; they cost no division.
        if hole.length < heads {
            return None;
        }
        let (first, end) = (hole.start.div_ceil(heads), hole.end() / heads);
        (first < end).then(|| Run { start: first, length: end - first })
    };
    choose(free.holes().iter().filter_map(whole), amount, option, heads)
}

/// Exactly these tracks.
pub fn absolute(free: &FreeList, run: Run) -> Option<Grant> {
    free.holding(run).map(|_| Grant::one(run))
}

/// The rule for any unit. Candidates come by ascending start and count in units of `unit`
/// tracks, so among equals the first seen is the one to take.
fn choose(
    candidates: impl Iterator<Item = Run>, amount: u32, option: SpaceOption, unit: u32,
) -> Option<Grant> {
    let in_units = match option {
        SpaceOption::None => one_or_several(candidates, amount),
        SpaceOption::Contig => contig(candidates, amount),
        SpaceOption::Mxig => mxig(candidates, amount),
        SpaceOption::Alx => alx(candidates, amount),
    };
    in_units.map(|grant| grant.times(unit))
}

/// The first part of the shortest that fits; where none fits, the longest in turn.
fn one_or_several(candidates: impl Iterator<Item = Run>, amount: u32) -> Option<Grant> {
    let mut shortest_fit: Option<Run> = None;
    let mut longest = Longest::default();
    for candidate in candidates {
        if candidate.length >= amount {
            if shortest_fit.is_none_or(|best| candidate.length < best.length) {
                shortest_fit = Some(candidate);
            }
        } else if shortest_fit.is_none() {
            longest.offer(candidate);
        }
    }
    if let Some(best) = shortest_fit {
        return Some(Grant::one(Run { length: amount, ..best }));
    }
    let mut grant = Grant::default();
    let mut rest = amount;
    for &candidate in longest.runs() {
        let part = rest.min(candidate.length);
        grant.push(Run { length: part, ..candidate });
        rest -= part;
        if rest == 0 {
            return Some(grant);
        }
    }
    None
}

/// "Only a candidate at least as long as the amount, by the rule for one piece."
fn contig(candidates: impl Iterator<Item = Run>, amount: u32) -> Option<Grant> {
    let mut shortest_fit: Option<Run> = None;
    for candidate in candidates.filter(|candidate| candidate.length >= amount) {
        if shortest_fit.is_none_or(|best| candidate.length < best.length) {
            shortest_fit = Some(candidate);
        }
    }
    shortest_fit.map(|best| Grant::one(Run { length: amount, ..best }))
}

/// "The longest candidate whole, if it is at least the amount."
fn mxig(candidates: impl Iterator<Item = Run>, amount: u32) -> Option<Grant> {
    let mut longest = Run::default();
    for candidate in candidates {
        if candidate.length > longest.length {
            longest = candidate;
        }
    }
    (longest.length >= amount).then(|| Grant::one(longest))
}

/// "Every candidate that is at least the amount, whole, longest first; of more than five, the five
/// longest."
fn alx(candidates: impl Iterator<Item = Run>, amount: u32) -> Option<Grant> {
    let mut longest = Longest::default();
    candidates.filter(|candidate| candidate.length >= amount).for_each(|run| longest.offer(run));
    let mut grant = Grant::default();
    longest.runs().iter().for_each(|&run| grant.push(run));
    (grant.count > 0).then_some(grant)
}

/// The five longest candidates so far, longest first, the earlier first among equals.
#[derive(Default)]
struct Longest {
    runs: [Run; MAX_PIECES],
    count: usize,
}

impl Longest {
    fn runs(&self) -> &[Run] {
        &self.runs[..self.count]
    }

    #[inline]
    fn offer(&mut self, run: Run) {
        if self.count == MAX_PIECES && run.length <= self.runs[MAX_PIECES - 1].length {
            return;
        }
        let at = self.runs().iter().take_while(|held| held.length >= run.length).count();
        self.count = (self.count + 1).min(MAX_PIECES);
        self.runs[at..self.count].rotate_right(1);
        self.runs[at] = run;
    }
}
