//! What an extend gives, slowly and by lists of tracks: document 01's "Granting" and document 02, [6].

use std::cmp::Reverse;

use super::{runs, Extent, Picture, Set};

/// What an extend gives a set.
#[derive(Clone, Debug, PartialEq, Eq)]
pub struct Growth {
    /// Start and count of each piece.
    pub pieces: Vec<(u32, u32)>,
    /// The set's extents after it.
    pub extents: Vec<Extent>,
}

/// One track of a set's list, with the type of the extent or piece that it comes from.
struct Listed {
    track: u32,
    kind: u8,
    begins_extent: bool,
}

impl Picture {
    /// What an extend of this name gives, or its refusal from 5 on.
    pub fn extend(&self, name: &[u8]) -> Result<Growth, u32> {
        let set = self.sets.iter().find(|set| set.name == *name).ok_or(5u32)?;
        if set.secondary() == 0 {
            return Err(8);
        }
        let pieces = self.pieces(set).ok_or(9u32)?;
        let kind = if set.unit() == 0xC0 { 0x81 } else { 0x01 };
        let extents = grown(set, kind, &pieces);
        if extents.len() > 16 {
            return Err(10);
        }
        let needs_format_3 = usize::from(extents.len() > 3 && set.format_3.is_none());
        if self.members_without(&pieces) + needs_format_3 > self.chain.len() + self.format_0s {
            return Err(11);
        }
        Ok(Growth { pieces, extents })
    }

    /// The pieces that an extend of this set takes, whether or not extents or slots are too few.
    pub fn pieces(&self, set: &Set) -> Option<Vec<(u32, u32)>> {
        let unit = if set.unit() == 0xC0 { self.h } else { 1 };
        let units = chosen(&self.candidates(unit), set.secondary())?;
        Some(units.iter().map(|&(at, count)| (at * unit, count * unit)).collect())
    }

    /// Runs of free units (tracks or whole cylinders), start and count in units: the whole cylinders of
    /// a free extent are one run, since free extents do not touch.
    fn candidates(&self, unit: u32) -> Vec<(u32, u32)> {
        let is_free = self.free_tracks();
        let whole = is_free.chunks_exact(unit as usize).enumerate();
        runs(whole.filter(|(_, tracks)| !tracks.contains(&false)).map(|(at, _)| at as u32))
    }

    /// The format 5s needed once these pieces are taken.
    fn members_without(&self, pieces: &[(u32, u32)]) -> usize {
        let mut is_free = self.free_tracks();
        let taken = pieces.iter().flat_map(|&(start, count)| start..start + count);
        taken.for_each(|track| is_free[track as usize] = false);
        let left = (0..self.c * self.h).filter(|&track| is_free[track as usize]);
        runs(left).len().div_ceil(26).max(1)
    }

    fn free_tracks(&self) -> Vec<bool> {
        let mut is_free = vec![false; (self.c * self.h) as usize];
        let free = self.free.iter().flat_map(|&(start, count)| start..start + count);
        free.for_each(|track| is_free[track as usize] = true);
        is_free
    }
}

/// "If one is at least as long as the amount: the shortest such, lowest start on ties, and its first
/// part. Otherwise take whole candidates, longest first, lowest start on ties, until the rest fits the
/// next, which gives its first part. At most five."
fn chosen(candidates: &[(u32, u32)], amount: u32) -> Option<Vec<(u32, u32)>> {
    let serving = candidates.iter().filter(|&&(_, count)| count >= amount);
    if let Some(&(start, _)) = serving.min_by_key(|&&(start, count)| (count, start)) {
        return Some(vec![(start, amount)]);
    }
    let mut longest = candidates.to_vec();
    longest.sort_by_key(|&(start, count)| (Reverse(count), start));
    let mut units = longest.into_iter().take(5).flat_map(|(start, count)| start..start + count);
    let mut pieces: Vec<(u32, u32)> = vec![];
    for _ in 0..amount {
        let at = units.next()?;
        match pieces.last_mut() {
            Some((start, count)) if *start + *count == at => *count += 1,
            _ => pieces.push((at, 1)),
        }
    }
    Some(pieces)
}

/// The extents of the set with these pieces of a type. "If the first piece of an extend begins on the
/// track after the set's last one, that last extent is lengthened instead. Its type stays X'81' only if
/// the piece is X'81' too."
fn grown(set: &Set, kind: u8, pieces: &[(u32, u32)]) -> Vec<Extent> {
    let listed = |kind: u8, first: u32, last: u32| {
        (first..=last).map(move |track| Listed { track, kind, begins_extent: track == first })
    };
    let mut list: Vec<Listed> =
        set.extents.iter().flat_map(|&(kind, first, last)| listed(kind, first, last)).collect();
    let before = list.len();
    list.extend(pieces.iter().flat_map(|&(start, count)| listed(kind, start, start + count - 1)));
    if list[before].track == list[before - 1].track + 1 {
        list[before].begins_extent = false;
    }
    let extents = list.chunk_by(|_, next| !next.begins_extent);
    extents
        .map(|tracks| {
            let whole = tracks.iter().all(|listed| listed.kind == 0x81);
            let (first, last) = (&tracks[0], &tracks[tracks.len() - 1]);
            (if whole { 0x81 } else { 0x01 }, first.track, last.track)
        })
        .collect()
}
