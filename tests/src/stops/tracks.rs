//! That each track lies in exactly one extent, by four ways that are alike where sums are exact.

use super::{wrapped, Numbers, Place, Step, Sums};

/// How a program shows it.
#[derive(Clone, Copy, Debug, PartialEq, Eq, PartialOrd, Ord)]
pub enum Way {
    /// A bit for each track from the first to the last of an extent; one after the last is at most T.
    Map,
    /// A bit for each track from the first up to one after the last, if that is any.
    Ends,
    /// Each track is somewhere, and all lengths add up to T: one extent may lie in another.
    Total,
    /// As `Map`, but last tracks are compared with T − 1, and nothing is one after the last.
    LastTracks,
}

pub const WAYS: [Way; 4] = [Way::Map, Way::Ends, Way::Total, Way::LastTracks];

/// The tracks of a volume while its extents come in.
pub(super) struct Tracks {
    way: Way,
    volume: i64,
    map: Vec<bool>,
    total: i64,
}

fn must(holds: bool) -> Option<()> {
    holds.then_some(())
}

impl Tracks {
    pub(super) fn new(way: Way, volume: i64) -> Tracks {
        let mut map = vec![false; 65_536];
        map[0] = true;
        Tracks { way, volume, map, total: 1 }
    }

    /// Whether an extent with this end, or this last track, is on the volume.
    fn inside(&self, sums: &mut Sums, end: i64, last: i64) -> Option<()> {
        if self.way == Way::LastTracks {
            return must(last <= sums.keep((Place::Volume, Step::Difference), self.volume - 1)?);
        }
        must(end <= self.volume)
    }

    /// Marks `from` up to but not `to`. Where the lengths are added up, a track may be marked twice.
    fn mark(&mut self, from: i64, to: i64) -> Option<()> {
        for track in from..to {
            let marked = &mut self.map[track as usize];
            must(!*marked || self.way == Way::Total)?;
            *marked = true;
        }
        Some(())
    }

    fn add(&mut self, sums: &mut Sums, length: i64) -> Option<()> {
        if self.way == Way::Total {
            must(length >= 1)?;
            self.total = sums.keep((Place::Total, Step::Sum), self.total + length)?;
        }
        Some(())
    }

    /// The VTOC, from S, whose length was shown to be above 0 before.
    pub(super) fn vtoc(&mut self, sums: &mut Sums, start: i64, length: i64) -> Option<()> {
        let end = sums.keep((Place::Vtoc, Step::Sum), start + length)?;
        self.inside(sums, end, end - 1)?;
        self.mark(start, end)?;
        self.add(sums, length)
    }

    /// A data extent; its end where that was worked out, for the rule on types.
    pub(super) fn extent(&mut self, sums: &mut Sums, first: i64, last: i64) -> Option<i64> {
        if self.way != Way::Total {
            must(first <= last)?;
        }
        let mut end = last + 1;
        if self.way != Way::LastTracks {
            end = sums.keep((Place::Extent, Step::End), end)?;
        }
        self.inside(sums, end, last)?;
        if self.way == Way::Total {
            let length = sums.keep((Place::Extent, Step::Difference), end - first)?;
            self.add(sums, length)?;
        }
        self.mark(first, if self.way == Way::Ends { end } else { last + 1 })?;
        Some(end)
    }

    /// A free extent; its end, for the rule that no two touch.
    pub(super) fn entry(&mut self, sums: &mut Sums, start: i64, length: i64) -> Option<i64> {
        if self.way == Way::LastTracks {
            let last = sums.keep((Place::Entry, Step::End), start + length - 1)?;
            self.inside(sums, 0, last)?;
            self.mark(start, last + 1)?;
            return Some(last + 1);
        }
        let end = sums.keep((Place::Entry, Step::End), start + length)?;
        self.inside(sums, end, 0)?;
        self.add(sums, length)?;
        let by_last = self.way == Way::Map && sums.numbers != Numbers::Exact;
        self.mark(start, if by_last { wrapped(start + length - 1) + 1 } else { end })?;
        Some(end)
    }

    /// At the end: each track in one extent.
    pub(super) fn complete(&self, sums: &mut Sums) -> Option<()> {
        let last = match self.way {
            Way::LastTracks => sums.keep((Place::Volume, Step::Difference), self.volume - 1)?,
            _ => self.volume - 1,
        };
        must(self.way != Way::Total || self.total == self.volume)?;
        must((0..=last).all(|track| self.map[track as usize]))
    }
}
