//! Free extents whose lengths are others, the same modulo 65,536, and such as end after the volume.

use super::{digits, Half, Length, Patient};
use crate::reference::layout::{entry_at, ENTRIES, RECORD};

impl Half {
    fn holds(self, i: usize) -> bool {
        (i < 8) == (self == Half::Front)
    }
}

impl Patient<'_> {
    /// Where the used entries lie, with their numbers in their format 5, by start.
    fn entries(&self) -> Vec<(usize, usize)> {
        let of = |&slot: &usize| (0..ENTRIES).map(move |i| (slot * RECORD + entry_at(i), i));
        let mut places: Vec<_> = self.glance.format_5s.iter().flat_map(of).collect();
        places.retain(|&(at, _)| self.table[at..at + 5] != [0; 5]);
        places.sort_by_key(|&(at, _)| self.word(at));
        places
    }

    fn length(&self, at: usize) -> u32 {
        self.word(at + 2) * self.heads() + u32::from(self.table[at + 4])
    }

    fn put_entry(&mut self, at: usize, start: u32, (cylinders, odd): (u32, u32)) {
        self.put(at, start);
        self.put(at + 2, cylinders);
        self.table[at + 4] = u8::try_from(odd).expect("a byte");
    }

    pub(super) fn entry(&mut self, half: Half, length: Length) -> Option<()> {
        let mut places = self.entries();
        places.retain(|&(_, i)| half.holds(i));
        let &(at, _) = self.rng.pick(&places)?;
        let (start, right, h) = (self.word(at), self.length(at), self.heads());
        let told = match length {
            Length::Wrapped => digits::below(self.rng, right, h)?,
            Length::WrappedOdd => digits::wide(self.rng, right, h, 255)?,
            Length::RightOdd => digits::moved(self.rng, right, h, 255)?,
        };
        self.put_entry(at, start, told);
        Some(())
    }

    /// The free extent up to track 65,534 gets one track more.
    pub(super) fn entry_one_too_far(&mut self) -> Option<()> {
        let &(at, _) = self.entries().last()?;
        let (start, length, h) = (self.word(at), self.length(at) + 1, self.heads());
        (start + length == 65_536).then(|| self.put_entry(at, start, (length / h, length % h)))
    }

    /// Where one more entry goes, and where the last free extent ends.
    fn next_entry(&self) -> Option<(usize, u32)> {
        let &(at, i) = self.entries().last()?;
        let end = self.word(at) + self.length(at);
        (i + 1 < ENTRIES).then(|| (at - entry_at(i) + entry_at(i + 1), end))
    }

    /// 65,536 tracks look like none; they claim no track and touch no other free extent.
    pub(super) fn entry_of_65536(&mut self) -> Option<()> {
        let (h, tracks) = (self.heads(), self.glance.geometry.tracks());
        let (at, end) = self.next_entry().filter(|&(_, end)| h > 1 && end < tracks)?;
        let start = self.rng.range(end + 1, tracks);
        self.put_entry(at, start, (65_536 / h, 65_536 % h));
        Some(())
    }

    /// The end is on the volume again, before the start: from the one to the other there is no track.
    pub(super) fn entry_past_the_end(&mut self) -> Option<()> {
        let (at, end) = self.next_entry().filter(|&(_, end)| end < 65_535)?;
        let start = self.rng.range(end + 1, 65_535);
        let most = self.glance.geometry.tracks().min(start - 1);
        let length = 65_536 - start + self.rng.range(1, most);
        let h = self.heads();
        self.put_entry(at, start, (length / h, length % h));
        Some(())
    }
}
