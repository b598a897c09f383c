//! A data set's labels: its format 1 and, above three extents, its format 3.

use super::free::Run;
use super::layout::*;
use super::volume::Volume;

pub struct DataSet {
    /// The slot of its format 1.
    pub slot: usize,
    /// The slot of its format 3.
    pub format_3: Option<usize>,
    extents: [Run; MAX_EXTENTS],
    count: usize,
}

impl DataSet {
    /// Reads the set of a sound table whose format 1 is at `slot`.
    pub fn read(volume: &Volume, records: &[Record], slot: usize) -> DataSet {
        let record = &records[slot];
        let mut set = DataSet {
            slot,
            format_3: volume.geometry.slot_at(link(record, LINK)),
            extents: [Run::default(); MAX_EXTENTS],
            count: usize::from(record[EXTENT_COUNT]).min(MAX_EXTENTS),
        };
        for e in 0..set.count {
            let (holder, at) = set.place(e);
            let heads = volume.geometry.heads;
            let record = &records[holder];
            let first = be16(record, at + 2) * heads + be16(record, at + 4);
            let last = be16(record, at + 6) * heads + be16(record, at + 8);
            set.extents[e] = Run { start: first, length: last + 1 - first };
        }
        set
    }

    /// A set with a format 1 and no extent yet.
    pub fn fresh(slot: usize) -> DataSet {
        DataSet { slot, format_3: None, extents: [Run::default(); MAX_EXTENTS], count: 0 }
    }

    pub fn extents(&self) -> &[Run] {
        &self.extents[..self.count]
    }

    pub fn tracks(&self) -> u32 {
        self.extents().iter().map(|extent| extent.length).sum()
    }

    /// The first `count` tracks, of which the set has as many, and those after them that go on from
    /// one to the next up to the end of the last one's cylinder: how many they are.
    pub fn whole_cylinders(&self, count: u32, heads: u32) -> u32 {
        let mut before = 0;
        let mut extents = self.extents().iter();
        for extent in extents.by_ref() {
            if count <= before + extent.length {
                let kept_end = extent.start + (count - before);
                let cylinder_end = kept_end.next_multiple_of(heads);
                // Where the extent ends inside the cylinder, the next one may go on from there.
                let mut end = extent.end();
                while end < cylinder_end {
                    match extents.next() {
                        Some(next) if next.start == end => end = next.end(),
                        _ => break,
                    }
                }
                return count + end.min(cylinder_end) - kept_end;
            }
            before += extent.length;
        }
        before
    }

    /// The type of extent `e`.
    pub fn kind(&self, records: &[Record], e: usize) -> u8 {
        let (holder, at) = self.place(e);
        records[holder][at]
    }

    /// The record and the byte in it where extent `e` lies.
    fn place(&self, e: usize) -> (usize, usize) {
        match self.format_3 {
            Some(slot) if e >= IN_FORMAT_1 => (slot, format_3_extent_at(e)),
            _ => (self.slot, format_1_extent_at(e)),
        }
    }

    /// Writes extent `e`.
    pub fn put(&self, volume: &Volume, records: &mut [Record], e: usize, kind: u8, run: Run) {
        let (holder, at) = self.place(e);
        records[holder][at..at + 10].copy_from_slice(&volume.extent_bytes(kind, e, run));
    }

    /// Zeroes extent `e`.
    pub fn clear(&self, records: &mut [Record], e: usize) {
        let (holder, at) = self.place(e);
        records[holder][at..at + 10].fill(0);
    }

    /// Whether `piece` begins on the track after the last one of the set's list.
    pub fn is_followed_by(&self, piece: Run) -> bool {
        self.extents().last().is_some_and(|last| last.end() == piece.start)
    }

    /// Lengthens the last extent by `piece`, which follows it. Its type stays X'81' only if the
    /// piece's is.
    pub fn lengthen(&mut self, volume: &Volume, records: &mut [Record], kind: u8, piece: Run) {
        let last = self.count - 1;
        self.extents[last].length += piece.length;
        let (holder, at) = self.place(last);
        let bytes = &mut records[holder][at..at + 10];
        if kind != WHOLE_CYLINDERS {
            bytes[0] = ANY_TRACKS;
        }
        bytes[6..].copy_from_slice(&volume.geometry.cchh(piece.end() - 1));
    }

    /// Appends `pieces`; a format 3 they need must have been attached.
    pub fn append(&mut self, volume: &Volume, records: &mut [Record], kind: u8, pieces: &[Run]) {
        for &piece in pieces {
            self.put(volume, records, self.count, kind, piece);
            self.extents[self.count] = piece;
            self.count += 1;
        }
        records[self.slot][EXTENT_COUNT] = self.count as u8;
    }

    /// Makes `slot` the set's empty format 3.
    pub fn attach_format_3(&mut self, volume: &Volume, records: &mut [Record], slot: usize) {
        self.format_3 = Some(slot);
        let record = &mut records[slot];
        *record = FORMAT_0;
        record[..4].fill(0x03);
        record[FORMAT] = FORMAT_3;
        records[self.slot][LINK..].copy_from_slice(&volume.geometry.address(slot));
    }
}
