//! A table written from numbers that need not be sound.

use crate::reference::layout::{
    entry_at, extent_part, format_1_extent_at, format_3_extent_at, ENTRIES, RECORD,
};
use crate::volumes::name;

/// First and last track of an extent.
pub type Ends = (u32, u32);

pub struct Draft {
    pub c: u32,
    pub h: u32,
    pub d: u32,
    /// N, whatever V × D may be.
    pub slots: usize,
    pub vtoc: Ends,
    /// Extents of one set after another, sixteen to each; three or fewer have no format 3.
    pub extents: Vec<Ends>,
    /// Start and length.
    pub free: Vec<(u32, u32)>,
}

/// CCHH of a track, which may be of more than sixteen bits.
fn cchh(track: u32, h: u32) -> [u8; 4] {
    let word = |value: u32| u16::try_from(value).expect("two bytes").to_be_bytes();
    let ([c1, c2], [h1, h2]) = (word(track / h), word(track % h));
    [c1, c2, h1, h2]
}

impl Draft {
    /// The table, where its slots are enough: labels from slot 2 on.
    pub fn table(&self) -> Option<Vec<u8>> {
        let mut records = vec![self.format_4(), self.format_5()?];
        let mut highest = 0;
        for (i, extents) in self.extents.chunks(16).enumerate() {
            highest = records.len();
            let format_3 = highest + 1;
            records.extend(self.labels(i, extents, format_3));
        }
        let free = self.slots.checked_sub(records.len())?;
        if highest > 0 {
            records[0][45..50].copy_from_slice(&self.address(highest));
        }
        records[0][50..52].copy_from_slice(&(free as u16).to_be_bytes());
        records.resize(self.slots, [0; RECORD]);
        Some(records.concat())
    }

    fn address(&self, slot: usize) -> [u8; 5] {
        let track = self.vtoc.0 + slot as u32 / self.d;
        let [c1, c2, h1, h2] = cchh(track, self.h);
        [c1, c2, h1, h2, (slot as u32 % self.d + 1) as u8]
    }

    fn extent(&self, number: usize, (first, last): Ends) -> Vec<u8> {
        [&[0x01, number as u8][..], &cchh(first, self.h), &cchh(last, self.h)].concat()
    }

    fn format_4(&self) -> [u8; RECORD] {
        let mut record = [0; RECORD];
        record[..44].fill(0x04);
        (record[44], record[59], record[74]) = (0xF4, 0x01, self.d as u8);
        record[62..64].copy_from_slice(&(self.c as u16).to_be_bytes());
        record[64..66].copy_from_slice(&(self.h as u16).to_be_bytes());
        record[105..115].copy_from_slice(&self.extent(0, self.vtoc));
        record
    }

    fn format_5(&self) -> Option<[u8; RECORD]> {
        let mut record = [0; RECORD];
        record[..4].fill(0x05);
        record[44] = 0xF5;
        for (i, &(start, length)) in self.free.iter().enumerate() {
            let at = entry_at(i);
            record[at..at + 2].copy_from_slice(&(start as u16).to_be_bytes());
            record[at + 2..at + 4].copy_from_slice(&((length / self.h) as u16).to_be_bytes());
            record[at + 4] = (length % self.h) as u8;
        }
        (self.free.len() <= ENTRIES).then_some(record)
    }

    /// The format 1 of the set with this number and, where it needs one, its format 3.
    fn labels(&self, number: usize, extents: &[Ends], format_3: usize) -> Vec<[u8; RECORD]> {
        let (mut one, mut three) = ([0; RECORD], [0; RECORD]);
        one[..44].copy_from_slice(&name(&format!("DRAFT.N{number}")));
        (one[44], one[59], one[94]) = (0xF1, extents.len() as u8, 0x80);
        three[..4].fill(0x03);
        three[44] = 0xF3;
        for (e, &ends) in extents.iter().enumerate() {
            let (record, at) = match e {
                0..3 => (&mut one, format_1_extent_at(e)),
                _ => (&mut three, format_3_extent_at(e)),
            };
            record[at..at + 10].copy_from_slice(&self.extent(e, ends));
        }
        if extents.len() <= 3 {
            return vec![one];
        }
        one[135..].copy_from_slice(&self.address(format_3));
        debug_assert_eq!(extent_part(&one, &three, 3)[1], 3);
        vec![one, three]
    }
}
