//! When a table is taken: each rule, straight on the bytes.

use super::free::{FreeList, Run};
use super::geometry::Geometry;
use super::layout::*;
use super::name::{name_of, obeys};
use super::sets::{SlotSet, TrackMap};
use super::volume::Volume;

/// A rule that must hold; `?` on it leaves the check with "not taken".
#[inline]
fn must(holds: bool) -> Option<()> {
    holds.then_some(())
}

/// Whether all bytes equal `value`. Without an early exit this runs many bytes at a time.
#[inline]
fn all(bytes: &[u8], value: u8) -> bool {
    bytes.iter().fold(0, |unlike, &byte| unlike | (byte ^ value)) == 0
}

/// Whether the bytes from `at` up to `end` are zero, but for byte 44 where it lies between.
#[inline]
fn unused(record: &Record, at: usize, end: usize) -> bool {
    all(&record[at.min(FORMAT)..FORMAT], 0) && all(&record[at.max(FORMAT + 1)..end], 0)
}

/// The volume that a sound table describes, nothing for any other table.
pub fn volume(records: &[Record]) -> Option<Volume> {
    let geometry = format_4(records)?;
    let tracks = geometry.tracks();
    let mut check = Check {
        records,
        geometry,
        tracks,
        map: TrackMap::new(tracks),
        unclaimed: tracks,
        chain_slots: SlotSet::new(),
        named_format_3s: SlotSet::new(),
    };
    check.claim(0, 0)?;
    check.claim(geometry.vtoc_start, geometry.vtoc_end() - 1)?;

    let mut volume = Volume::empty(geometry);
    check.chain(&mut volume)?;
    check.other_slots(&mut volume)?;
    // Claimed without overlap, and none left: each track lies in exactly one place.
    must(check.unclaimed == 0)?;
    must(volume.totals() == records[0][45..52])?;
    Some(volume)
}

/// Slot 0 but for bytes 45 to 51, which speak of the other slots.
fn format_4(records: &[Record]) -> Option<Geometry> {
    let record = &records[0];
    must(all(&record[..44], 0x04) && record[FORMAT] == FORMAT_4)?;
    must(all(&record[52..59], 0) && record[59] == 0x01 && all(&record[60..62], 0))?;
    must(all(&record[66..74], 0) && all(&record[75..105], 0) && all(&record[115..], 0))?;

    let (c, h, d) = (be16(record, 62), be16(record, 64), u32::from(record[74]));
    must(record[105] == ANY_TRACKS && record[106] == 0)?;
    let (first_hh, last_hh) = (be16(record, 109), be16(record, 113));
    must(first_hh < h && last_hh < h)?;
    let first = be16(record, 107) * h + first_hh;
    let last = be16(record, 111) * h + last_hh;
    must(first <= last)?;
    // first ≤ last makes the VTOC at least one track; the limits do the rest.
    let geometry = Geometry::new(c, h, d, first, last - first + 1)?;
    must(geometry.slots() == records.len())?;
    Some(geometry)
}

struct Check<'a> {
    records: &'a [Record],
    geometry: Geometry,
    /// T, kept since each extent needs it.
    tracks: u32,
    map: TrackMap,
    unclaimed: u32,
    chain_slots: SlotSet,
    named_format_3s: SlotSet,
}

impl Check<'_> {
    /// Claims `first` to `last`, which must be tracks of the volume.
    #[inline]
    fn claim(&mut self, first: u32, last: u32) -> Option<()> {
        must(first <= last && last < self.tracks)?;
        must(self.map.claim(first, last))?;
        self.unclaimed -= last - first + 1;
        Some(())
    }

    /// The format 5 chain, from slot 1 on.
    fn chain(&mut self, volume: &mut Volume) -> Option<()> {
        let mut slot = 1;
        loop {
            let record = &self.records[slot];
            must(all(&record[..4], 0x05) && record[FORMAT] == FORMAT_5)?;
            must(self.chain_slots.insert(slot))?;
            volume.chain.push(slot as u16);
            let filled = self.entries(record, &mut volume.free)?;
            let next = link(record, LINK);
            if next == [0; 5] {
                // Only the first may be empty: then nothing is free.
                return must(filled > 0 || slot == 1);
            }
            must(filled == ENTRIES)?;
            slot = self.geometry.slot_at(next)?;
        }
    }

    /// The entries of one format 5, filled from the front; answers how many there are.
    #[inline]
    fn entries(&mut self, record: &Record, free: &mut FreeList) -> Option<usize> {
        let heads = self.geometry.heads;
        let (front, back) =
            (record[4..FORMAT].as_chunks().0, record[FORMAT + 1..LINK].as_chunks().0);
        for (i, &[s1, s2, c1, c2, odd]) in front.iter().chain(back).enumerate() {
            let start = u32::from_be_bytes([0, 0, s1, s2]);
            let cylinders = u32::from_be_bytes([0, 0, c1, c2]);
            let odd = u32::from(odd);
            if start | cylinders | odd == 0 {
                must(unused(record, entry_at(i), LINK))?;
                return Some(i);
            }
            let length = cylinders * heads + odd;
            must(odd < heads && length > 0)?;
            self.claim(start, start + length - 1)?;
            must(free.read(Run { start, length }))?;
        }
        Some(ENTRIES)
    }

    /// Every slot that is neither the format 4 nor in the chain.
    fn other_slots(&mut self, volume: &mut Volume) -> Option<()> {
        let mut format_3s = SlotSet::new();
        for (slot, record) in self.records.iter().enumerate().skip(1) {
            match record[FORMAT] {
                FORMAT_1 => {
                    self.format_1(record)?;
                    volume.sets.insert(slot);
                    must(volume.names.insert(self.records, slot))?;
                }
                FORMAT_3 => {
                    format_3s.insert(slot);
                }
                FORMAT_5 => must(self.chain_slots.contains(slot))?,
                _ => {
                    must(*record == FORMAT_0)?;
                    volume.open.insert(slot);
                }
            }
        }
        // None is named twice (see format_3), so equal sets mean: each by exactly one.
        must(format_3s == self.named_format_3s)
    }

    fn format_1(&mut self, record: &Record) -> Option<()> {
        must(obeys(name_of(record)))?;
        let secondary = be24(record, SECONDARY);
        must(match record[UNIT] {
            UNIT_TRACKS | UNIT_CYLINDERS => true,
            UNIT_ABSOLUTE => secondary == 0,
            _ => false,
        })?;
        let count = usize::from(record[EXTENT_COUNT]);
        must((1..=MAX_EXTENTS).contains(&count))?;
        for e in 0..count.min(IN_FORMAT_1) {
            self.extent(record, format_1_extent_at(e), e)?;
        }
        if count > IN_FORMAT_1 {
            let slot = self.geometry.slot_at(link(record, LINK))?;
            return self.format_3(slot, count);
        }
        must(all(&record[format_1_extent_at(count)..], 0))
    }

    /// The format 3 of a set with `count` extents.
    fn format_3(&mut self, slot: usize, count: usize) -> Option<()> {
        let record = &self.records[slot];
        must(all(&record[..4], 0x03) && record[FORMAT] == FORMAT_3)?;
        must(self.named_format_3s.insert(slot))?;
        for e in IN_FORMAT_1..count {
            self.extent(record, format_3_extent_at(e), e)?;
        }
        // To the record's end, for no field of a format 3 names bytes 135 to 139.
        must(unused(record, format_3_extent_at(count), RECORD))
    }

    /// The extent at `at`, which must have number `e`.
    #[inline]
    fn extent(&mut self, record: &Record, at: usize, e: usize) -> Option<()> {
        let bytes: &[u8; 10] = record[at..].first_chunk()?;
        let [kind, number, ends @ ..] = *bytes;
        // CC, HH, CC, HH of the first and the last track in one load.
        let ends = u64::from_be_bytes(ends);
        let field = |shift: u32| (ends >> shift) as u32 & 0xFFFF;
        let (first_hh, last_hh) = (field(32), field(0));
        let heads = self.geometry.heads;
        must(usize::from(number) == e && first_hh < heads && last_hh < heads)?;
        must(match kind {
            ANY_TRACKS => true,
            WHOLE_CYLINDERS => first_hh == 0 && last_hh == heads - 1,
            _ => false,
        })?;
        self.claim(field(48) * heads + first_hh, field(16) * heads + last_hh)
    }
}
