//! What the check found, and how a call writes its changes back.

use super::free::{FreeList, Run};
use super::geometry::Geometry;
use super::layout::*;
use super::name::NameIndex;
use super::sets::SlotSet;
use super::Refusal;

pub struct Volume {
    pub geometry: Geometry,
    /// The entries of the chain.
    pub free: FreeList,
    /// The slots of the format 5s, in the chain's order.
    pub chain: Vec<u16>,
    /// The format 0s.
    pub open: SlotSet,
    /// The format 1s.
    pub sets: SlotSet,
    pub names: NameIndex,
}

impl Volume {
    /// Nothing known yet but the geometry.
    pub fn empty(geometry: Geometry) -> Volume {
        Volume {
            geometry,
            free: FreeList::with_capacity(ENTRIES),
            chain: Vec::with_capacity(4),
            open: SlotSet::new(),
            sets: SlotSet::new(),
            names: NameIndex::new(),
        }
    }

    /// Bytes 45 to 51 of the format 4: the highest format 1 and the number of format 0s.
    pub fn totals(&self) -> [u8; 7] {
        let mut bytes = [0; 7];
        if let Some(slot) = self.sets.highest() {
            bytes[..5].copy_from_slice(&self.geometry.address(slot));
        }
        put16(&mut bytes, 5, self.open.len() as u32);
        bytes
    }

    /// Refusal 11 unless the slots do. `freed` and `wanted` count format 1s and 3s; the
    /// format 5s follow from the free list, which must be as after the call.
    pub fn slots_suffice(&self, freed: usize, wanted: usize) -> Result<(), Refusal> {
        let (have, need) = (self.chain.len(), self.free.members());
        let supply = self.open.len() + freed + have.saturating_sub(need);
        let demand = wanted + need.saturating_sub(have);
        if supply < demand {
            return Err(Refusal::VtocFull);
        }
        Ok(())
    }

    /// Whether they do whatever becomes of the free list: no call adds more than 16 entries to it,
    /// which want one format 5 at most. A preview that has these slots need not edit the list.
    pub fn has_slots_to_spare(&self, freed: usize, wanted: usize) -> bool {
        self.open.len() + freed > wanted
    }

    /// Frees the format 5s no longer needed, from the chain's end. Comes before
    /// `take_slot`, for these slots may be taken again.
    pub fn trim_chain(&mut self, records: &mut [Record]) {
        while self.chain.len() > self.free.members() {
            if let Some(slot) = self.chain.pop() {
                self.free_slot(records, usize::from(slot));
            }
        }
    }

    /// Makes `slot` a format 0.
    pub fn free_slot(&mut self, records: &mut [Record], slot: usize) {
        records[slot] = FORMAT_0;
        self.open.insert(slot);
        self.sets.remove(slot);
    }

    /// The lowest free slot, taken. Only after `slots_suffice`.
    pub fn take_slot(&mut self) -> usize {
        let slot = self.open.lowest().expect("slots_suffice has counted this slot");
        self.open.remove(slot);
        slot
    }

    /// The last step of every call that moves tracks: adds the format 5s needed, writes
    /// the entries that changed, and brings the format 4 up to date.
    pub fn close(&mut self, records: &mut [Record]) {
        // The last format 5 that stays gets a new link where the chain grew or was cut.
        let stays = self.chain.len().min(self.free.members());
        while self.chain.len() < self.free.members() {
            let slot = self.take_slot();
            self.chain.push(slot as u16);
        }
        let first = (self.free.unchanged() / ENTRIES).min(stays.saturating_sub(1));
        for member in first..self.chain.len() {
            self.write_format_5(records, member);
        }
        records[0][45..52].copy_from_slice(&self.totals());
    }

    fn write_format_5(&self, records: &mut [Record], member: usize) {
        let record = &mut records[usize::from(self.chain[member])];
        *record = FORMAT_0;
        record[..4].fill(0x05);
        record[FORMAT] = FORMAT_5;
        let heads = self.geometry.heads;
        let entries = self.free.holes().iter().skip(member * ENTRIES).take(ENTRIES);
        for (i, hole) in entries.enumerate() {
            // Most holes of a worn volume are short; they cost no division.
            let (cylinders, odd) = match hole.length {
                short if short < heads => (0, short),
                length => (length / heads, length % heads),
            };
            let at = entry_at(i);
            put16(record, at, hole.start);
            put16(record, at + 2, cylinders);
            record[at + 4] = odd as u8;
        }
        if let Some(&next) = self.chain.get(member + 1) {
            record[LINK..].copy_from_slice(&self.geometry.address(usize::from(next)));
        }
    }

    /// The ten bytes of an extent.
    pub fn extent_bytes(&self, kind: u8, number: usize, run: Run) -> [u8; 10] {
        let [a, b, c, d] = self.geometry.cchh(run.start);
        let [e, f, g, h] = self.geometry.cchh(run.end() - 1);
        [kind, number as u8, a, b, c, d, e, f, g, h]
    }
}
