//! Release and scratch, and their previews.

use super::{answered, lawful, lookup, sized, sound, tracks};
use crate::reference::data_set::DataSet;
use crate::reference::dates::{self, Packed, Stored};
use crate::reference::free::Run;
use crate::reference::layout::*;
use crate::reference::name::Name;
use crate::reference::volume::Volume;
use crate::reference::{records, records_mut, Refusal};

/// What a release keeps of a set, and what it gives back. The slots for that are not counted yet. As in
/// `grants`, what is shared with the preview is inlined.
struct Cut {
    set: DataSet,
    by_cylinders: bool,
    tracks_kept: u32,
    /// The extents that stay, and the last of them as it is then.
    stay: usize,
    last: Run,
}

impl Cut {
    #[inline(always)]
    fn new(volume: &Volume, records: &[Record], name: &Name, ttr: u32) -> Result<Cut, Refusal> {
        lawful(name)?;
        let slot = lookup(volume, records, name)?;
        let set = DataSet::read(volume, records, slot);
        let (wide, tt, r) = (ttr >> 24, ttr >> 8, ttr & 0xFF);
        if wide != 0 || tt >= set.tracks() || (r == 0 && tt > 0) {
            return Err(Refusal::Ttr);
        }

        let by_cylinders = records[slot][UNIT] == UNIT_CYLINDERS;
        let tracks_kept = match by_cylinders {
            true => set.whole_cylinders(tt + 1, volume.geometry.heads),
            false => tt + 1,
        };
        let (mut stay, mut last, mut rest) = (0, Run::default(), tracks_kept);
        while rest > 0 {
            let extent = set.extents()[stay];
            last = Run { length: rest.min(extent.length), ..extent };
            rest -= last.length;
            stay += 1;
        }
        Ok(Cut { set, by_cylinders, tracks_kept, stay, last })
    }

    /// The last extent that stays, where it gets shorter.
    fn shortened(&self) -> Option<Run> {
        (self.last != self.set.extents()[self.stay - 1]).then_some(self.last)
    }

    /// The slot of a format 3 that is needed no longer.
    fn freed_format_3(&self) -> Option<usize> {
        self.set.format_3.filter(|_| self.stay <= IN_FORMAT_1)
    }

    fn freed(&self) -> usize {
        usize::from(self.freed_format_3().is_some())
    }

    /// Puts the tracks back into the free list; refusal 11 unless the slots do then. The table is not
    /// touched yet.
    fn give(&self, volume: &mut Volume) -> Result<(), Refusal> {
        let (staying, going) = self.set.extents().split_at(self.stay);
        if let (Some(last), Some(before)) = (self.shortened(), staying.last()) {
            volume.free.give(Run { start: last.end(), length: before.length - last.length });
        }
        going.iter().for_each(|&extent| volume.free.give(extent));
        volume.slots_suffice(self.freed(), 0)
    }

    fn tracks_back(&self) -> u32 {
        self.set.tracks() - self.tracks_kept
    }
}

/// Keeps the first TT + 1 tracks of a set; a cylinder file also those that go on in the same cylinder.
/// Refusals in order: 2, 3, 4, 5, 12, 11.
pub fn release(table: &mut [u8], name: &[u8], ttr: u32, answer: &mut [u8]) -> u32 {
    answered(answer, || {
        let records = records_mut(table)?;
        let name: &Name = sized(name)?;
        let mut volume = sound(records)?;
        let cut = Cut::new(&volume, records, name, ttr)?;
        cut.give(&mut volume)?;
        write_release(&mut volume, records, &cut, ttr);
        Ok(tracks(cut.tracks_back()))
    })
}

fn write_release(volume: &mut Volume, records: &mut [Record], cut: &Cut, ttr: u32) {
    let Cut { set, stay, .. } = cut;
    volume.trim_chain(records);
    if let Some(run) = cut.shortened() {
        // A cylinder file is cut where a cylinder ends.
        let kind = if cut.by_cylinders { set.kind(records, stay - 1) } else { ANY_TRACKS };
        set.put(volume, records, stay - 1, kind, run);
    }
    (*stay..set.extents().len()).for_each(|e| set.clear(records, e));
    let record = &mut records[set.slot];
    record[EXTENT_COUNT] = *stay as u8;
    put24(record, LAST_BLOCK, ttr);
    if let Some(format_3) = cut.freed_format_3() {
        record[LINK..].fill(0);
        volume.free_slot(records, format_3);
    }
    volume.close(records);
}

/// What release would answer; its refusals.
pub fn preview_release(table: &[u8], name: &[u8], ttr: u32, answer: &mut [u8]) -> u32 {
    answered(answer, || {
        let records = records(table)?;
        let name: &Name = sized(name)?;
        let mut volume = sound(records)?;
        let cut = Cut::new(&volume, records, name, ttr)?;
        if !volume.has_slots_to_spare(cut.freed(), 0) {
            cut.give(&mut volume)?;
        }
        Ok(tracks(cut.tracks_back()))
    })
}

/// The set to remove, which must have expired unless that is overridden.
#[inline(always)]
fn condemned(
    volume: &Volume, records: &[Record], name: &Name, today: &Packed, overriding: u32,
) -> Result<DataSet, Refusal> {
    lawful(name)?;
    let today = dates::stored(today).ok_or(Refusal::Date)?;
    let slot = lookup(volume, records, name)?;
    if overriding == 0 && expiry_of(&records[slot]) > today {
        return Err(Refusal::Unexpired);
    }
    Ok(DataSet::read(volume, records, slot))
}

/// What stands where the expiry date is stored: of volumes from elsewhere any three bytes.
fn expiry_of(record: &Record) -> Stored {
    [record[EXPIRY], record[EXPIRY + 1], record[EXPIRY + 2]]
}

/// Removes a set. Refusals in order: 2, 3, 4, 14, 5, 13.
pub fn scratch(
    table: &mut [u8], name: &[u8], today: &[u8], overriding: u32, answer: &mut [u8],
) -> u32 {
    answered(answer, || {
        let records = records_mut(table)?;
        let (name, today): (&Name, &Packed) = (sized(name)?, sized(today)?);
        let mut volume = sound(records)?;
        let set = condemned(&volume, records, name, today, overriding)?;
        // No refusal 11: at most 16 new entries want one format 5, and a slot comes free.
        set.extents().iter().for_each(|&extent| volume.free.give(extent));
        volume.trim_chain(records);
        volume.free_slot(records, set.slot);
        if let Some(format_3) = set.format_3 {
            volume.free_slot(records, format_3);
        }
        volume.close(records);
        Ok(tracks(set.tracks()))
    })
}

/// What scratch would answer; its refusals.
pub fn preview_scratch(
    table: &[u8], name: &[u8], today: &[u8], overriding: u32, answer: &mut [u8],
) -> u32 {
    answered(answer, || {
        let records = records(table)?;
        let (name, today): (&Name, &Packed) = (sized(name)?, sized(today)?);
        let volume = sound(records)?;
        Ok(tracks(condemned(&volume, records, name, today, overriding)?.tracks()))
    })
}
