//! Allocate and extend, and their previews.

use super::{answered, granted, lawful, lookup, sized, sound, Answer};
use crate::reference::data_set::DataSet;
use crate::reference::dates::{self, Packed, Stored};
use crate::reference::free::Run;
use crate::reference::grant::{self, Grant, SpaceOption};
use crate::reference::layout::*;
use crate::reference::name::Name;
use crate::reference::volume::Volume;
use crate::reference::{records, records_mut, Refusal};

const MOST_PRIMARY: u32 = 65_535;
const MOST_SECONDARY: u32 = 0xFF_FFFF;

/// The numbers of an allocate, as they are handed over.
#[derive(Clone, Copy)]
struct Numbers {
    kind: u32,
    start: u32,
    amount: u32,
    secondary: u32,
    option: u32,
}

/// What an allocate asks for, its numbers in their ranges. An absolute one has no option.
#[derive(Clone, Copy)]
enum Amount {
    Tracks(u32, SpaceOption),
    Cylinders(u32, SpaceOption),
    Absolute(Run),
}

impl Amount {
    fn judge(volume: &Volume, numbers: Numbers) -> Result<Amount, Refusal> {
        let Numbers { kind, start, amount, secondary, option } = numbers;
        let option = SpaceOption::numbered(option).ok_or(Refusal::Amount)?;
        let in_range = (1..=MOST_PRIMARY).contains(&amount) && secondary <= MOST_SECONDARY;
        match kind {
            0 if in_range => Ok(Amount::Tracks(amount, option)),
            1 if in_range => Ok(Amount::Cylinders(amount, option)),
            2 => {
                let end = u64::from(start) + u64::from(amount);
                let past = end > u64::from(volume.geometry.tracks());
                if amount == 0 || past || secondary != 0 || option != SpaceOption::None {
                    return Err(Refusal::Amount);
                }
                Ok(Amount::Absolute(Run { start, length: amount }))
            }
            _ => Err(Refusal::Amount),
        }
    }

    fn choose(self, volume: &Volume) -> Result<Grant, Refusal> {
        match self {
            Amount::Tracks(n, option) => grant::tracks(&volume.free, n, option),
            Amount::Cylinders(n, option) => {
                grant::cylinders(&volume.free, volume.geometry.heads, n, option)
            }
            Amount::Absolute(run) => grant::absolute(&volume.free, run),
        }
        .ok_or(Refusal::NoSpace)
    }

    fn unit(self) -> u8 {
        match self {
            Amount::Tracks(..) => UNIT_TRACKS,
            Amount::Cylinders(..) => UNIT_CYLINDERS,
            Amount::Absolute(_) => UNIT_ABSOLUTE,
        }
    }

    fn extent_type(self) -> u8 {
        match self {
            Amount::Cylinders(..) => WHOLE_CYLINDERS,
            Amount::Tracks(..) | Amount::Absolute(_) => ANY_TRACKS,
        }
    }
}

/// A grant and the labels that it needs. The slots for them are not counted yet. What the call and its
/// preview share is inlined in both: the opponent of the benchmark is no slower for the sharing.
struct Plan {
    amount: Amount,
    grant: Grant,
    /// Whether the first piece lengthens the set's last extent.
    joins: bool,
    needs_format_1: bool,
    needs_format_3: bool,
}

impl Plan {
    /// With the expiry date that is stored.
    #[inline(always)]
    fn allocate(
        volume: &Volume, records: &[Record], name: &Name, numbers: Numbers, expiry: &Packed,
    ) -> Result<(Stored, Plan), Refusal> {
        lawful(name)?;
        let expiry = dates::expiry(expiry).ok_or(Refusal::Date)?;
        let amount = Amount::judge(volume, numbers)?;
        if volume.names.find(records, name).is_some() {
            return Err(Refusal::Duplicate);
        }
        let grant = amount.choose(volume)?;
        let needs_format_3 = grant.pieces().len() > IN_FORMAT_1;
        Ok((expiry, Plan { amount, grant, joins: false, needs_format_1: true, needs_format_3 }))
    }

    /// With the set that grows.
    #[inline(always)]
    fn extend(
        volume: &Volume, records: &[Record], name: &Name,
    ) -> Result<(DataSet, Plan), Refusal> {
        lawful(name)?;
        let slot = lookup(volume, records, name)?;
        let secondary = be24(&records[slot], SECONDARY);
        if secondary == 0 {
            return Err(Refusal::NoSecondary);
        }
        // The option of the allocate is kept in no label.
        let amount = match records[slot][UNIT] {
            UNIT_CYLINDERS => Amount::Cylinders(secondary, SpaceOption::None),
            _ => Amount::Tracks(secondary, SpaceOption::None),
        };
        let grant = amount.choose(volume)?;
        let set = DataSet::read(volume, records, slot);
        let joins = set.is_followed_by(grant.pieces()[0]);
        let extents = set.extents().len() + grant.pieces().len() - usize::from(joins);
        if extents > MAX_EXTENTS {
            return Err(Refusal::Extents);
        }
        let needs_format_3 = extents > IN_FORMAT_1 && set.format_3.is_none();
        Ok((set, Plan { amount, grant, joins, needs_format_1: false, needs_format_3 }))
    }

    fn labels(&self) -> usize {
        usize::from(self.needs_format_1) + usize::from(self.needs_format_3)
    }

    /// Takes the pieces out of the free list; refusal 11 unless the slots do then. The table is not
    /// touched yet.
    fn take(&self, volume: &mut Volume) -> Result<(), Refusal> {
        self.grant.pieces().iter().for_each(|&piece| volume.free.take(piece));
        volume.slots_suffice(0, self.labels())
    }

    /// What the call would answer.
    fn preview(&self, volume: &mut Volume) -> Result<Answer, Refusal> {
        if !volume.has_slots_to_spare(0, self.labels()) {
            self.take(volume)?;
        }
        Ok(granted(&self.grant))
    }

    /// Appends the pieces to a set, which gets a format 3 first where it needs one, and closes the
    /// volume. The answer names every piece, one that is joined too.
    fn append(&self, volume: &mut Volume, records: &mut [Record], mut set: DataSet) -> Answer {
        if self.needs_format_3 {
            let slot = volume.take_slot();
            set.attach_format_3(volume, records, slot);
        }
        let (kind, mut pieces) = (self.amount.extent_type(), self.grant.pieces());
        if self.joins {
            set.lengthen(volume, records, kind, pieces[0]);
            pieces = &pieces[1..];
        }
        set.append(volume, records, kind, pieces);
        volume.close(records);
        granted(&self.grant)
    }
}

/// Gives a new set its tracks and labels. Refusals in order: 2, 3, 4, 14, 7, 6, 9, 11.
#[allow(clippy::too_many_arguments)]
pub fn allocate(
    table: &mut [u8], name: &[u8], attributes: &[u8], kind: u32, start: u32, amount: u32,
    secondary: u32, option: u32, expiry: &[u8], answer: &mut [u8],
) -> u32 {
    answered(answer, || {
        let records = records_mut(table)?;
        let name: &Name = sized(name)?;
        let attributes: &[u8; 52] = sized(attributes)?;
        let expiry = sized(expiry)?;
        let mut volume = sound(records)?;
        let numbers = Numbers { kind, start, amount, secondary, option };
        let (expiry, plan) = Plan::allocate(&volume, records, name, numbers, expiry)?;
        plan.take(&mut volume)?;

        volume.trim_chain(records);
        let slot = volume.take_slot();
        volume.sets.insert(slot);
        write_format_1(&mut records[slot], name, attributes, plan.amount.unit(), secondary, expiry);
        Ok(plan.append(&mut volume, records, DataSet::fresh(slot)))
    })
}

/// What allocate would answer; its refusals. Of the attributes only the length is looked at.
#[allow(clippy::too_many_arguments)]
pub fn preview_allocate(
    table: &[u8], name: &[u8], attributes: &[u8], kind: u32, start: u32, amount: u32,
    secondary: u32, option: u32, expiry: &[u8], answer: &mut [u8],
) -> u32 {
    answered(answer, || {
        let records = records(table)?;
        let name: &Name = sized(name)?;
        let _: &[u8; 52] = sized(attributes)?;
        let expiry = sized(expiry)?;
        let mut volume = sound(records)?;
        let numbers = Numbers { kind, start, amount, secondary, option };
        let (_, plan) = Plan::allocate(&volume, records, name, numbers, expiry)?;
        plan.preview(&mut volume)
    })
}

/// A format 1 without extents, its TTR zero. The expiry date replaces three of the attribute bytes.
fn write_format_1(
    record: &mut Record, name: &Name, attributes: &[u8; 52], unit: u8, secondary: u32,
    expiry: Stored,
) {
    *record = FORMAT_0;
    record[..name.len()].copy_from_slice(name);
    record[FORMAT] = FORMAT_1;
    let mut rest = &attributes[..];
    for (from, to) in ATTRIBUTES {
        let (part, others) = rest.split_at(to - from);
        record[from..to].copy_from_slice(part);
        rest = others;
    }
    record[EXPIRY..EXPIRY + expiry.len()].copy_from_slice(&expiry);
    record[UNIT] = unit;
    put24(record, SECONDARY, secondary);
}

/// Appends the secondary amount to a set; a first piece that goes on where the set ends lengthens its
/// last extent. Refusals in order: 2, 3, 4, 5, 8, 9, 10, 11.
pub fn extend(table: &mut [u8], name: &[u8], answer: &mut [u8]) -> u32 {
    answered(answer, || {
        let records = records_mut(table)?;
        let name: &Name = sized(name)?;
        let mut volume = sound(records)?;
        let (set, plan) = Plan::extend(&volume, records, name)?;
        plan.take(&mut volume)?;

        volume.trim_chain(records);
        Ok(plan.append(&mut volume, records, set))
    })
}

/// What extend would answer; its refusals.
pub fn preview_extend(table: &[u8], name: &[u8], answer: &mut [u8]) -> u32 {
    answered(answer, || {
        let records = records(table)?;
        let name: &Name = sized(name)?;
        let mut volume = sound(records)?;
        let (_, plan) = Plan::extend(&volume, records, name)?;
        plan.preview(&mut volume)
    })
}
