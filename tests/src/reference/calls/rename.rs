//! Rename.

use super::{answered, lawful, lookup, sized, sound, NO_NUMBERS};
use crate::reference::name::Name;
use crate::reference::{records_mut, Refusal};

/// Changes the 44 name bytes. Refusals in order: 2, 3, 4 (either name), 5, 6.
pub fn rename(table: &mut [u8], old: &[u8], new: &[u8], answer: &mut [u8]) -> u32 {
    answered(answer, || {
        let records = records_mut(table)?;
        let (old, new): (&Name, &Name) = (sized(old)?, sized(new)?);
        let volume = sound(records)?;
        lawful(old)?;
        lawful(new)?;
        let slot = lookup(&volume, records, old)?;
        if volume.names.find(records, new).is_some() {
            return Err(Refusal::Duplicate);
        }
        records[slot][..new.len()].copy_from_slice(new);
        Ok(NO_NUMBERS)
    })
}
