//! Obtain and LSPACE: calls that leave the table alone.

use super::{answered, lawful, lookup, sized, sound, NO_NUMBERS};
use crate::reference::layout::*;
use crate::reference::name::Name;
use crate::reference::{records, Refusal};

/// Copies a set's format 1, then its format 3 or zeros. Refusals in order: 2, 3, 4, 5.
pub fn obtain(table: &[u8], name: &[u8], labels: &mut [u8], answer: &mut [u8]) -> u32 {
    answered(answer, || {
        let records = records(table)?;
        let name: &Name = sized(name)?;
        let ([format_1, format_3], []) = labels.as_chunks_mut::<RECORD>() else {
            return Err(Refusal::Length);
        };
        let volume = sound(records)?;
        lawful(name)?;
        let slot = lookup(&volume, records, name)?;
        *format_1 = records[slot];
        *format_3 = match volume.geometry.slot_at(link(format_1, LINK)) {
            Some(slot) => records[slot],
            None => FORMAT_0,
        };
        Ok(NO_NUMBERS)
    })
}

/// The space inquiry. With no free extent its first five numbers are zero; the sixth, the
/// number of format 0s, is given all the same. Refusals in order: 2, 3.
pub fn lspace(table: &[u8], answer: &mut [u8]) -> u32 {
    answered(answer, || {
        let records = records(table)?;
        let volume = sound(records)?;
        let heads = volume.geometry.heads;
        let (mut cylinders, mut odd) = (0, 0);
        for &slot in &volume.chain {
            let record = &records[usize::from(slot)];
            // Straight from the entries, which hold both numbers; unused ones hold zeros.
            for i in 0..ENTRIES {
                cylinders += be16(record, entry_at(i) + 2);
                odd += u32::from(record[entry_at(i) + 4]);
            }
        }
        let longest = volume.free.holes().iter().map(|hole| hole.length).max().unwrap_or(0);
        let numbers = [
            cylinders,
            odd,
            volume.free.holes().len() as u32,
            longest / heads,
            longest % heads,
            volume.open.len() as u32,
        ];
        let mut answer = NO_NUMBERS;
        for (i, number) in numbers.into_iter().enumerate() {
            put16(&mut answer, 2 * i, number);
        }
        Ok(answer)
    })
}
