//! Initialise: a table with no set.

use super::{answered, NO_NUMBERS};
use crate::reference::free::Run;
use crate::reference::geometry::Geometry;
use crate::reference::layout::*;
use crate::reference::volume::Volume;
use crate::reference::{records_mut, Refusal};

/// Writes the table of an empty volume. Refusals in order: 1, 2.
pub fn initialise(
    table: &mut [u8], c: u32, h: u32, d: u32, s: u32, v: u32, answer: &mut [u8],
) -> u32 {
    // The one call that judges something before the lengths.
    let Some(geometry) = Geometry::new(c, h, d, s, v) else {
        return Refusal::Geometry as u32;
    };
    answered(answer, || {
        if table.len() != geometry.table_len() {
            return Err(Refusal::Length);
        }
        write(records_mut(table)?, geometry);
        Ok(NO_NUMBERS)
    })
}

fn write(records: &mut [Record], geometry: Geometry) {
    let mut volume = Volume::empty(geometry);
    records.fill(FORMAT_0);

    let vtoc = Run { start: geometry.vtoc_start, length: geometry.vtoc_tracks };
    let record = &mut records[0];
    record[..FORMAT].fill(0x04);
    record[FORMAT] = FORMAT_4;
    record[59] = 0x01;
    put16(record, 62, geometry.cylinders);
    put16(record, 64, geometry.heads);
    record[74] = geometry.per_track as u8;
    record[105..115].copy_from_slice(&volume.extent_bytes(ANY_TRACKS, 0, vtoc));

    // All tracks are free but the label's and the VTOC's.
    for (start, end) in [(1, vtoc.start), (vtoc.end(), geometry.tracks())] {
        if start < end {
            volume.free.give(Run { start, length: end - start });
        }
    }
    volume.chain.push(1);
    (2..geometry.slots()).for_each(|slot| {
        volume.open.insert(slot);
    });
    volume.close(records);
}
