//! The fourteen calls and the listing, written from documents 01 and 02 alone.
//!
//! The route: check every rule on the bytes, read the format 5 chain into a sorted free
//! list, split and join its entries, and write back the records that changed. A call
//! decides on all its refusals before it writes its first byte; a preview is that decision alone.

mod calls;
mod check;
mod data_set;
pub mod dates;
mod free;
pub mod geometry;
mod grant;
pub mod layout;
mod listing;
pub mod name;
mod sets;
mod volume;

pub use calls::dates::{date_to_packed, date_to_stored};
pub use calls::grants::{allocate, extend, preview_allocate, preview_extend};
pub use calls::initialise::initialise;
pub use calls::reading::{lspace, obtain};
pub use calls::rename::rename;
pub use calls::returns::{preview_release, preview_scratch, release, scratch};
pub use listing::listing;

use geometry::{MAX_SLOTS, MIN_SLOTS};
use layout::Record;

/// The refusals, by their numbers.
#[derive(Clone, Copy, Debug, PartialEq, Eq)]
#[repr(u32)]
pub enum Refusal {
    Geometry = 1,
    Length = 2,
    Unsound = 3,
    Name = 4,
    NotFound = 5,
    Duplicate = 6,
    Amount = 7,
    NoSecondary = 8,
    NoSpace = 9,
    Extents = 10,
    VtocFull = 11,
    Ttr = 12,
    Unexpired = 13,
    Date = 14,
}

/// Whether a table is taken; the length is judged too.
pub fn taken(table: &[u8]) -> bool {
    records(table).is_ok_and(|records| check::volume(records).is_some())
}

/// The table as records; its length must be 140 times 3 to 468.
fn records(table: &[u8]) -> Result<&[Record], Refusal> {
    match table.as_chunks() {
        (records, []) if (MIN_SLOTS..=MAX_SLOTS).contains(&records.len()) => Ok(records),
        _ => Err(Refusal::Length),
    }
}

/// The same for a table to be written.
fn records_mut(table: &mut [u8]) -> Result<&mut [Record], Refusal> {
    match table.as_chunks_mut() {
        (records, []) if (MIN_SLOTS..=MAX_SLOTS).contains(&records.len()) => Ok(records),
        _ => Err(Refusal::Length),
    }
}
