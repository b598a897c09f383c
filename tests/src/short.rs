//! Calls as values, in short form. The attributes of an allocate are always the same, it has no expiry
//! date, and every scratch is on the same day and without an override; `expiring` and `scratch_on` give
//! others.

use crate::call::{Call, NO_DATE, NO_OPTION, TODAY};
use crate::desk::attributes;
use crate::volumes::name;

pub fn allocation(
    text: &str, kind: u32, start: u32, amount: u32, secondary: u32, option: u32,
) -> Call {
    let (name, attributes, expiry) = (name(text).to_vec(), attributes(7), NO_DATE.to_vec());
    Call::Allocate { name, attributes, kind, start, amount, secondary, option, expiry }
}

/// An allocate with this expiry date.
pub fn expiring(mut call: Call, date: &[u8]) -> Call {
    match &mut call {
        Call::Allocate { expiry, .. } => *expiry = date.to_vec(),
        _ => unreachable!("no expiry date in {call:?}"),
    }
    call
}

pub fn tracks(text: &str, amount: u32, secondary: u32) -> Call {
    tracks_by(NO_OPTION, text, amount, secondary)
}

pub fn tracks_by(option: u32, text: &str, amount: u32, secondary: u32) -> Call {
    allocation(text, 0, 0, amount, secondary, option)
}

pub fn cylinders(text: &str, amount: u32, secondary: u32) -> Call {
    cylinders_by(NO_OPTION, text, amount, secondary)
}

pub fn cylinders_by(option: u32, text: &str, amount: u32, secondary: u32) -> Call {
    allocation(text, 1, 0, amount, secondary, option)
}

pub fn absolute(text: &str, start: u32, count: u32) -> Call {
    allocation(text, 2, start, count, 0, NO_OPTION)
}

pub fn extend(text: &str) -> Call {
    Call::Extend { name: name(text).to_vec() }
}

/// Release at TT, R.
pub fn release(text: &str, tt: u32, r: u32) -> Call {
    Call::Release { name: name(text).to_vec(), ttr: tt << 8 | r }
}

pub fn scratch(text: &str) -> Call {
    scratch_on(text, &TODAY, 0)
}

/// Scratch on this day, with this override.
pub fn scratch_on(text: &str, today: &[u8], overriding: u32) -> Call {
    Call::Scratch { name: name(text).to_vec(), today: today.to_vec(), overriding }
}

pub fn to_stored(packed: &[u8]) -> Call {
    Call::DateToStored { packed: packed.to_vec() }
}

pub fn to_packed(stored: &[u8]) -> Call {
    Call::DateToPacked { stored: stored.to_vec() }
}
