//! Faults of dates: what a manager that has one takes a date for.

use super::Fault;
use crate::audit::dates::{expiry, is_later, of_stored, packed, stored};
use crate::call::TODAY;
use crate::generate::dates::with_half_byte;

/// The date that the fault takes a packed one for.
pub(super) fn packed_for(fault: Fault, date: &[u8]) -> Vec<u8> {
    let date = date.to_vec();
    match (fault, &date[..]) {
        (Fault::SignC, &[.., last]) if date.len() == 4 && last & 0x0F == 0x0C => {
            with_half_byte(date, 7, 0x0F)
        }
        _ => date,
    }
}

/// The same of today's date, where that is no date of itself.
pub(super) fn today_for(fault: Fault, today: &[u8], overriding: u32) -> Vec<u8> {
    match fault {
        Fault::NoneIsToday if today == [0; 4] => TODAY.to_vec(),
        Fault::OverrideOfABadDate if overriding != 0 && today.len() == 4 => TODAY.to_vec(),
        _ => packed_for(fault, today),
    }
}

pub(super) fn override_for(fault: Fault, overriding: u32) -> u32 {
    match (fault, overriding) {
        (Fault::OnlyOneOverrides, 2..) => 0,
        _ => overriding,
    }
}

/// Whether the fault takes a stored date for later than a day, and whether it is.
pub(super) fn later(fault: Fault, date: &[u8; 3], today: &[u8]) -> Option<(bool, bool)> {
    let day = expiry(today)?;
    let is = is_later(date, &day);
    let taken_for = match fault {
        Fault::EqualIsLater => is || *date == day,
        Fault::DaysByTheLowByte => (date[0], date[2]) > (day[0], day[2]),
        Fault::DayBeforeYear => date[1..] > day[1..],
        Fault::OnlyDatesAreLater => is && of_stored(date).is_some(),
        _ => is,
    };
    Some((taken_for, is))
}

/// Day 366 of 1900 in both forms.
pub(super) fn no_leap_day() -> ([u8; 4], [u8; 3]) {
    (packed(1900, 366), stored(1900, 366))
}
