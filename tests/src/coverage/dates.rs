//! The paths of dates, worked out from the bytes handed over and from the label: document 02, [5].

use crate::audit::dates::{expiry, is_later, of_packed, of_stored};
use crate::call::{Call, CALL_NAMES, NO_DATE};
use crate::generate::dates::wrong_half_bytes;
use crate::generate::glance::stored_date;

/// The paths that a run must see. Every refusal of every call is due besides.
pub const DATES: [&str; 63] = [
    "dates, allocate: a date stored",
    "dates, allocate: none, stored as zeros",
    "dates, allocate: attribute bytes not stored",
    "dates, allocate: 2 for the date",
    "dates, allocate: 14, sign not F",
    "dates, allocate: 14 before 7",
    "dates, allocate: 14 before 6",
    "dates, allocate: 4 before 14",
    "dates, preview_allocate: 2 for the date",
    "dates, preview_allocate: 14 before 7",
    "dates, preview_allocate: with a date",
    "dates, scratch: no date stored",
    "dates, scratch: stored date earlier by its year",
    "dates, scratch: stored date earlier by its day",
    "dates, scratch: stored date equal",
    "dates, scratch: stored bytes are no date, and not later",
    "dates, scratch: later by its year, overridden",
    "dates, scratch: later by its day, overridden",
    "dates, scratch: later and no date, overridden",
    "dates, scratch: overridden by 1",
    "dates, scratch: overridden by more than 2^31 - 1",
    "dates, scratch: override of an expired set",
    "dates, scratch: 13, later by its year",
    "dates, scratch: 13, later by its year, its day is lower",
    "dates, scratch: 13, later by its day",
    "dates, scratch: 13, later by its day, the low byte is lower",
    "dates, scratch: 13, no date",
    "dates, scratch: 2 for the date",
    "dates, scratch: 14 for none",
    "dates, scratch: 14 with an override",
    "dates, scratch: 14 before 5",
    "dates, scratch: 14 before 13",
    "dates, scratch: 4 before 14",
    "dates, preview_scratch: stored date equal",
    "dates, preview_scratch: later by its year, overridden",
    "dates, preview_scratch: 13, later by its day",
    "dates, preview_scratch: 2 for the date",
    "dates, preview_scratch: 14 before 5",
    "dates, date_to_stored: 2 for the date",
    "dates, date_to_stored: 14, half byte 0",
    "dates, date_to_stored: 14, half byte 1",
    "dates, date_to_stored: 14, half byte 2",
    "dates, date_to_stored: 14, half byte 3",
    "dates, date_to_stored: 14, half byte 4",
    "dates, date_to_stored: 14, half byte 5",
    "dates, date_to_stored: 14, half byte 6",
    "dates, date_to_stored: 14, half byte 7",
    "dates, date_to_stored: 14 for none",
    "dates, date_to_stored: 14, day 0",
    "dates, date_to_stored: 14, day 366 of 1900",
    "dates, date_to_stored: 14, day 366 of another year",
    "dates, date_to_stored: 14, day above 366",
    "dates, date_to_stored: day 366 of 2000",
    "dates, date_to_stored: day 366 of another year",
    "dates, date_to_packed: 2 for the date",
    "dates, date_to_packed: 14, year above 199",
    "dates, date_to_packed: 14 for none",
    "dates, date_to_packed: 14, day 0",
    "dates, date_to_packed: 14, day 366 of 1900",
    "dates, date_to_packed: 14, day 366 of another year",
    "dates, date_to_packed: 14, day above 366",
    "dates, date_to_packed: day 366 of 2000",
    "dates, date_to_packed: day 366 of another year",
];

type Facts = Vec<(bool, String)>;

/// What a call with this result shows, on the table as it was and as it was left.
pub fn shown(call: &Call, result: u32, before: &[u8], after: &[u8]) -> Vec<&'static str> {
    let verb = CALL_NAMES[call.index()];
    let facts = match call {
        Call::Preview(call) => of_call(call, result, before, &[]),
        _ => of_call(call, result, before, after),
    };
    let on_list = |path: &str| {
        let path = format!("dates, {verb}: {path}");
        DATES.into_iter().find(|&listed| listed == path)
    };
    facts.iter().filter(|(fact, _)| *fact).filter_map(|(_, path)| on_list(path)).collect()
}

fn of_call(call: &Call, result: u32, before: &[u8], after: &[u8]) -> Facts {
    match call {
        Call::Allocate { name, attributes, expiry, .. } if name.len() == 44 => {
            let mut facts = allocated(result, before, call);
            if let (0, Some(stored)) = (result, stored_date(after, name)) {
                facts
                    .push((stored == [0; 3] && *expiry == NO_DATE, "none, stored as zeros".into()));
                facts.push((stored != [0; 3] && *expiry != NO_DATE, "a date stored".into()));
                facts.push((attributes[11..14] != stored, "attribute bytes not stored".into()));
            }
            facts
        }
        Call::Scratch { name, today, overriding } if name.len() == 44 => {
            scratched(result, stored_date(before, name), today, *overriding)
        }
        Call::DateToStored { packed } => to_stored(result, packed),
        Call::DateToPacked { stored } => to_packed(result, stored),
        _ => vec![],
    }
}

/// An allocate or its preview, by its arguments.
fn allocated(result: u32, before: &[u8], call: &Call) -> Facts {
    let Call::Allocate { name, attributes, kind, amount, expiry: date, .. } = call else {
        return vec![];
    };
    let is_bad = date.len() == 4 && expiry(date).is_none();
    let is_there = stored_date(before, name).is_some();
    vec![
        (result == 0 && *date != NO_DATE, "with a date".into()),
        (result == 2 && date.len() != 4 && attributes.len() == 52, "2 for the date".into()),
        (result == 14 && wrong(date) == [7], "14, sign not F".into()),
        (result == 14 && (*kind > 2 || *amount == 0), "14 before 7".into()),
        (result == 14 && is_there, "14 before 6".into()),
        (result == 4 && is_bad, "4 before 14".into()),
    ]
}

/// A scratch or its preview, of a set with this stored date where there is one.
fn scratched(result: u32, stored: Option<[u8; 3]>, today: &[u8], overriding: u32) -> Facts {
    let is_bad = today.len() == 4 && of_packed(today).is_none();
    let mut facts = vec![
        (result == 2 && today.len() != 4, "2 for the date".into()),
        (result == 14 && *today == NO_DATE, "14 for none".into()),
        (result == 14 && overriding != 0, "14 with an override".into()),
        (result == 14 && stored.is_none(), "14 before 5".into()),
        (result == 14 && stored.is_some_and(|date| date[0] == 0xFF), "14 before 13".into()),
        (result == 4 && is_bad, "4 before 14".into()),
    ];
    if let (Some(stored), Some(day)) = (stored, expiry(today)) {
        facts.extend(match result {
            13 => {
                unexpired(stored, day).into_iter().map(|(f, p)| (f, format!("13, {p}"))).collect()
            }
            0 if is_later(&stored, &day) => overridden(stored, day, overriding),
            0 => expired(stored, day, overriding),
            _ => vec![],
        });
    }
    facts
}

/// Why a stored date is later than a day.
fn unexpired(stored: [u8; 3], day: [u8; 3]) -> Facts {
    let [is_date, by_year] = [of_stored(&stored).is_some(), stored[0] > day[0]];
    vec![
        (is_date && by_year, "later by its year".into()),
        (
            is_date && by_year && stored[1..] < day[1..],
            "later by its year, its day is lower".into(),
        ),
        (is_date && !by_year, "later by its day".into()),
        (
            is_date && !by_year && stored[2] < day[2],
            "later by its day, the low byte is lower".into(),
        ),
        (!is_date, "no date".into()),
    ]
}

fn overridden(stored: [u8; 3], day: [u8; 3], overriding: u32) -> Facts {
    let mut facts = vec![
        (overriding == 1, "overridden by 1".into()),
        (overriding > i32::MAX as u32, "overridden by more than 2^31 - 1".into()),
        (of_stored(&stored).is_none(), "later and no date, overridden".into()),
    ];
    facts.extend(unexpired(stored, day).into_iter().map(|(f, p)| (f, format!("{p}, overridden"))));
    facts
}

fn expired(stored: [u8; 3], day: [u8; 3], overriding: u32) -> Facts {
    let is_date = of_stored(&stored).is_some();
    let is_none = stored == [0; 3];
    vec![
        (is_none, "no date stored".into()),
        (!is_none && overriding != 0, "override of an expired set".into()),
        (is_date && stored[0] < day[0], "stored date earlier by its year".into()),
        (is_date && stored[0] == day[0] && stored < day, "stored date earlier by its day".into()),
        (stored == day, "stored date equal".into()),
        (!is_date && !is_none, "stored bytes are no date, and not later".into()),
    ]
}

/// The half bytes of a packed date that have a wrong value.
fn wrong(date: &[u8]) -> Vec<usize> {
    let halves = date.iter().flat_map(|byte| [byte >> 4, byte & 0x0F]).enumerate();
    halves.filter(|(at, half)| wrong_half_bytes(*at).contains(half)).map(|(at, _)| at).collect()
}

fn to_stored(result: u32, date: &[u8]) -> Facts {
    let &[century, years, tens, last] = date else {
        return vec![(result == 2, "2 for the date".into())];
    };
    match wrong(date)[..] {
        [] => {
            let number = |byte: u8| 10 * u32::from(byte >> 4) + u32::from(byte & 0x0F);
            let year = 100 * u32::from(century) + number(years);
            days(result, year, 10 * number(tens) + u32::from(last >> 4))
        }
        [at] => vec![
            (result == 14, format!("14, half byte {at}")),
            (result == 14 && *date == NO_DATE, "14 for none".into()),
        ],
        _ => vec![],
    }
}

fn to_packed(result: u32, date: &[u8]) -> Facts {
    let &[year, high, low] = date else {
        return vec![(result == 2, "2 for the date".into())];
    };
    if year > 199 {
        return vec![(result == 14, "14, year above 199".into())];
    }
    let mut facts = days(result, year.into(), 256 * u32::from(high) + u32::from(low));
    facts.push((result == 14 && *date == [0; 3], "14 for none".into()));
    facts
}

/// A date with a right year, counted from 1900, by its day.
fn days(result: u32, year: u32, day: u32) -> Facts {
    let of = match year {
        0 => "1900",
        100 => "2000",
        _ => "another year",
    };
    vec![
        (result == 14 && day == 0, "14, day 0".into()),
        (result == 14 && day == 366, format!("14, day 366 of {of}")),
        (result == 14 && day > 366, "14, day above 366".into()),
        (result == 0 && day == 366, format!("day 366 of {of}")),
    ]
}
