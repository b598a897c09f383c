//! Document 02, [5], sentence by sentence, with numbers written by hand.

use vtoc_tests::audit::picture;
use vtoc_tests::call::{Call, NO_DATE};
use vtoc_tests::desk::{attributes, Desk};
use vtoc_tests::ledger::Ledger;
use vtoc_tests::reference::Refusal;
use vtoc_tests::short::*;

/// Day 321 of 2026, the day before and the day after, as packed dates.
const DAY: [u8; 4] = [0x01, 0x26, 0x32, 0x1F];
const DAY_BEFORE: [u8; 4] = [0x01, 0x26, 0x32, 0x0F];
const DAY_AFTER: [u8; 4] = [0x01, 0x26, 0x32, 0x2F];
/// The day as it is stored: 126, and 256 + 65.
const STORED: [u8; 3] = [126, 1, 65];

/// What a conversion answers; nothing where it is refused, which must be with 14.
#[track_caller]
fn converted(call: Call) -> Option<[u8; 24]> {
    let outcome = Desk::default().call(call);
    if outcome.result != 0 {
        outcome.refused(14);
        return None;
    }
    Some(outcome.answer.try_into().unwrap())
}

#[track_caller]
fn alike(packed: [u8; 4], stored: [u8; 3]) {
    let (mut one, mut other) = ([0; 24], [0; 24]);
    one[..3].copy_from_slice(&stored);
    other[..4].copy_from_slice(&packed);
    assert_eq!(converted(to_stored(&packed)), Some(one));
    assert_eq!(converted(to_packed(&stored)), Some(other));
}

#[track_caller]
fn no_date(packed: [u8; 4]) {
    assert_eq!(converted(to_stored(&packed)), None, "{packed:02X?}");
}

#[track_caller]
fn none_stored(stored: [u8; 3]) {
    assert_eq!(converted(to_packed(&stored)), None, "{stored:02X?}");
}

/// "Dates come in four bytes: digits 0, C, Y, Y, D, D, D and sign F, a half byte each, with C 0 for 1900
/// and 1 for 2000."
#[test]
fn four_bytes() {
    alike([0x00, 0x12, 0x34, 0x5F], [12, 1, 89]);
    alike([0x01, 0x12, 0x34, 0x5F], [112, 1, 89]);
    alike(DAY, STORED);
    // The first digit, C, each of the others, and the sign.
    for first in [0x10, 0x20, 0x80, 0x90, 0xA0, 0xF0] {
        no_date([first, 0x12, 0x34, 0x5F]);
    }
    for century in 0x02..=0x0F {
        no_date([century, 0x12, 0x34, 0x5F]);
    }
    for digit in 0x0A..=0x0F {
        no_date([0x00, digit << 4 | 0x02, 0x34, 0x5F]);
        no_date([0x00, 0x10 | digit, 0x34, 0x5F]);
        no_date([0x00, 0x12, digit << 4 | 0x04, 0x5F]);
        no_date([0x00, 0x12, 0x30 | digit, 0x5F]);
        no_date([0x00, 0x12, 0x34, digit << 4 | 0x0F]);
    }
    for sign in 0x00..=0x0E {
        no_date([0x00, 0x12, 0x34, 0x50 | sign]);
    }
}

/// "Bytes 56–58 of a format 1 hold the expiry date as year less 1900 (1 byte) and day (2 bytes)."
#[test]
fn bytes_56_to_58() {
    let mut desk = Desk::begin(4, 5, 4, 1, 2);
    for (text, packed, stored) in [
        ("A", DAY, STORED),
        ("B", [0x00, 0x00, 0x00, 0x1F], [0, 0, 1]),
        ("C", [0x01, 0x99, 0x25, 0x6F], [199, 1, 0]),
    ] {
        desk.call(expiring(tracks(text, 1, 0), &packed)).accepted();
        let labels = desk.obtain(text).labels;
        assert_eq!(labels[56..59], stored);
        let all = attributes(7);
        assert_eq!((&labels[45..56], &labels[60..94]), (&all[..11], &all[14..48]));
        assert_eq!((labels[59], &labels[101..105]), (1, &all[48..]));
    }
}

/// "Add conversion both ways for 1900 to 2099, days from 1, day 366 in leap years only (1900 isn't one)."
#[test]
fn years_and_days() {
    alike([0x00, 0x00, 0x00, 0x1F], [0, 0, 1]);
    alike([0x00, 0x00, 0x36, 0x5F], [0, 1, 109]);
    alike([0x00, 0x99, 0x36, 0x5F], [99, 1, 109]);
    alike([0x01, 0x00, 0x00, 0x1F], [100, 0, 1]);
    alike([0x01, 0x99, 0x36, 0x5F], [199, 1, 109]);
    // 2100 and 2155.
    none_stored([200, 0, 1]);
    none_stored([255, 1, 109]);
    // Day 0, day 367; 512 and 65,281 have the low byte of a day.
    no_date([0x00, 0x80, 0x00, 0x0F]);
    no_date([0x00, 0x80, 0x36, 0x7F]);
    none_stored([80, 0, 0]);
    none_stored([80, 1, 111]);
    none_stored([80, 2, 0]);
    none_stored([80, 0xFF, 1]);
    // 1904, 1980, 2000 and 2096 are leap years; 1900, 1901, 1999, 2001 and 2099 are not.
    for (packed, stored) in [
        ([0x00, 0x04, 0x36, 0x6F], [4, 1, 110]),
        ([0x00, 0x80, 0x36, 0x6F], [80, 1, 110]),
        ([0x01, 0x00, 0x36, 0x6F], [100, 1, 110]),
        ([0x01, 0x96, 0x36, 0x6F], [196, 1, 110]),
    ] {
        alike(packed, stored);
    }
    for year in [0x0000, 0x0001, 0x0099, 0x0101, 0x0199_u16] {
        let [century, years] = year.to_be_bytes();
        no_date([century, years, 0x36, 0x6F]);
    }
    for year in [0, 1, 99, 101, 199] {
        none_stored([year, 1, 110]);
    }
}

/// "The result stands first in the 24 answer bytes, zeros after." Other lengths are refusal 2, before 14.
#[test]
fn the_answer() {
    let mut desk = Desk::default();
    desk.call(to_stored(&DAY)).converted(&STORED);
    desk.call(to_packed(&STORED)).converted(&DAY);
    for length in 0..40 {
        let result = if length == 24 { 0 } else { 2 };
        assert_eq!(desk.sized(0, length, 0, to_stored(&DAY)), result);
        assert_eq!(desk.sized(0, length, 0, to_packed(&STORED)), result);
        assert_eq!(
            desk.sized(0, length, 0, to_stored(&NO_DATE)),
            if length == 24 { 14 } else { 2 }
        );
    }
    for length in (0..9).filter(|&length| length != 4) {
        desk.call(to_stored(&[0; 9][..length])).refused(2);
    }
    for length in (0..9).filter(|&length| length != 3) {
        desk.call(to_packed(&[0; 9][..length])).refused(2);
    }
}

/// "Allocate takes an expiry date, which replaces attribute bytes 56–58, or four zero bytes for none,
/// stored as zeros".
#[test]
fn an_expiry_date_or_none() {
    let mut desk = Desk::begin(4, 5, 4, 1, 2);
    let mut all = vec![0xEE; 52];
    for (text, date, stored) in [("A", NO_DATE, [0; 3]), ("B", DAY, STORED)] {
        let mut call = expiring(tracks(text, 1, 0), &date);
        if let Call::Allocate { attributes, .. } = &mut call {
            attributes.clone_from(&all);
        }
        desk.call(call).accepted();
        assert_eq!(desk.obtain(text).labels[45..59], [&[all[0]; 11][..], &stored].concat());
        all.fill(0);
    }
    for length in (0..9).filter(|&length| length != 4) {
        desk.call(expiring(tracks("C", 1, 0), &[0; 9][..length])).refused(2);
    }
}

/// "Volume A's steps give none": its table is that of attributes with zeros there.
#[test]
fn volume_a_gives_none() {
    let mut desk = Desk::begin(4, 5, 4, 1, 2);
    desk.call(tracks("FLT.A", 4, 0)).granted(&[(3, 4)]);
    let mut other = Desk::begin(4, 5, 4, 1, 2);
    let mut call = tracks("FLT.A", 4, 0);
    if let Call::Allocate { attributes, .. } = &mut call {
        attributes[11..14].fill(0);
    }
    other.call(call).granted(&[(3, 4)]);
    assert_eq!(desk.table, other.table);
    assert_eq!(desk.slot(2)[56..59], [0; 3]);
}

/// A set of one track with these bytes in the place of its expiry date.
fn holding(stored: [u8; 3]) -> Desk {
    let mut desk = Desk::begin(4, 5, 4, 1, 2);
    desk.tracks("A", 1, 0).accepted();
    desk.table[2 * 140 + 56..][..3].copy_from_slice(&stored);
    desk
}

/// Scratch and its preview, which answer alike; the ledger then has no set, or has it still.
#[track_caller]
fn scratched(stored: [u8; 3], today: [u8; 4], overriding: u32) -> u32 {
    let mut desk = holding(stored);
    let mut ledger = Ledger::of(&picture(&desk.table).unwrap());
    let before = ledger.clone();
    let call = scratch_on("A", &today, overriding);
    let outcome = desk.seen_and_made(call.clone());
    ledger.enter(&call, outcome.result, &outcome.answer);
    assert!(ledger.agrees(&picture(&desk.table).unwrap()));
    if outcome.result == 0 {
        outcome.gave_back(1);
        assert_eq!(desk.table, Desk::begin(4, 5, 4, 1, 2).table);
    } else {
        assert_eq!(ledger, before);
    }
    outcome.result
}

/// "Scratch takes today's date and an override (0 is none, any other number is one)."
#[test]
fn today_and_an_override() {
    assert_eq!(scratched(STORED, DAY_BEFORE, 0), 13);
    for overriding in (0..32).map(|bit| 1 << bit).chain([3, 255, 0xFFFF_0000, u32::MAX]) {
        assert_eq!(scratched(STORED, DAY_BEFORE, overriding), 0);
        assert_eq!(scratched(STORED, DAY_AFTER, overriding), 0);
    }
}

/// "A stored date is later if its year byte is higher, or at equal years its day is."
#[test]
fn later() {
    assert_eq!(scratched(STORED, DAY_BEFORE, 0), 13);
    assert_eq!(scratched(STORED, DAY, 0), 0);
    assert_eq!(scratched(STORED, DAY_AFTER, 0), 0);
    // The last day of 1999 and the first of 2000, either way.
    assert_eq!(scratched([100, 0, 1], [0x00, 0x99, 0x36, 0x5F], 0), 13);
    assert_eq!(scratched([99, 1, 109], [0x01, 0x00, 0x00, 0x1F], 0), 0);
    // Day 256 and day 255.
    assert_eq!(scratched([80, 1, 0], [0x00, 0x80, 0x25, 0x5F], 0), 13);
    assert_eq!(scratched([80, 0, 255], [0x00, 0x80, 0x25, 0x6F], 0), 0);
    // Bytes that are no date are compared like any: the last day of 2099, and 1900's first.
    assert_eq!(scratched([0xFF; 3], [0x01, 0x99, 0x36, 0x5F], 0), 13);
    assert_eq!(scratched([200, 0, 0], [0x01, 0x99, 0x36, 0x5F], 0), 13);
    assert_eq!(scratched([199, 1, 110], [0x01, 0x99, 0x36, 0x5F], 0), 13);
    assert_eq!(scratched([80, 0, 0], [0x00, 0x80, 0x00, 0x1F], 0), 0);
    assert_eq!(scratched([0; 3], [0x00, 0x00, 0x00, 0x1F], 0), 0);
    assert_eq!(scratched([0, 0, 2], [0x00, 0x00, 0x00, 0x1F], 0), 13);
}

/// "13 unexpired, the stored date is later than today and no override was given, scratch only, right
/// after 5".
#[test]
fn unexpired_is_13() {
    assert_eq!(Refusal::Unexpired as u32, 13);
    let mut desk = holding([0xFF; 3]);
    desk.call(scratch_on("B", &DAY, 0)).refused(5);
    desk.call(scratch_on("A", &DAY, 0)).refused(13);
    // No other call looks at it.
    desk.rename("A", "B").accepted();
    desk.release("B", 0, 0).accepted();
    desk.extend("B").refused(8);
    desk.obtain("B").accepted();
    assert_eq!(desk.slot(2)[56..59], [0xFF; 3]);
    desk.call(scratch_on("B", &DAY, 1)).gave_back(1);
}

/// "14 date, not such a date in the form handed over, packed or stored (none is for allocate only), right
/// after 4."
#[test]
fn no_such_date_is_14() {
    assert_eq!(Refusal::Date as u32, 14);
    no_date(NO_DATE);
    none_stored([0; 3]);
    let bad = [0x01, 0x26, 0x36, 0x6F];
    let mut desk = holding([0xFF; 3]);
    for date in [NO_DATE, bad] {
        for overriding in [0, 1, u32::MAX] {
            desk.seen_and_made(scratch_on("A", &date, overriding)).refused(14);
            // Before 5, after 4.
            desk.seen_and_made(scratch_on("B", &date, overriding)).refused(14);
            desk.seen_and_made(scratch_on("9", &date, overriding)).refused(4);
        }
    }
    desk.seen_and_made(expiring(tracks("B", 1, 0), &bad)).refused(14);
    desk.seen_and_made(expiring(tracks("9", 1, 0), &bad)).refused(4);
    // Before 7, 6, 9.
    for call in [tracks("B", 0, 0), allocation("B", 3, 0, 1, 0, 0), tracks("A", 1, 0)] {
        desk.seen_and_made(expiring(call, &bad)).refused(14);
    }
    desk.seen_and_made(expiring(tracks("B", 60_000, 0), &bad)).refused(14);
    desk.seen_and_made(expiring(tracks("B", 1, 0), &NO_DATE)).granted(&[(4, 1)]);
    // 3 before 4 before 14, and 2 before all.
    desk.table[60] = 1;
    desk.seen_and_made(scratch_on("9", &bad, 0)).refused(3);
    desk.seen_and_made(expiring(tracks("9", 1, 0), &bad)).refused(3);
    desk.seen_and_made(scratch_on("9", &bad[..3], 0)).refused(2);
    desk.seen_and_made(expiring(tracks("9", 1, 0), &[&bad[..], &[0]].concat())).refused(2);
}

/// A full VTOC: 14 comes before 11 too.
#[test]
fn before_11() {
    let mut desk = Desk::begin(5, 4, 3, 1, 1);
    desk.tracks("A", 1, 0).accepted();
    desk.call(expiring(tracks("B", 1, 0), &DAY)).refused(11);
    desk.call(expiring(tracks("B", 1, 0), &[0xFF; 4])).refused(14);
}
