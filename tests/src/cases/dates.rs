//! Dates: document 02, [5].

use super::{sequence, Sequence};
use crate::audit::dates::{packed, stored};
use crate::call::{Call, NO_DATE, TODAY};
use crate::desk::Desk;
use crate::short::*;

pub fn sequences() -> Vec<Sequence> {
    vec![both_ways(), kept_until(), of_earlier_days()]
}

fn both_ways() -> Sequence {
    sequence(
        "Dates from packed to stored and back; those that are none, and every length",
        |desk| {
            for (year, day) in [(1900, 1), (1904, 366), (1980, 365), (2000, 366), (2099, 256)] {
                let (one, other) = (packed(year, day), stored(year, day));
                desk.call(to_stored(&one)).converted(&other);
                desk.call(to_packed(&other)).converted(&one);
            }
            for (year, day) in [(1900, 366), (1999, 366), (2000, 0), (2000, 367)] {
                desk.call(to_stored(&packed(year, day))).refused(14);
                desk.call(to_packed(&stored(year, day))).refused(14);
            }
            half_bytes(desk);
            for bytes in [[200, 0, 1], [0, 0, 0], [0xFF; 3], [80, 0x6D, 1]] {
                desk.call(to_packed(&bytes)).refused(14);
            }
            lengths(desk);
        },
    )
}

/// One half byte wrong; none given; day 999.
fn half_bytes(desk: &mut Desk) {
    for bytes in [
        [0x10, 0x80, 0x36, 0x5F],
        [0x02, 0x00, 0x36, 0x5F],
        [0x00, 0xA0, 0x36, 0x5F],
        [0x00, 0x0A, 0x36, 0x5F],
        [0x00, 0x80, 0xA6, 0x5F],
        [0x00, 0x80, 0x0F, 0x5F],
        [0x00, 0x80, 0x36, 0xAF],
        [0x00, 0x80, 0x36, 0x5C],
        [0x00, 0x80, 0x36, 0x5E],
        NO_DATE,
        [0x00, 0x80, 0x99, 0x9F],
    ] {
        desk.call(to_stored(&bytes)).refused(14);
    }
}

/// The table may have any length, and the bytes in it are not looked at.
fn lengths(desk: &mut Desk) {
    let of = |length| [TODAY, TODAY].concat()[..length].to_vec();
    for length in [0, 3, 5] {
        desk.call(to_stored(&of(length))).refused(2);
        desk.call(to_packed(&of(length + 1))).refused(2);
    }
    for (table, answer, result) in [(0, 23, 2), (420, 25, 2), (1, 24, 0), (419, 24, 0)] {
        assert_eq!(desk.sized(table, answer, 0, to_stored(&TODAY)), result);
        assert_eq!(desk.sized(table, answer, 0, to_packed(&stored(1980, 1))), result);
    }
}

fn on(text: &str, year: u32, day: u32, overriding: u32) -> Call {
    scratch_on(text, &packed(year, day), overriding)
}

/// One track until a day.
fn until(text: &str, year: u32, day: u32) -> Call {
    expiring(tracks(text, 1, 0), &packed(year, day))
}

fn kept_until() -> Sequence {
    sequence("Sets kept until a day: what allocate stores, and when scratch takes them", |desk| {
        desk.initialise(3, 4, 3, 1, 2).without_numbers();
        let kept = until("A", 2026, 255);
        desk.seen_and_made(kept).granted(&[(3, 1)]);
        desk.tracks("B", 1, 0).granted(&[(4, 1)]);
        assert_eq!(desk.obtain("A").labels[56..59], [126, 0, 255]);
        assert_eq!(desk.obtain("B").labels[56..59], [0; 3]);
        bad_expiry(desk);
        bad_today(desk);
        equal_or_later(desk);
    })
}

/// 2, then 4, then 14, then 7 and 6.
fn bad_expiry(desk: &mut Desk) {
    let sign_c = [0x01, 0x26, 0x25, 0x5C];
    for (text, kind, date, result) in [
        ("", 0, &sign_c[..3], 2),
        ("", 0, &sign_c, 4),
        ("A", 9, &sign_c, 14),
        ("A", 0, &packed(1900, 366), 14),
        ("A", 9, &NO_DATE, 7),
        ("A", 0, &packed(2000, 366), 6),
    ] {
        desk.call(expiring(allocation(text, kind, 0, 1, 0, 0), date)).refused(result);
    }
    desk.preview(&expiring(tracks("A", 1, 0), &[])).refused(2);
    desk.preview(&expiring(allocation("C", 9, 0, 1, 0, 0), &sign_c)).refused(14);
}

/// 2, then 4, then 14, then 5 and 13; an override makes up for nothing but 13.
fn bad_today(desk: &mut Desk) {
    desk.call(scratch_on("", &TODAY[1..], 1)).refused(2);
    desk.call(scratch_on("", &NO_DATE, 1)).refused(4);
    desk.call(scratch_on("C", &NO_DATE, 1)).refused(14);
    desk.call(on("A", 2000, 0, 0)).refused(14);
    desk.call(scratch_on("C", &TODAY, 0)).refused(5);
    desk.preview(&scratch_on("B", &[0; 7], 0)).refused(2);
    desk.preview(&scratch_on("C", &[0xFF; 4], 0)).refused(14);
}

/// A is kept until day 255 of 2026, then until 256.
fn equal_or_later(desk: &mut Desk) {
    desk.seen_and_made(on("A", 2026, 254, 0)).refused(13);
    desk.call(on("A", 2025, 365, 0)).refused(13);
    desk.preview(&on("A", 2025, 365, 1)).gave_back(1);
    desk.seen_and_made(on("A", 2026, 255, 0)).gave_back(1);
    desk.call(until("A", 2026, 256)).granted(&[(3, 1)]);
    desk.call(on("A", 2026, 255, 0)).refused(13);
    desk.call(on("A", 2026, 255, 1)).gave_back(1);
    desk.scratch("B").gave_back(1);
}

/// Puts bytes where the set in slot 2 has its expiry date.
fn put(desk: &mut Desk, bytes: [u8; 3]) {
    let mut changed = desk.table.clone();
    changed[2 * 140 + 56..][..3].copy_from_slice(&bytes);
    desk.put(&changed);
}

fn of_earlier_days() -> Sequence {
    sequence("Expired dates, overrides, and bytes of earlier days that are no date", |desk| {
        desk.initialise(2, 3, 3, 1, 1).without_numbers();
        for (kept, today) in [
            (until("A", 1999, 365), on("A", 2000, 1, 0)),
            (until("A", 2026, 256), on("A", 2026, 257, u32::MAX)),
            (until("A", 2000, 366), on("A", 1999, 365, 1 << 31)),
            (tracks("A", 1, 0), on("A", 1900, 1, 0)),
        ] {
            desk.call(kept).granted(&[(2, 1)]);
            desk.call(today).gave_back(1);
        }
        desk.call(until("A", 2026, 1)).granted(&[(2, 1)]);
        put(desk, [0xFF; 3]);
        desk.call(scratch_on("A", &NO_DATE, 1)).refused(14);
        desk.call(on("A", 2099, 365, 0)).refused(13);
        desk.call(on("A", 2099, 365, 2)).gave_back(1);
        // Day 0 of 1980 is before its first; day 366 of 1999 is after its last.
        desk.call(until("A", 2026, 1)).granted(&[(2, 1)]);
        put(desk, [99, 1, 110]);
        desk.call(on("A", 1999, 365, 0)).refused(13);
        put(desk, [80, 0, 0]);
        desk.call(on("A", 1980, 1, 0)).gave_back(1);
    })
}
