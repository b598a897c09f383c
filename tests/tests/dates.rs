//! Every date: the reference beside the audit and beside a calendar that is walked day by day.

use vtoc_tests::audit::dates as audit;
use vtoc_tests::call::{Manager, Reference};
use vtoc_tests::every_date::{compare, Counts};
use vtoc_tests::faulty::{Fault, Faulty};
use vtoc_tests::generate::dates::{with_half_byte, wrong_half_bytes};
use vtoc_tests::reference::dates as reference;

/// The dates of 1900 to 2099.
const DATES: usize = 73_049;

/// The number of 1 January in the count of Julian days.
fn new_year(year: u32) -> u32 {
    let y = year + 4799;
    1 + (153 * 10 + 2) / 5 + 365 * y + y / 4 - y / 100 + y / 400 - 32_045
}

/// A calendar: both forms, counted up like the wheels of a meter.
struct Walk {
    /// C, Y, Y, D, D, D.
    wheels: [u8; 6],
    stored: [u8; 3],
    /// The Julian day.
    day: u32,
}

impl Walk {
    fn new() -> Walk {
        Walk { wheels: [0, 0, 0, 0, 0, 1], stored: [0, 0, 1], day: new_year(1900) }
    }

    fn packed(&self) -> [u8; 4] {
        let [c, y, z, d, e, f] = self.wheels;
        [c, y << 4 | z, d << 4 | e, f << 4 | 0x0F]
    }

    /// The next day, up to the end of 2099.
    fn step(&mut self) -> bool {
        self.day += 1;
        if self.day == new_year(1901 + u32::from(self.stored[0])) {
            self.wheels[3..].copy_from_slice(&[0, 0, 1]);
            turn(&mut self.wheels[..3]);
            self.stored = [self.stored[0] + 1, 0, 1];
        } else {
            turn(&mut self.wheels[3..]);
            let (low, carry) = self.stored[2].overflowing_add(1);
            self.stored = [self.stored[0], self.stored[1] + u8::from(carry), low];
        }
        self.wheels[0] < 2
    }
}

/// The last wheel moves by one, and those before it where it has gone round.
fn turn(wheels: &mut [u8]) {
    for wheel in wheels.iter_mut().rev() {
        if *wheel < 9 {
            *wheel += 1;
            return;
        }
        *wheel = 0;
    }
}

/// All dates, in order.
fn calendar() -> Vec<([u8; 4], [u8; 3])> {
    let mut walk = Walk::new();
    let mut dates = vec![(walk.packed(), walk.stored)];
    while walk.step() {
        dates.push((walk.packed(), walk.stored));
    }
    dates
}

#[test]
fn the_calendar_is_the_known_one() {
    // Julian days that are in every almanac.
    assert_eq!([1900, 2000, 2100].map(new_year), [2_415_021, 2_451_545, 2_488_070]);
    let dates = calendar();
    assert_eq!(dates.len(), DATES);
    assert_eq!(dates[0], ([0x00, 0x00, 0x00, 0x1F], [0, 0, 1]));
    // 100 years of 365 days, and 24 days, since 1900 has none too many.
    assert_eq!(dates[36_524], ([0x01, 0x00, 0x00, 0x1F], [100, 0, 1]));
    assert_eq!(dates[36_524 + 365], ([0x01, 0x00, 0x36, 0x6F], [100, 1, 110]));
    assert_eq!(dates[DATES - 1], ([0x01, 0x99, 0x36, 0x5F], [199, 1, 109]));
}

/// All 2^24 stored forms.
#[test]
fn every_stored_form() {
    let dates = calendar();
    let mut next = dates.iter().peekable();
    for number in 0..1_u32 << 24 {
        let [_, stored @ ..] = number.to_be_bytes();
        let walked = next.next_if(|(_, date)| *date == stored).map(|(packed, _)| *packed);
        assert_eq!(reference::packed(&stored), walked, "{stored:02X?}");
        assert_eq!(audit::of_stored(&stored).is_some(), walked.is_some(), "{stored:02X?}");
    }
    assert!(next.next().is_none());
}

/// All packed forms that begin with 00 or 01, and the same bytes after 02 and 10.
#[test]
fn every_packed_form() {
    let dates = calendar();
    let mut next = dates.iter().peekable();
    for number in 0..2_u32 << 24 {
        let packed = number.to_be_bytes();
        let walked = next.next_if(|(date, _)| *date == packed).map(|(_, stored)| *stored);
        assert_eq!(reference::stored(&packed), walked, "{packed:02X?}");
    }
    assert!(next.next().is_none());
    for number in (2_u32 << 24..3 << 24).chain(0x10 << 24..0x11 << 24) {
        assert_eq!(reference::stored(&number.to_be_bytes()), None);
    }
}

/// All digits 0, C, Y, Y, D, D, D with the sign F.
#[test]
fn every_year_with_every_three_digits() {
    let dates = calendar();
    let mut next = dates.iter().peekable();
    for (year, day) in (1900..2100).flat_map(|year| (0..1000).map(move |day| (year, day))) {
        let packed = audit::packed(year, day);
        let walked = next.next_if(|(date, _)| *date == packed).map(|(_, stored)| *stored);
        assert_eq!(reference::stored(&packed), walked, "{year} {day}");
        assert_eq!(audit::of_packed(&packed), walked.map(|_| (year, day)));
        assert_eq!(walked.unwrap_or(audit::stored(year, day)), audit::stored(year, day));
    }
    assert!(next.next().is_none());
}

/// Each half byte of many dates wrong in each way; of all of them for the reference alone.
#[test]
fn every_wrong_half_byte() {
    let mut forms = 0;
    for (i, (packed, _)) in calendar().into_iter().enumerate() {
        for (at, half) in (0..8).flat_map(|at| wrong_half_bytes(at).map(move |half| (at, half))) {
            let wrong = with_half_byte(packed.to_vec(), at, half);
            assert_ne!(wrong, packed);
            assert_eq!(reference::stored(wrong[..].try_into().unwrap()), None, "{wrong:02X?}");
            assert!(i % 73 != 0 || audit::of_packed(&wrong).is_none(), "{wrong:02X?}");
            forms += 1;
        }
    }
    assert_eq!(forms, DATES * (15 + 14 + 5 * 6 + 15));
}

/// What one conversion gives, the other turns into what it was.
#[test]
fn there_and_back() {
    for (packed, stored) in calendar() {
        let (mut one, mut other) = ([0xA5; 24], [0xA5; 24]);
        assert_eq!(Reference.date_to_stored(&packed, &mut one), 0);
        assert_eq!((&one[..3], &one[3..]), (&stored[..], &[0; 21][..]));
        assert_eq!(Reference.date_to_packed(&one[..3], &mut other), 0);
        assert_eq!((&other[..4], &other[4..]), (&packed[..], &[0; 20][..]));
    }
}

/// A later day has the later stored form and the higher packed one.
#[test]
fn in_order() {
    for two in calendar().windows(2) {
        let ((one_packed, one), (next_packed, next)) = (two[0], two[1]);
        assert!(audit::is_later(&next, &one) && !audit::is_later(&one, &next));
        assert!(!audit::is_later(&one, &one));
        assert!(one < next && one_packed < next_packed);
    }
}

/// Of any three bytes, in the two ways: as the document says it, and as arrays compare.
#[test]
fn order_of_any_bytes() {
    let bytes = [0, 1, 2, 99, 100, 127, 128, 199, 200, 254, 255];
    let any: Vec<[u8; 3]> = bytes
        .into_iter()
        .flat_map(|a| bytes.into_iter().flat_map(move |b| bytes.map(|c| [a, b, c])))
        .collect();
    for one in &any {
        for other in &any {
            assert_eq!(audit::is_later(one, other), one > other, "{one:02X?} {other:02X?}");
        }
    }
}

/// The comparison that the program `calls` makes, with the reference in the library's place.
#[test]
fn every_date_beside_itself() {
    let counts = compare(&Reference).expect("like itself");
    let Counts { stored, packed, dates, scratches, unexpired } = counts;
    assert_eq!((stored, packed - 10 * 365 * 74), ((1 << 24) + DATES, (3 << 24) + DATES));
    assert_eq!((dates, scratches), (2 * DATES, 3 * 256 * 200 + 6 * 366 * 18));
    assert!(unexpired > 80_000, "{unexpired}");
}

#[test]
fn faults_are_noticed_there() {
    for fault in [
        Fault::LeapYear1900,
        Fault::SignC,
        Fault::DateAndMore,
        Fault::DateByte,
        Fault::OnlyOneOverrides,
        Fault::EqualIsLater,
        Fault::DaysByTheLowByte,
        Fault::DayBeforeYear,
        Fault::OnlyDatesAreLater,
        Fault::PreviewForgetsDates,
    ] {
        assert!(compare(&Faulty { manager: &Reference, fault }).is_err(), "{fault:?}");
    }
}
