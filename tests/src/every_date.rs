//! Every date, and every form that is none but might be taken for one: a manager beside the reference,
//! without guard pages and so fast: document 02, [5].

use std::hint::black_box;

use crate::audit::dates::packed;
use crate::call::{Manager, Reference};
use crate::generate::dates::{with_half_byte, wrong_half_bytes, YEARS};
use crate::generate::glance::EXPIRY;
use crate::volumes::{fresh, name, place};

/// What was compared.
#[derive(Debug, Default, PartialEq, Eq)]
pub struct Counts {
    /// Stored forms, packed forms, and those among both that are dates.
    pub stored: usize,
    pub packed: usize,
    pub dates: usize,
    /// Scratches, and those among them that were refused for their date.
    pub scratches: usize,
    pub unexpired: usize,
}

/// A buffer for answers, full of what no answer has.
const UNTOUCHED: [u8; 24] = [0xA5; 24];

/// All comparisons; an error says where the two differ.
pub fn compare(manager: &impl Manager) -> Result<Counts, String> {
    let mut every = Every { manager, counts: Counts::default() };
    every.scratches()?;
    every.half_bytes()?;
    every.stored_forms()?;
    every.packed_forms()?;
    Ok(every.counts)
}

struct Every<'a, M> {
    manager: &'a M,
    counts: Counts,
}

impl<M: Manager> Every<'_, M> {
    /// Converts a packed date, by both; its stored form.
    fn stored_form(&mut self, date: [u8; 4]) -> Result<Option<[u8; 3]>, String> {
        let (lent, mut answer, mut wanted) = (black_box(date), UNTOUCHED, UNTOUCHED);
        let result = self.manager.date_to_stored(&lent, &mut answer);
        let expected = Reference.date_to_stored(&date, &mut wanted);
        if (result, answer, black_box(&lent)) != (expected, wanted, &date) {
            return Err(format!("packed {date:02X?}: {result} {answer:02X?}, not {expected}"));
        }
        self.counts.packed += 1;
        Ok((result == 0).then(|| [answer[0], answer[1], answer[2]]))
    }

    /// The same the other way.
    fn packed_form(&mut self, date: [u8; 3]) -> Result<Option<[u8; 4]>, String> {
        let (lent, mut answer, mut wanted) = (black_box(date), UNTOUCHED, UNTOUCHED);
        let result = self.manager.date_to_packed(&lent, &mut answer);
        let expected = Reference.date_to_packed(&date, &mut wanted);
        if (result, answer, black_box(&lent)) != (expected, wanted, &date) {
            return Err(format!("stored {date:02X?}: {result} {answer:02X?}, not {expected}"));
        }
        self.counts.stored += 1;
        Ok((result == 0).then(|| [answer[0], answer[1], answer[2], answer[3]]))
    }

    /// All 2^24 stored forms; the dates among them there and back.
    fn stored_forms(&mut self) -> Result<(), String> {
        for number in 0..1_u32 << 24 {
            let [_, date @ ..] = number.to_be_bytes();
            if let Some(other) = self.packed_form(date)? {
                self.counts.dates += 1;
                if self.stored_form(other)? != Some(date) {
                    return Err(format!("stored {date:02X?} does not come back"));
                }
            }
        }
        Ok(())
    }

    /// All packed forms that begin with digits 0 and C, be C right or not by one.
    fn packed_forms(&mut self) -> Result<(), String> {
        for number in 0..3_u32 << 24 {
            let date = number.to_be_bytes();
            if let Some(other) = self.stored_form(date)? {
                self.counts.dates += 1;
                if self.packed_form(other)? != Some(date) {
                    return Err(format!("packed {date:02X?} does not come back"));
                }
            }
        }
        Ok(())
    }

    /// Each half byte of all dates of some years wrong in each way.
    fn half_bytes(&mut self) -> Result<(), String> {
        for (year, day) in YEARS.into_iter().flat_map(|year| (1..=365).map(move |day| (year, day)))
        {
            let date = packed(year, day).to_vec();
            for at in 0..8 {
                for half in wrong_half_bytes(at) {
                    let wrong = with_half_byte(date.clone(), at, half);
                    let four = wrong.try_into().expect("four bytes");
                    if self.stored_form(four)?.is_some() {
                        return Err(format!("{four:02X?} is taken for a date"));
                    }
                }
            }
        }
        Ok(())
    }

    /// Scratches of a set with each year byte on each year, and with days that matter on each day.
    fn scratches(&mut self) -> Result<(), String> {
        for (byte, year) in (0..=255).flat_map(|byte| (1900..2100).map(move |year| (byte, year))) {
            for (days, day) in [([0, 1], 365), ([1, 0x6D], 1), ([0xFF; 2], 1)] {
                self.scratch([byte, days[0], days[1]], packed(year, day), 0)?;
            }
        }
        for (day, stored) in (1..=366).flat_map(|day| days_around(day).map(move |days| (day, days)))
        {
            let ([high, low], today) = (stored.to_be_bytes(), packed(2000, day.into()));
            for byte in [99, 100, 101] {
                self.scratch([byte, high, low], today, 0)?;
                self.scratch([byte, high, low], today, 1 << (day % 32))?;
            }
        }
        Ok(())
    }

    /// A scratch and its preview, by both.
    fn scratch(&mut self, expiry: [u8; 3], today: [u8; 4], overriding: u32) -> Result<(), String> {
        let name = name("A");
        let table = with_one_set(expiry);
        let (mut one, mut other) = (table, table);
        let (mut answer, mut wanted, mut seen) = (UNTOUCHED, UNTOUCHED, UNTOUCHED);
        let preview = self.manager.preview_scratch(&one, &name, &today, overriding, &mut seen);
        let is_written = one != table;
        let result = self.manager.scratch(&mut one, &name, &today, overriding, &mut answer);
        let expected = Reference.scratch(&mut other, &name, &today, overriding, &mut wanted);
        if (preview, result) != (expected, expected) {
            return Err(format!(
                "scratch of {expiry:02X?} on {today:02X?}, override {overriding}: {preview} seen, {result} made, not {expected}"
            ));
        }
        if is_written || (one, answer, seen) != (other, wanted, wanted) {
            return Err(format!("scratch of {expiry:02X?} on {today:02X?}: other bytes"));
        }
        self.counts.scratches += 1;
        self.counts.unexpired += usize::from(result == 13);
        Ok(())
    }
}

/// Two bytes in the place of a day: those next to a day and those that share a byte with it.
fn days_around(day: u16) -> impl Iterator<Item = u16> {
    let [high, low] = day.to_be_bytes();
    let turned = u16::from_be_bytes([low, high]);
    let same = [day, day.wrapping_sub(1), day + 1, turned, day ^ 0x0100, day ^ 0x8000, day ^ 0x80];
    same.into_iter().chain([0, 1, 255, 256, 257, 366, 367, 0x7FFF, 0x8000, 0xFF00, 0xFFFF])
}

/// A table of three records with one set.
type Table = [u8; 3 * 140];

fn with_one_set(expiry: [u8; 3]) -> Table {
    use std::sync::OnceLock;
    static MADE: OnceLock<Table> = OnceLock::new();
    let mut table = *MADE.get_or_init(|| {
        let mut table = fresh(4, 1, 3, 1, 1);
        place(&mut table, "A", 0, 0, 1, 0);
        table.try_into().expect("three records")
    });
    table[2 * 140..][EXPIRY].copy_from_slice(&expiry);
    table
}
