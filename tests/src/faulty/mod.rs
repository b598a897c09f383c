//! A manager with a fault planted in it, to see that a comparison notices.

mod dates;
mod joins;

use std::hint::black_box;

use crate::call::{Manager, ALX, CONTIG, MXIG, NO_DATE, TODAY};
use crate::generate::glance::{stored_date, EXPIRY};
use crate::reference::layout::{
    put16, FORMAT, FORMAT_1, RECORD, UNIT, UNIT_CYLINDERS, UNIT_TRACKS,
};

/// What goes wrong, wherever it can.
#[derive(Clone, Copy, Debug, PartialEq, Eq)]
pub enum Fault {
    /// An accepted call says 9.
    RefusesAll,
    /// A refused call says 0.
    AcceptsAll,
    /// A refused call gives the next number.
    OtherRefusal,
    /// The last byte of the table after an accepted call.
    TableByte,
    /// The last byte of the answer after an accepted call.
    AnswerByte,
    /// The last byte of the labels after an accepted obtain.
    LabelsByte,
    /// A refused call clears the answer.
    RefusalAnswers,
    /// A refused call changes a byte of the table.
    RefusalWrites,
    /// The byte after the table.
    AfterTable,
    /// The byte before the answer.
    BeforeAnswer,
    /// The last byte of the name, which is only read.
    NameByte,
    /// The last byte of the second name or of the attributes, which are only read.
    SecondByte,
    /// The last byte of the table of an obtain, LSPACE or preview, which only read it.
    ReadTableByte,
    /// MXIG gives the amount and no more, as CONTIG does.
    MxigAmountOnly,
    /// The answer of an ALX has its pieces the other way round.
    AlxShortestFirst,
    /// A release of a cylinder file answers as it should, but keeps just TT + 1 tracks.
    CylindersCutInTwo,
    /// A release of a track file keeps whole cylinders.
    TracksToCylinders,
    /// A preview counts no slots: it says 0 where its call says 11.
    PreviewForgetsSlots,
    /// The preview of an allocate reports the amount asked for, not the tracks of the pieces.
    PreviewOfTheAmount,
    /// The preview of a release reports all tracks of the set.
    PreviewOfAllTracks,
    /// The preview of a release keeps just TT + 1 tracks, of a cylinder file too.
    PreviewCutsCylinders,
    /// A preview makes the call.
    PreviewMakesTheCall,
    /// A refused preview changes a byte of the table.
    PreviewRefusalWrites,
    /// A refused preview clears the answer.
    PreviewRefusalAnswers,
    /// The last byte of a date, which is only read.
    DateByte,
    /// 1900 is a leap year.
    LeapYear1900,
    /// Sign C is as good as sign F.
    SignC,
    /// The answer of a conversion has something after the date.
    DateAndMore,
    /// Four zero bytes are a date for a scratch.
    NoneIsToday,
    /// An override makes up for a bad date.
    OverrideOfABadDate,
    /// No override but 1 is one.
    OnlyOneOverrides,
    /// A set that expires today is unexpired.
    EqualIsLater,
    /// Days are compared by their low byte.
    DaysByTheLowByte,
    /// Days are compared, years are not.
    DayBeforeYear,
    /// Stored bytes that are no date have expired.
    OnlyDatesAreLater,
    /// A scratch looks at the date after it has looked for the name.
    DateAfterLookup,
    /// Zeros are stored, whatever the expiry date.
    ExpiryNotStored,
    /// Without an expiry date the attributes are stored as they are.
    AttributeBytesKept,
    /// A preview of a scratch looks at no date.
    PreviewForgetsDates,
    /// An extend appends every piece.
    NeverJoins,
    /// An extend joins no extent that lies in a format 3.
    JoinsInFormat1Only,
    /// The first piece of an extend is joined behind the set's highest track, not its last.
    JoinsTheHighest,
    /// A later piece is joined as well as the first.
    JoinsALaterPiece,
    /// A first piece that ends right before the last extent is joined too.
    JoinsBackwards,
    /// Refusal 10 counts extents before joining.
    TenBeforeJoining,
    /// Refusal 11 wants a format 3 for extents before joining.
    ElevenBeforeJoining,
    /// An X'81' extent stays one where an X'01' piece is joined.
    X81KeptBeforeX01,
    /// What is joined is X'01' though both are X'81'.
    X81Lost,
    /// An X'81' piece makes an X'01' extent X'81'.
    X01MadeX81,
    /// The answer leaves out a piece that is joined.
    JoinedPieceNotNamed,
    /// The answer names the whole extent in the place of the piece that is joined to it.
    WholeExtentNamed,
    /// A preview of an extend counts extents before joining.
    PreviewForgetsJoining,
}

pub const FAULTS: [Fault; 52] = [
    Fault::RefusesAll,
    Fault::AcceptsAll,
    Fault::OtherRefusal,
    Fault::TableByte,
    Fault::AnswerByte,
    Fault::LabelsByte,
    Fault::RefusalAnswers,
    Fault::RefusalWrites,
    Fault::AfterTable,
    Fault::BeforeAnswer,
    Fault::NameByte,
    Fault::SecondByte,
    Fault::ReadTableByte,
    Fault::MxigAmountOnly,
    Fault::AlxShortestFirst,
    Fault::CylindersCutInTwo,
    Fault::TracksToCylinders,
    Fault::PreviewForgetsSlots,
    Fault::PreviewOfTheAmount,
    Fault::PreviewOfAllTracks,
    Fault::PreviewCutsCylinders,
    Fault::PreviewMakesTheCall,
    Fault::PreviewRefusalWrites,
    Fault::PreviewRefusalAnswers,
    Fault::DateByte,
    Fault::LeapYear1900,
    Fault::SignC,
    Fault::DateAndMore,
    Fault::NoneIsToday,
    Fault::OverrideOfABadDate,
    Fault::OnlyOneOverrides,
    Fault::EqualIsLater,
    Fault::DaysByTheLowByte,
    Fault::DayBeforeYear,
    Fault::OnlyDatesAreLater,
    Fault::DateAfterLookup,
    Fault::ExpiryNotStored,
    Fault::AttributeBytesKept,
    Fault::PreviewForgetsDates,
    Fault::NeverJoins,
    Fault::JoinsInFormat1Only,
    Fault::JoinsTheHighest,
    Fault::JoinsALaterPiece,
    Fault::JoinsBackwards,
    Fault::TenBeforeJoining,
    Fault::ElevenBeforeJoining,
    Fault::X81KeptBeforeX01,
    Fault::X81Lost,
    Fault::X01MadeX81,
    Fault::JoinedPieceNotNamed,
    Fault::WholeExtentNamed,
    Fault::PreviewForgetsJoining,
];

pub struct Faulty<'a, M> {
    pub manager: &'a M,
    pub fault: Fault,
}

fn flip_last(bytes: &mut [u8]) {
    if let Some(byte) = bytes.last_mut() {
        *byte ^= 1;
    }
}

/// Turns the pieces of an answer round.
fn reverse_pieces(answer: &mut [u8]) {
    let end = 3 + 4 * usize::from(answer[2]);
    let (pieces, _) = answer[3..end].as_chunks_mut::<4>();
    pieces.reverse();
}

/// The format 1 of the set with this name.
fn label_of<'a>(table: &'a mut [u8], name: &[u8]) -> Option<&'a mut [u8; RECORD]> {
    let (records, _) = table.as_chunks_mut::<RECORD>();
    let named = |record: &&mut [u8; RECORD]| record[FORMAT] == FORMAT_1 && record[..44] == *name;
    records.iter_mut().find(named)
}

/// The unit byte of the set with this name.
fn unit_of<'a>(table: &'a mut [u8], name: &[u8]) -> Option<&'a mut u8> {
    label_of(table, name).map(|label| &mut label[UNIT])
}

/// Writes a buffer that was lent for reading, as a library in another language could.
fn overwrite_read(bytes: &[u8], with: &[u8]) {
    assert_eq!(bytes.len(), with.len());
    let start = black_box(bytes.as_ptr()).cast_mut();
    for (i, &byte) in with.iter().enumerate() {
        // SAFETY: the buffers of `beside` lie in memory that can be written.
        unsafe { start.add(i).write_volatile(byte) };
    }
}

fn flip_last_read(bytes: &[u8]) {
    let mut flipped = bytes.to_vec();
    flip_last(&mut flipped);
    overwrite_read(bytes, &flipped);
}

impl<M: Manager> Faulty<'_, M> {
    /// Spoils a buffer that is only read, where the fault is that one.
    fn spoil_read(&self, fault: Fault, bytes: &[u8]) {
        if self.fault == fault {
            flip_last_read(bytes);
        }
    }

    /// A release as if the set had another unit, which it gets back; nothing where its unit is not
    /// the one that the fault is about.
    fn release_by_another_unit(
        &self, table: &mut [u8], name: &[u8], ttr: u32, answer: &mut [u8],
    ) -> Option<u32> {
        let (unit, other) = match self.fault {
            Fault::CylindersCutInTwo => (UNIT_CYLINDERS, UNIT_TRACKS),
            Fault::TracksToCylinders => (UNIT_TRACKS, UNIT_CYLINDERS),
            _ => return None,
        };
        *unit_of(table, name).filter(|byte| **byte == unit)? = other;
        let result = self.manager.release(table, name, ttr, answer);
        *unit_of(table, name)? = unit;
        Some(result)
    }

    /// Spoils the expiry date of a set that was just allocated.
    fn spoil_expiry(&self, table: &mut [u8], name: &[u8], attributes: &[u8], expiry: &[u8]) {
        let stored = match self.fault {
            Fault::ExpiryNotStored => [0; 3],
            Fault::AttributeBytesKept if *expiry == NO_DATE => {
                [attributes[11], attributes[12], attributes[13]]
            }
            _ => return,
        };
        if let Some(label) = label_of(table, name) {
            label[EXPIRY].copy_from_slice(&stored);
        }
    }

    /// What the fault makes of the day and the override of a scratch on this table; a refusal where it
    /// makes one.
    fn scratch_for(
        &self, table: &[u8], name: &[u8], today: &[u8], overriding: u32,
    ) -> Result<(Vec<u8>, u32), u32> {
        let date = dates::today_for(self.fault, today, overriding);
        let overriding = dates::override_for(self.fault, overriding);
        let seen =
            |day: &[u8]| self.manager.preview_scratch(table, name, day, overriding, &mut [0; 24]);
        let result = seen(&date);
        if (self.fault, result, seen(&TODAY)) == (Fault::DateAfterLookup, 14, 5) {
            return Err(5);
        }
        let stored = stored_date(table, name);
        let later = stored.and_then(|stored| dates::later(self.fault, &stored, &date));
        match (later, overriding, result) {
            (Some((true, false)), 0, 0) => Err(13),
            (Some((false, true)), 0, 13) => Ok((date, 1)),
            _ => Ok((date, overriding)),
        }
    }

    /// Spoils a conversion: what is wrong of day 366 of 1900, which has the other form `leap_day`.
    fn spoil_date(
        &self, mut result: u32, date: &[u8], is_leap_day: bool, leap_day: &[u8], answer: &mut [u8],
    ) -> u32 {
        if self.fault == Fault::LeapYear1900 && is_leap_day && result == 14 {
            answer.fill(0);
            answer[..leap_day.len()].copy_from_slice(leap_day);
            result = 0;
        }
        if (self.fault, result) == (Fault::DateAndMore, 0) {
            answer[leap_day.len()] = 1;
        }
        self.spoil_read(Fault::DateByte, date);
        self.spoil(result, &mut [], answer)
    }

    /// Spoils a preview, whose call is `call`.
    fn spoil_preview(
        &self, result: u32, table: &[u8], name: &[u8], answer: &mut [u8],
        call: impl FnOnce(&mut [u8], &mut [u8]) -> u32,
    ) -> u32 {
        match (self.fault, result) {
            (Fault::PreviewForgetsSlots, 11) => return 0,
            (Fault::PreviewMakesTheCall, 0) => {
                let mut copy = table.to_vec();
                call(&mut copy, answer);
                overwrite_read(table, &copy);
            }
            (Fault::PreviewRefusalWrites, 1..) => flip_last_read(table),
            (Fault::PreviewRefusalAnswers, 1..) => answer.fill(0),
            _ => {}
        }
        self.spoil_read(Fault::NameByte, name);
        self.spoil_read(Fault::ReadTableByte, table);
        self.spoil(result, &mut [], answer)
    }

    fn spoil(&self, result: u32, table: &mut [u8], answer: &mut [u8]) -> u32 {
        match (self.fault, result) {
            (Fault::RefusesAll, 0) => return 9,
            (Fault::AcceptsAll, _) => return 0,
            (Fault::OtherRefusal, 1..) => return result + 1,
            (Fault::TableByte, 0) => flip_last(table),
            (Fault::AnswerByte, 0) => flip_last(answer),
            (Fault::RefusalAnswers, 1..) => answer.fill(0),
            (Fault::RefusalWrites, 1..) => flip_last(table),
            // SAFETY: the buffers of `beside` lie inside larger ones of their own.
            (Fault::AfterTable, 0) if !table.is_empty() => unsafe {
                *table.as_mut_ptr().add(table.len()) ^= 1
            },
            (Fault::BeforeAnswer, 0) => unsafe { *answer.as_mut_ptr().sub(1) ^= 1 },
            _ => {}
        }
        result
    }
}

impl<M: Manager> Manager for Faulty<'_, M> {
    fn initialise(
        &self, table: &mut [u8], c: u32, h: u32, d: u32, s: u32, v: u32, answer: &mut [u8],
    ) -> u32 {
        let result = self.manager.initialise(table, c, h, d, s, v, answer);
        self.spoil(result, table, answer)
    }
    fn allocate(
        &self, table: &mut [u8], name: &[u8], attributes: &[u8], kind: u32, start: u32,
        amount: u32, secondary: u32, option: u32, expiry: &[u8], answer: &mut [u8],
    ) -> u32 {
        let date = &dates::packed_for(self.fault, expiry);
        let taken_for = match (self.fault, option) {
            (Fault::MxigAmountOnly, MXIG) => CONTIG,
            _ => option,
        };
        let result = self.manager.allocate(
            table, name, attributes, kind, start, amount, secondary, taken_for, date, answer,
        );
        if result == 0 {
            self.spoil_expiry(table, name, attributes, expiry);
        }
        if (self.fault, option, result) == (Fault::AlxShortestFirst, ALX, 0) {
            reverse_pieces(answer);
        }
        self.spoil_read(Fault::NameByte, name);
        self.spoil_read(Fault::SecondByte, attributes);
        self.spoil_read(Fault::DateByte, expiry);
        self.spoil(result, table, answer)
    }
    fn extend(&self, table: &mut [u8], name: &[u8], answer: &mut [u8]) -> u32 {
        let before = (table.to_vec(), answer.to_vec());
        let mut result = self.manager.extend(table, name, answer);
        if result == 0 {
            if let Err(refusal) = joins::spoil(self.fault, &before.0, name, table, answer) {
                table.copy_from_slice(&before.0);
                answer.copy_from_slice(&before.1);
                result = refusal;
            }
        }
        self.spoil_read(Fault::NameByte, name);
        self.spoil(result, table, answer)
    }
    fn release(&self, table: &mut [u8], name: &[u8], ttr: u32, answer: &mut [u8]) -> u32 {
        let mut copy = table.to_vec();
        let wrong = self.release_by_another_unit(table, name, ttr, answer);
        let result = match (wrong, self.fault) {
            // Only the table is wrong.
            (Some(_), Fault::CylindersCutInTwo) => {
                self.manager.release(&mut copy, name, ttr, answer)
            }
            (Some(result), _) => result,
            (None, _) => self.manager.release(table, name, ttr, answer),
        };
        self.spoil_read(Fault::NameByte, name);
        self.spoil(result, table, answer)
    }
    fn scratch(
        &self, table: &mut [u8], name: &[u8], today: &[u8], overriding: u32, answer: &mut [u8],
    ) -> u32 {
        let result = match self.scratch_for(table, name, today, overriding) {
            Ok((date, overriding)) => self.manager.scratch(table, name, &date, overriding, answer),
            Err(refusal) => refusal,
        };
        self.spoil_read(Fault::NameByte, name);
        self.spoil_read(Fault::DateByte, today);
        self.spoil(result, table, answer)
    }
    fn rename(&self, table: &mut [u8], old: &[u8], new: &[u8], answer: &mut [u8]) -> u32 {
        let result = self.manager.rename(table, old, new, answer);
        self.spoil_read(Fault::NameByte, old);
        self.spoil_read(Fault::SecondByte, new);
        self.spoil(result, table, answer)
    }
    fn obtain(&self, table: &[u8], name: &[u8], labels: &mut [u8], answer: &mut [u8]) -> u32 {
        let result = self.manager.obtain(table, name, labels, answer);
        if (self.fault, result) == (Fault::LabelsByte, 0) {
            flip_last(labels);
        }
        self.spoil_read(Fault::NameByte, name);
        self.spoil_read(Fault::ReadTableByte, table);
        self.spoil(result, &mut [], answer)
    }
    fn lspace(&self, table: &[u8], answer: &mut [u8]) -> u32 {
        let result = self.manager.lspace(table, answer);
        self.spoil_read(Fault::ReadTableByte, table);
        self.spoil(result, &mut [], answer)
    }
    fn preview_allocate(
        &self, table: &[u8], name: &[u8], attributes: &[u8], kind: u32, start: u32, amount: u32,
        secondary: u32, option: u32, expiry: &[u8], answer: &mut [u8],
    ) -> u32 {
        let date = &dates::packed_for(self.fault, expiry);
        let result = self.manager.preview_allocate(
            table, name, attributes, kind, start, amount, secondary, option, date, answer,
        );
        if (self.fault, result) == (Fault::PreviewOfTheAmount, 0) {
            put16(answer, 0, amount);
        }
        self.spoil_read(Fault::SecondByte, attributes);
        self.spoil_read(Fault::DateByte, expiry);
        self.spoil_preview(result, table, name, answer, |table, answer| {
            self.manager.allocate(
                table, name, attributes, kind, start, amount, secondary, option, date, answer,
            )
        })
    }
    fn preview_extend(&self, table: &[u8], name: &[u8], answer: &mut [u8]) -> u32 {
        let before = answer.to_vec();
        let mut result = self.manager.preview_extend(table, name, answer);
        if (self.fault, result) == (Fault::PreviewForgetsJoining, 0) {
            let mut copy = table.to_vec();
            self.manager.extend(&mut copy, name, &mut [0; 24]);
            if let Some(refusal) = joins::preview_refusal(table, name, &copy) {
                answer.copy_from_slice(&before);
                result = refusal;
            }
        }
        self.spoil_preview(result, table, name, answer, |table, answer| {
            self.manager.extend(table, name, answer)
        })
    }
    fn preview_release(&self, table: &[u8], name: &[u8], ttr: u32, answer: &mut [u8]) -> u32 {
        let result = self.manager.preview_release(table, name, ttr, answer);
        match (self.fault, result) {
            (Fault::PreviewOfAllTracks, 0) => {
                self.manager.preview_scratch(table, name, &TODAY, 1, answer);
            }
            (Fault::PreviewCutsCylinders, 0) => {
                let mut copy = table.to_vec();
                if let Some(unit) = unit_of(&mut copy, name) {
                    *unit = UNIT_TRACKS;
                }
                self.manager.preview_release(&copy, name, ttr, answer);
            }
            _ => {}
        }
        self.spoil_preview(result, table, name, answer, |table, answer| {
            self.manager.release(table, name, ttr, answer)
        })
    }
    fn preview_scratch(
        &self, table: &[u8], name: &[u8], today: &[u8], overriding: u32, answer: &mut [u8],
    ) -> u32 {
        let made = self.scratch_for(table, name, today, overriding);
        let (date, overriding) = made.clone().unwrap_or((today.to_vec(), overriding));
        let mut result = match made {
            Ok(_) => self.manager.preview_scratch(table, name, &date, overriding, answer),
            Err(refusal) => refusal,
        };
        if self.fault == Fault::PreviewForgetsDates && [13, 14].contains(&result) {
            result = self.manager.preview_scratch(table, name, &TODAY, 1, answer);
        }
        self.spoil_read(Fault::DateByte, today);
        self.spoil_preview(result, table, name, answer, |table, answer| {
            self.manager.scratch(table, name, &date, overriding, answer)
        })
    }
    fn date_to_stored(&self, packed: &[u8], answer: &mut [u8]) -> u32 {
        let result = self.manager.date_to_stored(&dates::packed_for(self.fault, packed), answer);
        let (from, to) = dates::no_leap_day();
        self.spoil_date(result, packed, *packed == from, &to, answer)
    }
    fn date_to_packed(&self, stored: &[u8], answer: &mut [u8]) -> u32 {
        let result = self.manager.date_to_packed(stored, answer);
        let (to, from) = dates::no_leap_day();
        self.spoil_date(result, stored, *stored == from, &to, answer)
    }
}
