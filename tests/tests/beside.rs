//! The comparison of two managers notices what is planted in one, and nothing else.

use vtoc_tests::beside::{both, Rooms};
use vtoc_tests::call::{Call, Manager, Reference};
use vtoc_tests::faulty::{Fault, Faulty, FAULTS};
use vtoc_tests::generate::date_rows;
use vtoc_tests::generate::grids;
use vtoc_tests::generate::session::Session;

/// Calls of a few lives until a difference is found, if one is.
fn difference(manager: &impl Manager, sides: u64) -> Option<(Call, String)> {
    let mut rooms = Rooms::new();
    let touching = (1..60).map(|seed| (Session::touching(seed), 40));
    for (session, calls) in (1..10).map(|seed| (Session::new(seed), 300)).chain(touching) {
        let mut session = session.with_previews().with_dates();
        for _ in 0..calls {
            let trial = session.next_trial();
            match both(manager, &trial.call, &trial.buffers, &mut rooms, sides) {
                Ok(answered) => session.keep(&trial, answered.buffers.table),
                Err(text) => return Some((trial.call, text)),
            }
        }
    }
    None
}

#[test]
fn the_reference_is_like_itself() {
    for sides in [0b000000, 0b111111, 0b101010] {
        assert_eq!(difference(&Reference, sides), None);
    }
}

#[test]
fn every_fault_is_noticed() {
    for fault in FAULTS {
        // The table at the start of its room and the answer at the end, so that the bytes beside
        // them can be written.
        let found = difference(&Faulty { manager: &Reference, fault }, 0b10);
        let (call, text) = found.unwrap_or_else(|| panic!("{fault:?} was not noticed"));
        let expected = match fault {
            Fault::RefusesAll | Fault::AcceptsAll | Fault::OtherRefusal => "result ",
            Fault::TableByte | Fault::RefusalWrites => "table: byte",
            Fault::AfterTable => "was written, of",
            Fault::AnswerByte | Fault::RefusalAnswers => "answer: byte",
            Fault::BeforeAnswer => "answer: byte -1 was written",
            Fault::LabelsByte => "labels: byte 279",
            Fault::NameByte => "name: byte",
            Fault::SecondByte => "second name or attributes: byte",
            Fault::ReadTableByte => "table: byte",
            Fault::MxigAmountOnly => "table: byte",
            Fault::AlxShortestFirst => "answer: byte",
            Fault::CylindersCutInTwo | Fault::TracksToCylinders => "table: byte",
            Fault::PreviewForgetsSlots => "result 0, not 11",
            Fault::PreviewOfTheAmount
            | Fault::PreviewOfAllTracks
            | Fault::PreviewCutsCylinders
            | Fault::PreviewRefusalAnswers => "answer: byte",
            Fault::PreviewMakesTheCall | Fault::PreviewRefusalWrites => "table: byte",
            Fault::DateByte => "date: byte",
            Fault::DateAndMore => "answer: byte",
            Fault::ExpiryNotStored | Fault::AttributeBytesKept => "table: byte",
            Fault::LeapYear1900
            | Fault::SignC
            | Fault::NoneIsToday
            | Fault::OverrideOfABadDate
            | Fault::DateAfterLookup => "not 14",
            Fault::OnlyOneOverrides | Fault::EqualIsLater => "result 13, not 0",
            Fault::OnlyDatesAreLater => "result 0, not 13",
            Fault::DaysByTheLowByte | Fault::DayBeforeYear => "13",
            Fault::PreviewForgetsDates => "not 1",
            Fault::NeverJoins
            | Fault::JoinsInFormat1Only
            | Fault::JoinsTheHighest
            | Fault::JoinsALaterPiece
            | Fault::JoinsBackwards
            | Fault::X81KeptBeforeX01
            | Fault::X81Lost
            | Fault::X01MadeX81 => "table: byte",
            Fault::TenBeforeJoining => "result 10, not 0",
            Fault::ElevenBeforeJoining => "result 11, not 0",
            Fault::JoinedPieceNotNamed | Fault::WholeExtentNamed => "answer: byte",
            Fault::PreviewForgetsJoining => ", not 0",
        };
        assert!(text.contains(expected), "{fault:?} {call:?}: {text}");
    }
}

/// Rows of the grids go both ways: some of each are accepted, where that can be.
#[test]
fn grids_are_not_all_refused() {
    let mut rooms = Rooms::new();
    let grids = [
        grids::lengths(),
        grids::amounts(),
        grids::options(),
        grids::ttrs(),
        grids::elsewhere(),
        grids::joins(),
        grids::geometries(),
        grids::previews(),
        date_rows::forms(),
        date_rows::scratches(),
    ];
    for rows in grids {
        let mut accepted = 0;
        for (call, buffers) in &rows {
            let answered = both(&Reference, call, buffers, &mut rooms, 0).expect("itself");
            accepted += usize::from(answered.result == 0);
        }
        assert!(accepted >= 8 && accepted < rows.len(), "{accepted} of {}", rows.len());
    }
}
