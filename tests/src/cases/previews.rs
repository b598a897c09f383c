//! Previews of allocate, extend, release and scratch: document 02, [3].

use super::{sequence, Sequence};
use crate::audit::{table_with, Extent, Set};
use crate::call::{Call, ALX, CONTIG, MXIG};
use crate::desk::Desk;
use crate::reference::layout::ATTRIBUTES;
use crate::short::*;
use crate::volumes::name;

pub fn sequences() -> Vec<Sequence> {
    vec![seen_first(), where_slots_decide()]
}

fn seen_first() -> Sequence {
    sequence("What each call would answer, and then the call", |desk| {
        // Anywhere: there is no table yet.
        desk.preview(&tracks("A", 4, 0)).refused(2);
        desk.initialise(4, 5, 4, 1, 2).without_numbers();
        grants(desk);
        refusals(desk);
        given_back(desk);
    })
}

fn grants(desk: &mut Desk) {
    desk.seen_and_made(tracks("A", 4, 0)).granted(&[(3, 4)]);
    desk.seen_and_made(cylinders("B", 1, 1)).granted(&[(10, 5)]);
    // One after another, and nothing is taken: 7–9 and 15–19 stay free.
    desk.preview(&absolute("C", 16, 2)).granted(&[(16, 2)]);
    desk.preview(&tracks_by(CONTIG, "C", 3, 0)).granted(&[(7, 3)]);
    desk.preview(&tracks_by(MXIG, "C", 1, 0)).granted(&[(15, 5)]);
    desk.preview(&tracks_by(ALX, "C", 3, 0)).granted(&[(15, 5), (7, 3)]);
    desk.seen_and_made(tracks("C", 7, 2)).granted(&[(15, 5), (7, 2)]);
}

/// Free: 9.
fn refusals(desk: &mut Desk) {
    desk.preview(&tracks("", 1, 0)).refused(4);
    desk.preview(&absolute("D", 19, 2)).refused(7);
    desk.preview(&tracks("A", 1, 0)).refused(6);
    desk.seen_and_made(tracks("D", 2, 0)).refused(9);
    desk.preview(&extend("C.")).refused(4);
    desk.preview(&extend("D")).refused(5);
    desk.preview(&extend("A")).refused(8);
    desk.seen_and_made(extend("B")).refused(9);
    desk.preview(&release("9", 0, 1)).refused(4);
    desk.preview(&release("D", 0, 1)).refused(5);
    desk.seen_and_made(release("C", 7, 1)).refused(12);
    desk.preview(&scratch("-")).refused(4);
    desk.seen_and_made(scratch("D")).refused(5);
}

fn given_back(desk: &mut Desk) {
    // All of a cylinder is kept.
    desk.seen_and_made(release("B", 0, 1)).gave_back(0);
    desk.seen_and_made(release("C", 4, 1)).gave_back(2);
    // A preview frees nothing: 7–9 holds no cylinder still.
    desk.preview(&scratch("B")).gave_back(5);
    desk.preview(&extend("B")).refused(9);
    desk.seen_and_made(scratch("C")).gave_back(5);
    desk.seen_and_made(extend("B")).granted(&[(15, 5)]);
    // 10–14, though TT + 1 is two tracks.
    desk.seen_and_made(release("B", 1, 1)).gave_back(5);
    for option in [CONTIG, MXIG, ALX] {
        desk.preview(&cylinders_by(option, "D", 1, 0)).granted(&[(15, 5)]);
    }
}

fn where_slots_decide() -> Sequence {
    sequence("Previews where slots decide; damaged tables, and every length", |desk| {
        four_records(desk);
        lengths(desk);
        damages(desk);
        full(desk);
    })
}

/// Two sets by turns, A of three extents, and the VTOC is full.
fn four_records(desk: &mut Desk) {
    desk.initialise(5, 4, 4, 1, 1).without_numbers();
    desk.tracks("A", 1, 1).granted(&[(2, 1)]);
    desk.tracks("D", 1, 1).granted(&[(3, 1)]);
    desk.seen_and_made(tracks("B", 1, 0)).refused(11);
    for (text, track) in [("A", 4), ("D", 5), ("A", 6), ("D", 7)] {
        desk.extend(text).granted(&[(track, 1)]);
    }
    desk.seen_and_made(extend("A")).refused(11);
}

/// The call with another length of its name.
fn with_name(mut call: Call, length: usize) -> Call {
    match &mut call {
        Call::Allocate { name, .. }
        | Call::Extend { name }
        | Call::Release { name, .. }
        | Call::Scratch { name, .. } => name.resize(length, 0x40),
        _ => unreachable!("no preview of {call:?}"),
    }
    call
}

fn lengths(desk: &mut Desk) {
    let table = desk.table.len();
    let calls = [tracks("B", 1, 0), extend("A"), release("A", 0, 1), scratch("A")];
    let mut lent = |table, answer, call: &Call| {
        let preview = call.preview().expect("one of the four");
        desk.sized(table, answer, 0, preview)
    };
    let others = [(table - 1, 23, 43), (table + 1, 25, 45), (280, 0, 0), (0, 48, 88)];
    for (call, (other_table, answer, name)) in calls.iter().zip(others) {
        assert_eq!(lent(other_table, 24, call), 2);
        assert_eq!(lent(table, answer, call), 2);
        assert_eq!(lent(table, 24, &with_name(call.clone(), name)), 2);
    }
    let mut short = tracks("B", 1, 0);
    if let Call::Allocate { attributes, .. } = &mut short {
        attributes.truncate(51);
    }
    assert_eq!(lent(table, 24, &short), 2);
    // A length that some table may have, but not this one; and the right one.
    assert_eq!(lent(table + 140, 24, &extend("A")), 3);
    assert_eq!(lent(table, 24, &scratch("A")), 0);
}

fn damages(desk: &mut Desk) {
    let mut damaged = desk.table.clone();
    damaged[60] = 1;
    // An unsound table comes before a bad name.
    for call in [tracks("", 1, 0), extend("9"), release("", 0, 1), scratch("9")] {
        assert_eq!(desk.hurt(&damaged, call.preview().expect("one of the four")), 3);
    }
}

/// 26 free extents and no free slot, in a table that another system may have made.
fn full(desk: &mut Desk) {
    desk.initialise(20, 3, 8, 2, 1).without_numbers();
    for text in ["COMB", "REST", "A"] {
        desk.tracks(text, 1, 1).accepted();
    }
    let mut other = with_26_free_extents();
    // The fewer bytes are changed, the shorter the row.
    for (slot, (from, to)) in (2..5).flat_map(|slot| ATTRIBUTES.map(|part| (slot, part))) {
        let part = 140 * slot + from..140 * slot + to;
        other[part.clone()].copy_from_slice(&desk.table[part]);
    }
    desk.put(&other);
    // A 17th extent.
    desk.seen_and_made(extend("COMB")).refused(10);
    // 41 would be the 27th free extent.
    desk.seen_and_made(release("A", 4, 1)).refused(11);
    desk.preview(&scratch("COMB")).gave_back(16);
    // 35–36, and on to 38: the format 3 goes, and a format 5 takes its slot.
    desk.seen_and_made(release("A", 1, 1)).gave_back(2);
    // Three free extents go, and with them that format 5.
    desk.seen_and_made(extend("REST")).granted(&[(1, 1), (3, 1), (5, 1)]);
}

/// H = 3. Free: 1, 3, 5, .., 33 and 43, 45, .., 59.
fn with_26_free_extents() -> Vec<u8> {
    let comb = |first: u32, last: u32| -> Vec<Extent> {
        (first..=last).step_by(2).map(|track| (0x01, track, track)).collect()
    };
    let a = [(35, 36), (37, 37), (38, 38), (39, 39), (41, 41)];
    let a = a.map(|(first, last)| (0x01, first, last)).to_vec();
    let set = |text, slot, unit, secondary, extents| {
        Set::new(slot, Some(slot + 3), name(text), unit, secondary, extents)
    };
    let sets = vec![
        set("COMB", 2, 0x80, 1, comb(4, 34)),
        set("REST", 3, 0x80, 3, comb(40, 58)),
        set("A", 4, 0xC0, 1, a),
    ];
    table_with([20, 3, 8, 2, 1], sets).expect("sound")
}
