//! Previews with figures worked out by hand: document 01's Volume A, where its steps would go, and the
//! refusals that only the slots decide.

use vtoc_tests::audit::{picture, table_with, Set};
use vtoc_tests::call::{Call, ALX, CONTIG, MXIG};
use vtoc_tests::desk::Desk;
use vtoc_tests::generate::grids::{sixteen, tight};
use vtoc_tests::short::*;
use vtoc_tests::volumes::{name, open_slots};

fn on(table: Vec<u8>) -> Desk {
    Desk { table, rows: vec![] }
}

/// Volume A's steps 1 to 6, each seen before it is made.
#[test]
fn volume_a() {
    let mut desk = Desk::begin(4, 5, 4, 1, 2);
    desk.seen_and_made(tracks("FLT.A", 4, 0)).granted(&[(3, 4)]);
    desk.seen_and_made(cylinders("FLT.B", 1, 0)).granted(&[(10, 5)]);
    // "Here 3 tracks would be 7–9."
    desk.preview(&tracks("FLT.C", 3, 0)).granted(&[(7, 3)]);
    let seen = desk.seen_and_made(tracks("FLT.C", 7, 0));
    let mut answer = [0; 24];
    answer[..11].copy_from_slice(&[0, 7, 2, 0, 15, 0, 5, 0, 7, 0, 2]);
    assert_eq!(seen.answer, answer);
    desk.seen_and_made(tracks("FLT.D", 2, 0)).refused(9);
    desk.seen_and_made(absolute("FLT.D", 19, 2)).refused(7);
    desk.seen_and_made(absolute("FLT.D", 6, 1)).refused(9);
    desk.seen_and_made(scratch("FLT.B")).gave_back(5);
    desk.seen_and_made(release("FLT.C", 7, 1)).refused(12);
    let seen = desk.seen_and_made(release("FLT.C", 4, 1));
    let mut answer = [0; 24];
    answer[1] = 2;
    assert_eq!(seen.answer, answer);
    assert_eq!(picture(&desk.table).expect("not taken").free, [(7, 8)]);
}

/// Nothing is held: the same tracks are shown to every one who asks, until one of them takes them.
#[test]
fn a_preview_holds_nothing() {
    let mut desk = Desk::begin(4, 5, 4, 1, 2);
    let before = desk.table.clone();
    for text in ["A", "B", "C"] {
        desk.preview(&tracks(text, 10, 0)).granted(&[(3, 10)]);
    }
    assert_eq!(desk.table, before);
    desk.tracks("B", 10, 0).granted(&[(3, 10)]);
    desk.preview(&tracks("A", 10, 0)).refused(9);
    desk.preview(&tracks("B", 1, 0)).refused(6);
    desk.preview(&scratch("B")).gave_back(10);
    desk.preview(&tracks("A", 10, 0)).refused(9);
    desk.preview(&tracks("A", 7, 0)).granted(&[(13, 7)]);
}

/// Free 3–5, 7–11 and 13–19 (H 5, whole cylinder 15–19).
#[test]
fn by_option() {
    let mut desk = Desk::begin(4, 5, 4, 1, 2);
    desk.walls(&[3, 5]);
    for (option, amount, pieces) in [
        (0, 4, &[(7, 4)][..]),
        (0, 9, &[(13, 7), (7, 2)]),
        (CONTIG, 2, &[(3, 2)]),
        (MXIG, 2, &[(13, 7)]),
        (ALX, 5, &[(13, 7), (7, 5)]),
        (ALX, 1, &[(13, 7), (7, 5), (3, 3)]),
    ] {
        desk.preview(&tracks_by(option, "A", amount, 0)).granted(pieces);
    }
    for option in [0, CONTIG, MXIG, ALX] {
        desk.preview(&cylinders_by(option, "A", 1, 0)).granted(&[(15, 5)]);
        desk.preview(&cylinders_by(option, "A", 2, 0)).refused(9);
    }
    desk.preview(&tracks_by(CONTIG, "A", 8, 0)).refused(9);
    desk.preview(&tracks_by(4, "A", 1, 0)).refused(7);
    desk.preview(&allocation("A", 2, 7, 1, 0, ALX)).refused(7);
}

/// Every refusal of extend, in its order.
#[test]
fn of_extend() {
    let mut desk = Desk::begin(40, 1, 5, 1, 1);
    desk.preview(&extend("A.")).refused(4);
    desk.preview(&extend("A")).refused(5);
    desk.tracks("N", 1, 0).granted(&[(2, 1)]);
    desk.preview(&extend("N")).refused(8);
    desk.scratch("N").accepted();
    // Sixteen extents, from 17 down to 2.
    desk.downwards("A", 2, 16);
    desk.seen_and_made(extend("A")).refused(10);
    desk.release("A", 14, 1).gave_back(1);
    desk.seen_and_made(extend("A")).granted(&[(2, 1)]);
    // 17, 16 and 15 stay.
    desk.release("A", 2, 1).gave_back(13);
    desk.tracks("B", 22, 0).granted(&[(18, 22)]);
    desk.tracks("C", 13, 0).granted(&[(2, 13)]);
    desk.seen_and_made(extend("A")).refused(9);
    // Three extents, and no slot for a format 3.
    desk.release("B", 20, 1).gave_back(1);
    assert_eq!(open_slots(&desk.table), 0);
    desk.seen_and_made(extend("A")).refused(11);
    // A slot comes free, and it is the format 3's.
    desk.scratch("B").gave_back(21);
    desk.seen_and_made(extend("A")).granted(&[(18, 1)]);
}

/// H is 5. A cylinder file with 10–24: a preview of its release keeps whole cylinders as the release does.
#[test]
fn of_release() {
    let mut desk = Desk::begin(6, 5, 4, 1, 2);
    desk.absolute("W", 3, 7).accepted();
    desk.cylinders("A", 3, 1).granted(&[(10, 15)]);
    for (tt, back) in [(0, 10), (4, 10), (5, 5), (9, 5), (10, 0), (14, 0)] {
        desk.preview(&release("A", tt, 1)).gave_back(back);
    }
    desk.preview(&release("A", 0, 0)).gave_back(10);
    desk.preview(&release("A", 1, 0)).refused(12);
    desk.preview(&release("A", 15, 1)).refused(12);
    let wide = Call::Release { name: name("A").to_vec(), ttr: 1 << 24 };
    desk.preview(&wide).refused(12);
    // A set of tracks: TT + 1 of them are kept.
    desk.preview(&release("W", 0, 1)).gave_back(6);
    desk.preview(&release("W", 6, 1)).gave_back(0);
}

/// 26 free extents and no slot: what makes the 27th is refused with 11.
#[test]
fn one_free_extent_too_many() {
    let mut desk = on(tight());
    desk.seen_and_made(tracks("NEW", 1, 0)).refused(11);
    // 188–190, the first of four sets side by side: 189–190 would be a free extent of its own.
    desk.seen_and_made(release("BIG.N0", 0, 1)).refused(11);
    desk.seen_and_made(release("BIG.N0", 2, 1)).gave_back(0);
    // Its own slot is free by then.
    desk.seen_and_made(scratch("BIG.N1")).gave_back(3);
}

/// 27 free extents in two format 5s, and no slot: a set that fills one of them takes the slot of the
/// second format 5; the next one has none.
#[test]
fn a_format_5_makes_room() {
    let comb = (0..16).map(|i| (0x01, 3 + 2 * i, 3 + 2 * i)).collect();
    let rest = (16..26).map(|i| (0x01, 3 + 2 * i, 3 + 2 * i)).collect();
    let sets = vec![
        Set::new(2, Some(3), name("COMB"), 0x80, 1, comb),
        Set::new(4, Some(5), name("REST"), 0x80, 1, rest),
    ];
    // Free 2, 4, .., 54: 27. Seven records: 4, 5, COMB's two, REST's two, and the second format 5.
    let table = table_with([55, 1, 7, 1, 1], sets).expect("sound");
    let mut desk = on(table);
    assert_eq!((open_slots(&desk.table), picture(&desk.table).unwrap().chain.len()), (0, 2));
    desk.seen_and_made(tracks("A", 1, 0)).granted(&[(2, 1)]);
    desk.seen_and_made(tracks("B", 1, 0)).refused(11);
    desk.seen_and_made(extend("COMB")).refused(10);
    desk.seen_and_made(extend("REST")).granted(&[(4, 1)]);
}

/// A full VTOC refuses no scratch, and no preview of one; sets of sixteen, nine and four extents.
#[test]
fn of_scratch() {
    let mut desk = on(sixteen());
    assert_eq!(open_slots(&desk.table), 0);
    desk.preview(&scratch("NONE")).refused(5);
    desk.preview(&scratch("9")).refused(4);
    for (text, tracks) in [("SIXTEEN", 32), ("NINE", 27), ("FOUR", 4)] {
        desk.clone().seen_and_made(scratch(text)).gave_back(tracks);
    }
    desk.seen_and_made(scratch("FOUR")).gave_back(4);
}
