//! Cylinder files keep whole cylinders: document 02, [2].

use super::{sequence, Sequence};
use crate::audit::{picture, table_with, Extent, Set};
use crate::desk::Desk;
use crate::reference::layout::ATTRIBUTES;
use crate::volumes::name;

pub fn sequences() -> Vec<Sequence> {
    vec![kept_by_the_list(), for_want_of_a_slot()]
}

/// The slots of some sets: labels are changed there.
const A: usize = 2;
const K: usize = 3;
const F: usize = 4;
const X: usize = 5;
const G: usize = 6;
/// Bytes of a format 1: the unit, and the type of its first extent.
const UNIT: usize = 94;
const TYPE: usize = 105;

/// Another system's table: these bytes of these labels are others.
fn put(desk: &mut Desk, bytes: &[(usize, usize, u8)]) {
    let mut changed = desk.table.clone();
    for &(slot, at, byte) in bytes {
        changed[140 * slot + at] = byte;
    }
    desk.put(&changed);
}

/// Another system's table: the set in `slot` is in cylinders and has its tracks in these extents, which
/// our own calls would have joined.
fn put_extents(desk: &mut Desk, slot: usize, format_3: Option<usize>, extents: &[Extent]) {
    let seen = picture(&desk.table).expect("not taken");
    let mut sets = seen.sets;
    let set = sets.iter_mut().find(|set| set.slot == slot).expect("a set");
    (set.format_3, set.extents) = (format_3, extents.to_vec());
    let mut table = table_with([seen.c, seen.h, seen.d, seen.s, seen.v], sets).expect("sound");
    table[140 * slot + UNIT] = 0xC0;
    desk.put(&table);
}

fn kept_by_the_list() -> Sequence {
    sequence("Cylinder files keep whole cylinders, by the list of their tracks", |desk| {
        desk.initialise(6, 5, 2, 1, 4).without_numbers();
        own(desk);
        there_and_back(desk);
        one_track_each(desk);
        on_to_the_third(desk);
        // X'81' extents of a track file and of an absolute one: cut anywhere, they become X'01'.
        desk.release("A", 2, 1).gave_back(2);
        desk.release("X", 1, 1).gave_back(3);
    })
}

/// H = 5. A set as our own calls make it.
fn own(desk: &mut Desk) {
    desk.cylinders("A", 5, 1).granted(&[(5, 25)]);
    // 22 tracks, and on to the last of the volume; 26 are too many.
    desk.release("A", 21, 1).gave_back(0);
    desk.release("A", 25, 1).refused(12);
    // 5–14, just two cylinders: X'81' still.
    desk.release("A", 9, 1).gave_back(15);
    desk.extend("A").granted(&[(15, 5)]);
    // 5–10, and on to 14; 15 goes on from there, in another cylinder.
    desk.release("A", 5, 1).gave_back(5);
    // Whole cylinders as X'01' are not made X'81'.
    put(desk, &[(A, TYPE, 0x01)]);
    desk.release("A", 0, 0).gave_back(5);
}

/// A track file that another system calls a cylinder file: 11–12, 13, 10 and 14.
fn there_and_back(desk: &mut Desk) {
    desk.absolute("V", 10, 1).granted(&[(10, 1)]);
    desk.tracks("F", 2, 1).granted(&[(11, 2)]);
    desk.extend("F").granted(&[(13, 1)]);
    desk.scratch("V").gave_back(1);
    desk.extend("F").granted(&[(10, 1)]);
    desk.extend("F").granted(&[(14, 1)]);
    put_extents(desk, F, Some(K), &[(1, 11, 12), (1, 13, 13), (1, 10, 10), (1, 14, 14)]);
    // 11, and on to 13, where the list goes back. The format 3 goes.
    desk.release("F", 0, 1).gave_back(2);
}

/// Another: 10, 14, 15, 16 and 17.
fn one_track_each(desk: &mut Desk) {
    desk.tracks("K", 1, 1).granted(&[(10, 1)]);
    for track in 14..18 {
        desk.extend("K").granted(&[(track, 1)]);
    }
    put_extents(desk, K, Some(X), &[10, 14, 15, 16, 17].map(|track| (1, track, track)));
    // 10, 14 and 15, and on to 17: five extents, and the format 3 stays.
    desk.release("K", 2, 1).gave_back(0);
    // 14 is in the cylinder of 10, and not the next.
    desk.release("K", 0, 1).gave_back(4);
}

/// And another: 14–15, 16–18 and 19–21.
fn on_to_the_third(desk: &mut Desk) {
    desk.absolute("X", 25, 5).granted(&[(25, 5)]);
    desk.tracks("G", 2, 3).granted(&[(14, 2)]);
    desk.extend("G").granted(&[(16, 3)]);
    desk.extend("G").granted(&[(19, 3)]);
    put(desk, &[(A, UNIT, 0x80), (A, TYPE, 0x81), (X, TYPE, 0x81)]);
    put_extents(desk, G, None, &[(1, 14, 15), (1, 16, 18), (1, 19, 21)]);
    // 14–15, and on over 16–18 to 19: the last extent is cut.
    desk.release("G", 1, 1).gave_back(2);
    // 14 ends a cylinder.
    desk.release("G", 0, 1).gave_back(5);
}

fn for_want_of_a_slot() -> Sequence {
    sequence("A full VTOC, where what a cylinder file keeps decides on its format 3", |desk| {
        desk.initialise(12, 5, 8, 1, 1).without_numbers();
        for (text, start) in [("COMB", 3), ("REST", 38), ("A", 33)] {
            desk.absolute(text, start, 1).granted(&[(start, 1)]);
        }
        let mut other = with_26_free_extents();
        // The fewer bytes are changed, the shorter the row.
        for (from, to) in (2..5).flat_map(|slot| ATTRIBUTES.map(|part| within(slot, part))) {
            other[from..to].copy_from_slice(&desk.table[from..to]);
        }
        desk.put(&other);
        // 33–34 and 35, and on to 37, which are four extents; 39 would be the 27th free one.
        desk.release("A", 2, 1).refused(11);
        // 33, and on to 34: the format 3 goes, and a format 5 takes its slot.
        desk.release("A", 0, 1).gave_back(4);
    })
}

/// A part of a slot's record, in the table.
fn within(slot: usize, (from, to): (usize, usize)) -> (usize, usize) {
    (140 * slot + from, 140 * slot + to)
}

/// Free: 2, 4, .., 32 and 41, 43, .., 59. No free slot.
fn with_26_free_extents() -> Vec<u8> {
    let comb = |first: u32, last: u32| (first..=last).step_by(2).map(|t| (0x01, t, t)).collect();
    let a = [(33, 34), (35, 35), (36, 36), (37, 37), (39, 39)];
    let a = a.map(|(first, last)| (0x01, first, last)).to_vec();
    let set =
        |text, slot, unit, extents| Set::new(slot, Some(slot + 3), name(text), unit, 0, extents);
    let sets = vec![
        set("COMB", 2, 0x80, comb(3, 31)),
        set("REST", 3, 0x80, comb(38, 58)),
        set("A", 4, 0xC0, a),
    ];
    table_with([12, 5, 8, 1, 1], sets).expect("sound")
}
