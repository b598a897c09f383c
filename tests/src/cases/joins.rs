//! Extend joins what touches: document 02, [6].

use super::{sequence, Sequence};
use crate::audit::{table_with, Extent, Set};
use crate::desk::Desk;
use crate::reference::layout::ATTRIBUTES;
use crate::short::*;
use crate::volumes::name;

pub fn sequences() -> Vec<Sequence> {
    vec![from_label_to_label(), counted_after_joining(), types_and_places()]
}

/// Bytes of a format 1: the unit, the low byte of the secondary amount, the type of the first extent.
const UNIT: usize = 94;
const SECONDARY: usize = 97;
const TYPE: usize = 105;

/// Another system's table: these bytes of the label in a slot are others.
fn put(desk: &mut Desk, slot: usize, bytes: &[(usize, u8)]) {
    let mut changed = desk.table.clone();
    bytes.iter().for_each(|&(at, byte)| changed[140 * slot + at] = byte);
    desk.put(&changed);
}

/// H = 1. Each extent of A begins behind one of B and is then lengthened: extents 0 to 2 in the format 1,
/// 3 to 6 and 7 on either side of byte 44 of the format 3.
fn from_label_to_label() -> Sequence {
    sequence("Extend joins: extents of the format 1 and of the format 3", |desk| {
        desk.initialise(28, 1, 6, 1, 1).without_numbers();
        desk.tracks("A", 1, 1).granted(&[(2, 1)]);
        desk.extend("A").granted(&[(3, 1)]);
        desk.tracks("B", 1, 1).granted(&[(4, 1)]);
        for track in (5..26).step_by(3) {
            desk.extend("A").granted(&[(track, 1)]);
            desk.extend("A").granted(&[(track + 1, 1)]);
            desk.extend("B").granted(&[(track + 2, 1)]);
        }
        desk.obtain("A").without_numbers();
        // Eight extents of two tracks. The last one is cut in the middle; a shorter free extent than the
        // one behind it is preferred.
        desk.scratch("B").gave_back(8);
        desk.release("A", 14, 1).gave_back(1);
        desk.seen_and_made(extend("A")).granted(&[(4, 1)]);
        // What was joined first is cut, and joined again.
        desk.release("A", 0, 1).gave_back(15);
        desk.seen_and_made(extend("A")).granted(&[(3, 1)]);
        desk.obtain("A").without_numbers();
        desk.scratch("A").gave_back(2);
    })
}

/// The slots of A and W below.
const A: usize = 2;
const W: usize = 3;

fn counted_after_joining() -> Sequence {
    sequence("Extend joins: extents are counted after it, at 16 and for a format 3", |desk| {
        sixteen(desk);
        three(desk);
    })
}

/// H = 1. A has 3, 5, .., 33 and W 2, 4, .., 32, 16 extents each; V has 37 and 38. Free: 34–36 and 39.
/// No format 0.
fn sixteen(desk: &mut Desk) {
    desk.initialise(40, 1, 7, 1, 1).without_numbers();
    for text in ["A", "W", "V"] {
        desk.tracks(text, 1, 1).accepted();
    }
    let every_other = |first: u32| -> Vec<Extent> {
        (0..16).map(|e| (0x01, first + 2 * e, first + 2 * e)).collect()
    };
    let sets = vec![
        Set::new(A, Some(5), name("A"), 0x80, 4, every_other(3)),
        Set::new(W, Some(6), name("W"), 0x80, 1, every_other(2)),
        Set::new(4, None, name("V"), 0x80, 1, vec![(0x01, 37, 38)]),
    ];
    let mut other = table_with([40, 1, 7, 1, 1], sets).expect("sound");
    // The fewer bytes are changed, the shorter the row.
    for (slot, (from, to)) in (2..5).flat_map(|slot| ATTRIBUTES.map(|part| (slot, part))) {
        let part = 140 * slot + from..140 * slot + to;
        other[part.clone()].copy_from_slice(&desk.table[part]);
    }
    desk.put(&other);
    // 34–36 would join, 39 would be the 17th extent.
    desk.seen_and_made(extend("A")).refused(10);
    put(desk, A, &[(SECONDARY, 3)]);
    desk.seen_and_made(extend("A")).granted(&[(34, 3)]);
    put(desk, A, &[(SECONDARY, 1)]);
    // 39 is behind V, not behind A.
    desk.seen_and_made(extend("A")).refused(10);
    // 15 extents up to 31, and 32–36 behind them: with 39 they are 16.
    desk.release("A", 14, 1).gave_back(4);
    desk.release("W", 14, 1).gave_back(1);
    put(desk, A, &[(SECONDARY, 6)]);
    desk.seen_and_made(extend("A")).granted(&[(32, 5), (39, 1)]);
}

/// A has 3, 5 and 7, W 2, 4 and 6, V 37 and 38, X 10, Y 11; no slot is left. Free: 8–9, 12–36, 39.
fn three(desk: &mut Desk) {
    desk.release("A", 2, 1).gave_back(18);
    desk.release("W", 2, 1).gave_back(12);
    desk.absolute("X", 10, 1).accepted();
    desk.absolute("Y", 11, 26).accepted();
    put(desk, A, &[(SECONDARY, 3)]);
    // 8–9 would join, 39 would be the fourth extent, which wants a format 3.
    desk.seen_and_made(extend("A")).refused(11);
    put(desk, A, &[(SECONDARY, 1)]);
    // 39 alone is the shortest.
    desk.seen_and_made(extend("A")).refused(11);
    put(desk, A, &[(SECONDARY, 2)]);
    desk.seen_and_made(extend("A")).granted(&[(8, 2)]);
    desk.release("A", 2, 1).gave_back(2);
    desk.scratch("Y").gave_back(26);
    desk.absolute("Y", 12, 25).accepted();
    desk.scratch("X").gave_back(1);
    // 8–11 joins, and 39 has its format 3 in the slot of X.
    put(desk, A, &[(SECONDARY, 5)]);
    desk.seen_and_made(extend("A")).granted(&[(8, 4), (39, 1)]);
}

/// H = 3. Types as they come about, and sets whose last track is not their highest.
fn types_and_places() -> Sequence {
    sequence("Extend joins: types, and the last track beside the highest", |desk| {
        desk.initialise(10, 3, 7, 1, 1).without_numbers();
        desk.absolute("W", 2, 1).accepted();
        types(desk);
        places(desk);
    })
}

/// CYL in slot 3: 3–5, and on to 13.
fn types(desk: &mut Desk) {
    const CYL: usize = 3;
    desk.cylinders("CYL", 1, 1).granted(&[(3, 3)]);
    // X'81' and X'81'.
    desk.seen_and_made(extend("CYL")).granted(&[(6, 3)]);
    // X'01' and X'81'.
    put(desk, CYL, &[(TYPE, 0x01)]);
    desk.extend("CYL").granted(&[(9, 3)]);
    // X'81' and X'01', in a set of tracks.
    put(desk, CYL, &[(TYPE, 0x81), (UNIT, 0x80)]);
    desk.extend("CYL").granted(&[(12, 1)]);
    // X'01' and X'01'.
    desk.extend("CYL").granted(&[(13, 1)]);
}

/// L in slot 5: 15, 14, 16–17, 21–29 and 18.
fn places(desk: &mut Desk) {
    const L: usize = 5;
    desk.absolute("P", 14, 1).accepted();
    desk.tracks("L", 1, 1).granted(&[(15, 1)]);
    desk.scratch("P").gave_back(1);
    // Right before the last extent.
    desk.extend("L").granted(&[(14, 1)]);
    // Behind the highest track, and then behind the last.
    desk.extend("L").granted(&[(16, 1)]);
    desk.extend("L").granted(&[(17, 1)]);
    desk.absolute("X", 19, 2).accepted();
    // Behind the last track, but the second piece.
    put(desk, L, &[(SECONDARY, 10)]);
    desk.seen_and_made(extend("L")).granted(&[(21, 9), (18, 1)]);
    desk.obtain("L").without_numbers();
    // By the list: 15, 14 and 16.
    desk.release("L", 2, 1).gave_back(11);
}
