//! More than 26 free extents: the chain of format 5s grows and shrinks.

use super::{sequence, Sequence};
use crate::call::{Call, ALX};
use crate::desk::Desk;

pub fn sequences() -> Vec<Sequence> {
    vec![sequence("26 free extents and more, and a full VTOC", |desk| {
        worn(desk);
        slot_4_by_turns(desk);
        all_at_once(desk);
    })]
}

/// H = 2, 31 records, none of them free, and 26 free extents: 8, 10, four of a track, a
/// cylinder and a track (13–16, 19–22, 25–28, 31–34), and 36, 38, ..., 74. A has five
/// extents from 6 down to 2, its format 3 in slot 4; GUARD is at 7, W0 at 9.
fn worn(desk: &mut Desk) {
    desk.initialise(38, 2, 31, 1, 1).without_numbers();
    desk.downwards("A", 2, 5);
    desk.absolute("GUARD", 7, 1).accepted();
    let wide = [(9, 1), (11, 2), (17, 2), (23, 2), (29, 2), (35, 1)];
    let walls = wide.into_iter().chain((0..20).map(|i| (37 + 2 * i, 1)));
    for (i, (start, count)) in walls.enumerate() {
        desk.absolute(&format!("W{i}"), start, count).accepted();
    }
}

/// Slot 4 is a format 3, a format 5, a format 1, a format 5, a format 3, and free.
fn slot_4_by_turns(desk: &mut Desk) {
    // With four extents A keeps its format 3, and there is no room for a format 5.
    desk.release("A", 3, 1).refused(11);
    desk.release("A", 2, 1).gave_back(2);
    desk.lspace().accepted();
    // A hole filled: the format 5 goes before the format 1 takes its slot.
    desk.tracks("X", 1, 0).granted(&[(8, 1)]);
    desk.tracks("Y", 1, 0).refused(11);
    desk.scratch("X").gave_back(1);
    for link in [[0, 0, 0, 0, 0], [0, 0, 0, 1, 4], [0, 0, 0, 1, 32]] {
        assert_eq!(relink(desk, 1, link), 3);
    }
    // The second format 5 leads back to the first.
    assert_eq!(relink(desk, 4, [0, 0, 0, 1, 2]), 3);
    desk.extend("A").granted(&[(8, 1)]);
    desk.scratch("GUARD").gave_back(1);
    desk.scratch("W0").gave_back(1);
    desk.absolute("B", 2, 1).granted(&[(2, 1)]);
    // A's last track has free ones on both sides, 7 and 9–10, and there are 27 free extents.
    desk.release("A", 2, 1).gave_back(1);
}

/// LSPACE on a copy whose record in `slot` has another link.
fn relink(desk: &mut Desk, slot: usize, link: [u8; 5]) -> u32 {
    let mut damaged = desk.table.clone();
    damaged[slot * 140 + 135..(slot + 1) * 140].copy_from_slice(&link);
    desk.hurt(&damaged, Call::Lspace)
}

/// Cylinders out of the middle of holes: two holes for one, and records of all formats.
fn all_at_once(desk: &mut Desk) {
    desk.cylinders("C", 4, 0).refused(11);
    desk.cylinders_by(ALX, "C", 1, 0).refused(11);
    desk.scratch("W24").gave_back(1);
    desk.cylinders("C", 4, 0).granted(&[(8, 2), (14, 2), (20, 2), (26, 2)]);
    desk.scratch("C").gave_back(8);
    desk.cylinders("C", 1, 3).granted(&[(8, 2)]);
    desk.extend("C").granted(&[(14, 2), (20, 2), (26, 2)]);
    desk.obtain("C").without_numbers();
    desk.scratch("C").gave_back(8);
    // Of six candidates five: 30 free extents and a format 5 more; then 25, and it goes.
    desk.cylinders_by(ALX, "C", 1, 0).granted(&[(8, 2), (14, 2), (20, 2), (26, 2), (32, 2)]);
    desk.scratch("W25").gave_back(1);
    desk.tracks_by(ALX, "D", 1, 0).granted(&[(72, 4), (3, 1), (7, 1), (10, 1), (13, 1)]);
}
