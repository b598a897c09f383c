//! Which slots the records take when one call makes or frees several, and refusal 11.

use vtoc_tests::audit::{picture, Picture};
use vtoc_tests::desk::Desk;

#[track_caller]
fn seen(desk: &Desk) -> Picture {
    picture(&desk.table).expect("not taken")
}

/// H = 2, T = 70: four holes of a track, a cylinder and a track, and 22 of one track; 27
/// sets in slots 2 to 28.
fn split_cylinders(n: u32) -> Desk {
    let mut desk = Desk::begin(35, 2, n, 1, 1);
    let wide = [(2, 1), (7, 2), (13, 2), (19, 2), (25, 1)];
    let walls = wide.into_iter().chain((0..22).map(|i| (27 + 2 * i, 1)));
    for (i, (start, count)) in walls.enumerate() {
        desk.absolute(&format!("WALL{i}"), start, count).accepted();
    }
    assert_eq!((seen(&desk).free.len(), seen(&desk).chain), (26, vec![1]));
    desk
}

#[test]
fn format_1_then_format_3_then_format_5() {
    let mut desk = split_cylinders(32);
    assert_eq!(seen(&desk).format_0s, 3);
    desk.cylinders("C", 4, 0).granted(&[(4, 2), (10, 2), (16, 2), (22, 2)]);
    let set = seen(&desk).sets.last().unwrap().clone();
    assert_eq!((set.slot, set.format_3), (29, Some(30)));
    assert_eq!((seen(&desk).free.len(), seen(&desk).chain), (30, vec![1, 31]));
    // All of it undone by one scratch.
    desk.scratch("C").gave_back(8);
    assert_eq!(desk.table, split_cylinders(32).table);
}

#[test]
fn slots_freed_low_are_taken_first() {
    let mut desk = split_cylinders(32);
    // Slots 7 and 23; each wall gone joins two holes.
    desk.scratch("WALL5").accepted();
    desk.scratch("WALL21").accepted();
    assert_eq!(seen(&desk).free.len(), 24);
    desk.cylinders("C", 4, 0).granted(&[(4, 2), (10, 2), (16, 2), (22, 2)]);
    let set = seen(&desk).sets.iter().find(|set| set.extents.len() == 4).unwrap().clone();
    assert_eq!((set.slot, set.format_3), (7, Some(23)));
    assert_eq!((seen(&desk).free.len(), seen(&desk).chain), (28, vec![1, 29]));
}

#[test]
fn allocate_counts_all_three_records() {
    for n in [29, 30, 31] {
        split_cylinders(n).cylinders("C", 4, 0).refused(11);
    }
    // Three pieces: no format 3, but still a format 5.
    split_cylinders(30).cylinders("C", 3, 0).refused(11);
    split_cylinders(31).cylinders("C", 3, 0).accepted();
    // No pieces that split: only a format 1.
    split_cylinders(30).tracks("T", 1, 0).granted(&[(26, 1)]);
}

#[test]
fn extend_makes_format_3_then_format_5() {
    // C takes one of the four wide holes, a filler one of the narrow ones: 26 again.
    let build = |n: u32| {
        let mut desk = split_cylinders(n);
        desk.tracks("FILL", 1, 0).granted(&[(26, 1)]);
        desk.cylinders("C", 1, 3).granted(&[(4, 2)]);
        assert_eq!((seen(&desk).free.len(), seen(&desk).chain), (26, vec![1]));
        desk
    };
    let mut desk = build(33);
    desk.extend("C").granted(&[(10, 2), (16, 2), (22, 2)]);
    let set = seen(&desk).sets.last().unwrap().clone();
    assert_eq!((set.slot, set.format_3), (30, Some(31)));
    assert_eq!((seen(&desk).free.len(), seen(&desk).chain), (29, vec![1, 32]));
    build(32).extend("C").refused(11);
    build(31).extend("C").refused(11);
}

#[test]
fn sixteen_extents_come_before_a_full_vtoc() {
    // A has 16 extents and the next cylinder would split the 26th hole.
    let build = |extents: u32, n: u32| {
        let mut desk = Desk::begin(72, 2, n, 1, 1);
        desk.absolute("HEAD", 2, 1).accepted();
        desk.cylinders("A", 1, 1).granted(&[(4, 2)]);
        desk.cylinders("B", 1, 1).granted(&[(6, 2)]);
        for _ in 1..extents {
            desk.extend("A").accepted();
            desk.extend("B").accepted();
        }
        let end = 4 + 4 * extents;
        // A hole of a track, a cylinder and a track, and single ones to make 26.
        desk.absolute("W", end, 1).accepted();
        (0..24).for_each(|i| {
            desk.absolute(&format!("WALL{i}"), end + 5 + 2 * i, 1).accepted();
        });
        desk.absolute("REST", end + 53, 144 - end - 53).accepted();
        assert_eq!((seen(&desk).free.len(), seen(&desk).format_0s), (26, 0));
        desk
    };
    build(16, 33).extend("A").refused(10);
    build(15, 33).extend("A").refused(11);
}

#[test]
fn release_may_find_the_vtoc_full() {
    let build = |n: u32| {
        let mut desk = Desk::begin(60, 1, n, 1, 1);
        for i in 0..25 {
            desk.absolute(&format!("WALL{i}"), 3 + 2 * i, 1).accepted();
        }
        desk.absolute("END", 52, 3).accepted();
        desk.absolute("EDGE", 55, 4).accepted();
        assert_eq!(seen(&desk).free.len(), 26);
        desk
    };
    let mut desk = build(29);
    assert_eq!(seen(&desk).format_0s, 0);
    // A new extent between END and EDGE would want a format 5.
    desk.release("END", 0, 1).refused(11);
    desk.release("END", 1, 1).refused(11);
    desk.release("END", 3, 1).refused(12);
    desk.release("END", 2, 1).gave_back(0);
    // EDGE's tail joins the last hole and wants nothing.
    desk.release("EDGE", 0, 1).gave_back(3);
    let mut desk = build(30);
    desk.release("END", 0, 1).gave_back(2);
    assert_eq!((seen(&desk).free.len(), seen(&desk).chain), (27, vec![1, 29]));
}

/// A with `extents` one-track extents down to track 2, a guard after it, and 26 holes; no format 0. A is
/// in slot 3, its format 3 in slot 2 where it has four extents, and in slot 4 where it has five.
fn guarded(extents: u32) -> Desk {
    let mut desk = Desk::begin(53 + extents + 1, 1, 30, 1, 1);
    desk.downwards("A", 2, extents);
    desk.absolute("GUARD", 2 + extents, 1).accepted();
    for i in 0..25 {
        desk.absolute(&format!("WALL{i}"), 4 + extents + 2 * i, 1).accepted();
    }
    assert_eq!((seen(&desk).free.len(), seen(&desk).format_0s), (26, 0));
    desk
}

#[test]
fn release_puts_a_format_5_into_the_slot_of_its_format_3() {
    let mut desk = guarded(4);
    desk.release("A", 2, 1).gave_back(1);
    assert_eq!((seen(&desk).free.len(), seen(&desk).chain), (27, vec![1, 2]));
    // Four extents left: the format 3 stays, and there is no room.
    let mut desk = guarded(5);
    desk.release("A", 3, 1).refused(11);
    desk.release("A", 2, 1).gave_back(2);
    assert_eq!((seen(&desk).free.len(), seen(&desk).chain), (27, vec![1, 4]));
}

#[test]
fn scratch_puts_a_format_5_into_the_lowest_slot_it_frees() {
    let mut desk = guarded(4);
    desk.scratch("A").gave_back(4);
    assert_eq!((seen(&desk).free.len(), seen(&desk).chain), (27, vec![1, 2]));
    assert_eq!(seen(&desk).format_0s, 1);
    let mut desk = guarded(5);
    desk.scratch("A").gave_back(5);
    assert_eq!((seen(&desk).free.len(), seen(&desk).chain), (27, vec![1, 3]));
}

#[test]
fn release_frees_format_3_and_format_5_at_once() {
    // A at 2, 4, 6, 8; its last track stands between two of 27 holes.
    let mut desk = Desk::begin(60, 1, 30, 1, 1);
    desk.tracks("A", 1, 1).granted(&[(2, 1)]);
    for (name, track) in [("X", 3), ("Y", 5), ("Z", 7)] {
        desk.absolute(name, track, 1).accepted();
        desk.extend("A").granted(&[(track + 1, 1)]);
    }
    for name in ["X", "Y", "Z"] {
        desk.scratch(name).gave_back(1);
    }
    for i in 0..23 {
        desk.absolute(&format!("WALL{i}"), 10 + 2 * i, 1).accepted();
    }
    let before = seen(&desk);
    assert_eq!((before.free.len(), before.chain.len(), before.sets[0].format_3), (27, 2, Some(6)));
    desk.release("A", 2, 1).gave_back(1);
    let after = seen(&desk);
    assert_eq!((after.free.len(), after.chain.len(), after.sets[0].format_3), (26, 1, None));
    assert_eq!(after.free[2], (7, 3));
    assert_eq!(after.format_0s, before.format_0s + 2);
}
