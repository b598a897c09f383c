//! Which tracks a grant takes, and how they get into the labels and out again.

use vtoc_tests::audit::{picture, Extent};
use vtoc_tests::desk::Desk;

#[track_caller]
fn free(desk: &Desk) -> Vec<(u32, u32)> {
    picture(&desk.table).expect("not taken").free
}

/// The extents of the set in `slot`.
#[track_caller]
fn extents(desk: &Desk, slot: usize) -> Vec<Extent> {
    let sets = picture(&desk.table).expect("not taken").sets;
    sets.into_iter().find(|set| set.slot == slot).expect("no set there").extents
}

/// H = 1; holes of these lengths from track 3 on, each with a one-track set after it.
fn holes(lengths: &[u32]) -> Desk {
    let total: u32 = lengths.iter().map(|length| length + 1).sum();
    let mut desk = Desk::begin(3 + total, 1, 16, 1, 2);
    desk.walls(lengths);
    desk
}

#[test]
fn shortest_that_fits_lowest_on_ties() {
    let desk = holes(&[5, 3, 4, 3, 9]);
    desk.clone().tracks("A", 3, 0).granted(&[(9, 3)]);
    desk.clone().tracks("A", 2, 0).granted(&[(9, 2)]);
    desk.clone().tracks("A", 4, 0).granted(&[(13, 4)]);
    desk.clone().tracks("A", 5, 0).granted(&[(3, 5)]);
    desk.clone().tracks("A", 6, 0).granted(&[(22, 6)]);
}

#[test]
fn longest_first_lowest_on_ties() {
    let desk = holes(&[2, 5, 3, 5, 3, 1]);
    // Starts 3, 6, 12, 16, 22, 26.
    desk.clone().tracks("A", 6, 0).granted(&[(6, 5), (16, 1)]);
    desk.clone().tracks("A", 10, 0).granted(&[(6, 5), (16, 5)]);
    desk.clone().tracks("A", 11, 0).granted(&[(6, 5), (16, 5), (12, 1)]);
    desk.clone().tracks("A", 16, 0).granted(&[(6, 5), (16, 5), (12, 3), (22, 3)]);
    desk.clone().tracks("A", 17, 0).granted(&[(6, 5), (16, 5), (12, 3), (22, 3), (3, 1)]);
    desk.clone().tracks("A", 18, 0).granted(&[(6, 5), (16, 5), (12, 3), (22, 3), (3, 2)]);
    desk.clone().tracks("A", 19, 0).refused(9);
}

#[test]
fn the_rest_comes_from_the_next_longest_not_the_best_fit() {
    let mut desk = holes(&[1, 7, 6]);
    // A rest of 1 would fit the hole at 3; the next longest gives it.
    desk.tracks("A", 8, 0).granted(&[(5, 7), (13, 1)]);
    assert_eq!(free(&desk), [(3, 1), (14, 5)]);
}

#[test]
fn cylinders_compare_whole_cylinders() {
    // H = 4, tracks 0 to 59. Holes 5–11 (seven tracks, one cylinder from 8), 16–19 (one),
    // 25–35 (eleven tracks, two from 28), 40–47 (two), 50–54 (five tracks, none).
    let mut desk = Desk::begin(15, 4, 8, 1, 2);
    for (i, (start, count)) in
        [(3, 2), (12, 4), (20, 5), (36, 4), (48, 2), (55, 5)].into_iter().enumerate()
    {
        desk.absolute(&format!("WALL{i}"), start, count).accepted();
    }
    assert_eq!(free(&desk), [(5, 7), (16, 4), (25, 11), (40, 8), (50, 5)]);
    desk.clone().cylinders("A", 1, 0).granted(&[(8, 4)]);
    desk.clone().cylinders("A", 2, 0).granted(&[(28, 8)]);
    desk.clone().cylinders("A", 3, 0).granted(&[(28, 8), (40, 4)]);
    desk.clone().cylinders("A", 6, 0).granted(&[(28, 8), (40, 8), (8, 4), (16, 4)]);
    desk.clone().cylinders("A", 7, 0).refused(9);
    desk.cylinders("A", 5, 2).granted(&[(28, 8), (40, 8), (8, 4)]);
    assert_eq!(extents(&desk, 8), [(0x81, 28, 35), (0x81, 40, 47), (0x81, 8, 11)]);
    assert_eq!(free(&desk), [(5, 3), (16, 4), (25, 3), (50, 5)]);
    // Extend goes by the unit: one cylinder is left of the two wanted.
    desk.extend("A").refused(9);
}

#[test]
fn absolute_in_every_place_of_a_hole() {
    let desk = holes(&[5]);
    let after = |start: u32, count: u32| {
        let mut desk = desk.clone();
        desk.absolute("A", start, count).granted(&[(start, count)]);
        assert_eq!(extents(&desk, 3), [(0x01, start, start + count - 1)]);
        assert_eq!(desk.slot(3)[94], 0x00);
        free(&desk)
    };
    assert_eq!(after(3, 5), []);
    assert_eq!(after(3, 2), [(5, 3)]);
    assert_eq!(after(6, 2), [(3, 3)]);
    assert_eq!(after(5, 1), [(3, 2), (6, 2)]);
}

/// Extents that do not touch are appended; joining.rs has those that do.
#[test]
fn extend_appends() {
    let mut desk = Desk::begin(10, 5, 6, 1, 1);
    desk.tracks("A", 3, 2).granted(&[(2, 3)]);
    desk.tracks("B", 1, 1).granted(&[(5, 1)]);
    for track in [6, 9] {
        desk.extend("A").granted(&[(track, 2)]);
        desk.extend("B").granted(&[(track + 2, 1)]);
    }
    assert_eq!(extents(&desk, 2), [(1, 2, 4), (1, 6, 7), (1, 9, 10)]);
    assert_eq!(picture(&desk.table).unwrap().sets[0].format_3, None);
    desk.extend("A").granted(&[(12, 2)]);
    assert_eq!(extents(&desk, 2), [(1, 2, 4), (1, 6, 7), (1, 9, 10), (1, 12, 13)]);
    assert_eq!(picture(&desk.table).unwrap().sets[0].format_3, Some(4));
    // The format 3's bytes: number 3 first, track 12 is CC 2 HH 2.
    let mut format_3 = [0; 140];
    format_3[..4].fill(0x03);
    format_3[44] = 0xF3;
    format_3[4..14].copy_from_slice(&[0x01, 3, 0, 2, 0, 2, 0, 2, 0, 3]);
    assert_eq!(desk.slot(4), format_3);
    // Slot 4 is record 5 of track 1.
    assert_eq!(desk.slot(2)[135..140], [0, 0, 0, 1, 5]);
    for _ in 0..4 {
        desk.extend("B").accepted();
        desk.extend("A").accepted();
    }
    // Extent 7 follows byte 44: tracks 24 and 25.
    assert_eq!(desk.slot(4)[45..55], [0x01, 7, 0, 4, 0, 4, 0, 5, 0, 0]);
    let reply = desk.obtain("A");
    assert_eq!(reply.labels, [desk.slot(2), desk.slot(4)].concat());
}

#[test]
fn five_pieces_at_once_want_a_format_3() {
    let mut desk = holes(&[1, 2, 3, 4, 5]);
    desk.tracks("A", 15, 0).granted(&[(17, 5), (12, 4), (8, 3), (5, 2), (3, 1)]);
    let set = &picture(&desk.table).unwrap().sets[5];
    assert_eq!((set.slot, set.format_3), (7, Some(8)));
    desk.scratch("A").gave_back(15);
    assert_eq!(desk.slot(8), [0; 140]);
    assert_eq!(free(&desk), [(3, 1), (5, 2), (8, 3), (12, 4), (17, 5)]);
}

#[test]
fn release_inside_and_at_the_end_of_an_extent() {
    // Walls at 15, 25, 35 and 45: no two extents touch.
    let mut desk = Desk::begin(11, 5, 8, 1, 1);
    desk.cylinders("A", 2, 1).granted(&[(5, 10)]);
    for i in 0..4 {
        desk.absolute(&format!("W{i}"), 15 + 10 * i, 1).accepted();
        desk.extend("A").granted(&[(20 + 10 * i, 5)]);
    }
    assert_eq!(extents(&desk, 2).len(), 5);
    // At the end of extent 3: kept whole, it keeps its type.
    let mut at_end = desk.clone();
    at_end.release("A", 24, 1).gave_back(5);
    assert_eq!(extents(&at_end, 2)[3], (0x81, 40, 44));
    assert_eq!(picture(&at_end.table).unwrap().sets[0].format_3, Some(6));
    // Inside extent 2, of which the cylinder is kept (document 02, [2]), and the format 3 goes.
    desk.release("A", 16, 9).gave_back(10);
    assert_eq!(extents(&desk, 2), [(0x81, 5, 14), (0x81, 20, 24), (0x81, 30, 34)]);
    assert_eq!(desk.slot(6), [0; 140]);
    assert_eq!(desk.slot(2)[135..], [0; 5]);
    assert_eq!(desk.slot(2)[98..101], [0, 16, 9]);
    assert_eq!(free(&desk), [(2, 3), (16, 4), (26, 4), (36, 9), (46, 9)]);
    // A cylinder file that is cut keeps the type, too.
    desk.release("A", 4, 1).gave_back(15);
    assert_eq!(extents(&desk, 2), [(0x81, 5, 9)]);
    assert_eq!(desk.slot(2)[115..], [0; 25]);
    // TT 0, R 0 keeps a cylinder.
    desk.release("A", 0, 0).gave_back(0);
    assert_eq!(extents(&desk, 2), [(0x81, 5, 9)]);
    assert_eq!(desk.slot(2)[98..101], [0, 0, 0]);
    // The unit stays: cylinders.
    desk.extend("A").granted(&[(10, 5)]);
    assert_eq!(extents(&desk, 2), [(0x81, 5, 14)]);
}

#[test]
fn release_of_nothing_stores_the_ttr() {
    let mut desk = Desk::begin(10, 5, 6, 1, 1);
    desk.cylinders("A", 2, 1).accepted();
    let before = desk.table.clone();
    desk.release("A", 9, 200).gave_back(0);
    let changed: Vec<usize> =
        (0..before.len()).filter(|&at| before[at] != desk.table[at]).collect();
    assert_eq!(changed, [2 * 140 + 99, 2 * 140 + 100]);
}

#[test]
fn release_gives_extents_back_in_any_order_of_tracks() {
    // Pieces at 17, 12, 8, 5, 3: the tail of the set is the low end of the volume.
    let mut desk = holes(&[1, 2, 3, 4, 5]);
    desk.tracks("A", 15, 0).accepted();
    desk.release("A", 6, 1).gave_back(8);
    assert_eq!(extents(&desk, 7), [(1, 17, 21), (1, 12, 13)]);
    assert_eq!(free(&desk), [(3, 1), (5, 2), (8, 3), (14, 2)]);
}
