//! The likely blunders of document 01, and the wrong managers of the buyer's note.

use vtoc_tests::audit::picture;
use vtoc_tests::desk::Desk;

#[track_caller]
fn free(desk: &Desk) -> Vec<(u32, u32)> {
    picture(&desk.table).expect("not taken").free
}

/// H = 1 with one-track holes at 3, 5, 7, ... and `tail` tracks free after them.
fn holes(count: u32, tail: u32) -> Desk {
    let mut desk = Desk::begin(3 + 2 * count + tail, 1, 16, 1, 2);
    for i in 0..count {
        desk.absolute(&format!("WALL{i}"), 4 + 2 * i, 1).accepted();
    }
    desk
}

#[test]
fn six_tracks_in_six_holes_are_no_space() {
    let mut desk = holes(6, 0);
    assert_eq!(free(&desk).len(), 6);
    desk.tracks("SIX", 6, 0).refused(9);
    desk.tracks("FIVE", 5, 0).granted(&[(3, 1), (5, 1), (7, 1), (9, 1), (11, 1)]);
}

#[test]
fn five_longest_suffice() {
    // The sixth longest would be needed for one more.
    let mut desk = holes(7, 4);
    desk.tracks("NINE", 9, 0).refused(9);
    desk.tracks("EIGHT", 8, 0).granted(&[(17, 4), (3, 1), (5, 1), (7, 1), (9, 1)]);
}

#[test]
fn scratch_joins_what_it_frees() {
    let mut desk = Desk::begin(4, 5, 4, 1, 2);
    desk.tracks("LOW", 7, 0).granted(&[(3, 7)]);
    desk.tracks("MIDDLE", 5, 0).granted(&[(10, 5)]);
    desk.tracks("HIGH", 5, 0).granted(&[(15, 5)]);
    desk.scratch("LOW").gave_back(7);
    desk.scratch("HIGH").gave_back(5);
    assert_eq!(free(&desk), [(3, 7), (15, 5)]);
    desk.scratch("MIDDLE").gave_back(5);
    assert_eq!(free(&desk), [(3, 17)]);
}

#[test]
fn scratch_needs_no_slot_but_its_own() {
    let mut desk = Desk::begin(70, 1, 29, 1, 1);
    for i in 0..25 {
        desk.absolute(&format!("WALL{i}"), 3 + 2 * i, 1).accepted();
    }
    desk.absolute("END", 53, 17).accepted();
    desk.absolute("FILL", 52, 1).accepted();
    desk.release("END", 0, 0).gave_back(16);
    // Holes 2, 4, ..., 50 and 54–69, one format 5 full, no format 0 left.
    assert_eq!(free(&desk).len(), 26);
    assert_eq!(desk.slot(0)[50..52], [0, 0]);
    // FILL leaves a hole apart from the others, and the new format 5 moves into its slot.
    desk.scratch("FILL").gave_back(1);
    let picture = picture(&desk.table).unwrap();
    assert_eq!(picture.free.len(), 27);
    assert_eq!(picture.chain, [1, 28]);
    assert_eq!(picture.format_0s, 0);
}

#[test]
fn cylinders_are_whole_ones_not_length_by_h() {
    // Free 6–13 with H = 5: eight tracks, and not one whole cylinder.
    let mut desk = Desk::begin(4, 5, 4, 1, 2);
    desk.absolute("A", 3, 3).accepted();
    desk.absolute("B", 14, 6).accepted();
    assert_eq!(free(&desk), [(6, 8)]);
    desk.cylinders("C", 1, 0).refused(9);
    desk.scratch("B").accepted();
    desk.absolute("B", 15, 5).accepted();
    desk.cylinders("C", 1, 0).granted(&[(10, 5)]);
    assert_eq!(free(&desk), [(6, 4)]);
}

#[test]
fn the_first_part_is_given_never_the_tail() {
    let mut desk = Desk::begin(4, 5, 4, 1, 2);
    desk.tracks("A", 1, 0).granted(&[(3, 1)]);
    desk.cylinders("B", 1, 0).granted(&[(5, 5)]);
    assert_eq!(free(&desk), [(4, 1), (10, 10)]);
    desk.tracks("C", 10, 0).granted(&[(10, 10)]);
}

#[test]
fn each_grant_differs_from_the_last() {
    let mut desk = Desk::begin(4, 5, 4, 1, 2);
    desk.tracks("A", 4, 4).granted(&[(3, 4)]);
    desk.tracks("B", 4, 0).granted(&[(7, 4)]);
    desk.extend("A").granted(&[(11, 4)]);
    desk.tracks("C", 4, 0).granted(&[(15, 4)]);
    let tracks: Vec<u32> =
        picture(&desk.table).unwrap().sets.iter().flat_map(|set| set.tracks()).collect();
    assert_eq!(tracks, [3, 4, 5, 6, 11, 12, 13, 14, 7, 8, 9, 10, 15, 16, 17, 18]);
}
