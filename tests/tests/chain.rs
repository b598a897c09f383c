//! The format 5 chain growing and shrinking.

use vtoc_tests::audit::{picture, Picture};
use vtoc_tests::desk::Desk;

#[track_caller]
fn seen(desk: &Desk) -> Picture {
    picture(&desk.table).expect("not taken")
}

/// H = 1, `n` records on track 1; one-track sets WALL0, WALL1, ... at tracks 3, 5, ... leave
/// holes at 2, 4, ... and one at the end: one free extent more than there are walls.
fn comb(n: u32, walls: u32) -> Desk {
    let mut desk = Desk::begin(200, 1, n, 1, 1);
    for i in 0..walls {
        desk.absolute(&format!("WALL{i}"), 3 + 2 * i, 1).accepted();
    }
    desk
}

fn is_format_0(desk: &Desk, slot: usize) -> bool {
    desk.slot(slot) == [0; 140]
}

#[test]
fn grows_at_27_and_53() {
    let mut desk = comb(80, 25);
    assert_eq!((seen(&desk).free.len(), seen(&desk).chain), (26, vec![1]));
    // The last entry of a full format 5 ends at byte 134.
    assert_eq!(desk.slot(1)[130..140], [0, 52, 0, 148, 0, 0, 0, 0, 0, 0]);
    desk.absolute("WALL25", 53, 1).accepted();
    // The format 1 takes slot 27, the new format 5 slot 28: record 29.
    assert_eq!((seen(&desk).free.len(), seen(&desk).chain), (27, vec![1, 28]));
    assert_eq!(desk.slot(1)[130..140], [0, 52, 0, 1, 0, 0, 1, 0, 0, 29]);
    let mut second = [0; 140];
    second[..4].fill(0x05);
    second[4..9].copy_from_slice(&[0, 54, 0, 146, 0]);
    second[44] = 0xF5;
    assert_eq!(desk.slot(28), second);
    assert_eq!(desk.slot(0)[45..52], [0, 1, 0, 0, 28, 0, 80 - 29]);
    for i in 26..51 {
        desk.absolute(&format!("WALL{i}"), 3 + 2 * i, 1).accepted();
    }
    assert_eq!((seen(&desk).free.len(), seen(&desk).chain), (52, vec![1, 28]));
    desk.absolute("WALL51", 105, 1).accepted();
    assert_eq!((seen(&desk).free.len(), seen(&desk).chain), (53, vec![1, 28, 55]));
    assert_eq!(desk.slot(28)[135..140], [0, 1, 0, 0, 56]);
}

#[test]
fn shrinks_at_52_and_26() {
    let mut desk = comb(80, 52);
    assert_eq!(seen(&desk).chain, [1, 28, 55]);
    // A wall gone joins two holes.
    desk.scratch("WALL0").gave_back(1);
    assert_eq!((seen(&desk).free.len(), seen(&desk).chain), (52, vec![1, 28]));
    assert!(is_format_0(&desk, 2) && is_format_0(&desk, 55));
    for i in 1..26 {
        desk.scratch(&format!("WALL{i}")).gave_back(1);
        assert_eq!(seen(&desk).chain, [1, 28]);
    }
    assert_eq!(seen(&desk).free.len(), 27);
    desk.scratch("WALL26").gave_back(1);
    assert_eq!((seen(&desk).free.len(), seen(&desk).chain), (26, vec![1]));
    assert!(is_format_0(&desk, 28));
    for i in 27..52 {
        desk.scratch(&format!("WALL{i}")).gave_back(1);
    }
    assert_eq!((seen(&desk).free, seen(&desk).chain), (vec![(2, 198)], vec![1]));
    assert_eq!(desk.table, Desk::begin(200, 1, 80, 1, 1).table);
}

#[test]
fn a_freed_format_5_is_the_format_1s_slot() {
    let mut desk = comb(80, 26);
    assert_eq!(seen(&desk).chain, [1, 28]);
    // Filling a hole leaves 26: slot 28 is freed before the format 1 takes the lowest.
    desk.tracks("FILL", 1, 0).granted(&[(2, 1)]);
    assert_eq!(seen(&desk).chain, [1]);
    assert_eq!(seen(&desk).sets.last().unwrap().slot, 28);
    assert!(is_format_0(&desk, 29));
}

#[test]
fn a_freed_format_5_counts_against_a_full_vtoc() {
    // 29 records: format 4, 26 walls, two format 5s, none left.
    let mut desk = comb(29, 26);
    assert_eq!(seen(&desk).format_0s, 0);
    desk.absolute("SPLIT", 60, 1).refused(11);
    desk.tracks("FRONT", 2, 0).refused(11);
    desk.tracks("FILL", 1, 0).granted(&[(2, 1)]);
    assert_eq!((seen(&desk).format_0s, seen(&desk).chain), (0, vec![1]));
    desk.tracks("MORE", 1, 0).refused(11);
}

#[test]
fn format_1_and_format_3_take_a_freed_format_5() {
    // 30 records: one format 0 (slot 29) and, once five holes are filled, slot 28.
    let mut desk = Desk::begin(55, 1, 30, 1, 1);
    for i in 0..26 {
        desk.absolute(&format!("WALL{i}"), 3 + 2 * i, 1).accepted();
    }
    assert_eq!((seen(&desk).free.len(), seen(&desk).chain), (27, vec![1, 28]));
    assert_eq!(seen(&desk).format_0s, 1);
    desk.tracks("FIVE", 5, 0).granted(&[(2, 1), (4, 1), (6, 1), (8, 1), (10, 1)]);
    let set = seen(&desk).sets.last().unwrap().clone();
    assert_eq!((set.slot, set.format_3), (28, Some(29)));
    assert_eq!((seen(&desk).format_0s, seen(&desk).chain), (0, vec![1]));
}

#[test]
fn a_new_format_5_may_lie_below_the_others() {
    let mut desk = comb(80, 52);
    desk.absolute("END", 197, 3).accepted();
    assert_eq!((seen(&desk).free.len(), seen(&desk).chain), (53, vec![1, 28, 55]));
    desk.scratch("WALL3").gave_back(1);
    assert_eq!((seen(&desk).free.len(), seen(&desk).chain), (52, vec![1, 28]));
    // Two tracks after the one END keeps: the 53rd extent, its format 5 in WALL3's slot.
    desk.release("END", 0, 1).gave_back(2);
    assert_eq!((seen(&desk).free.len(), seen(&desk).chain), (53, vec![1, 28, 5]));
    assert_eq!(desk.slot(28)[135..140], [0, 1, 0, 0, 6]);
    assert_eq!(desk.slot(5)[4..14], [0, 198, 0, 2, 0, 0, 0, 0, 0, 0]);
}
