//! Refusals 6 to 12, and which comes first where several apply.

use vtoc_tests::call::{Call, ALX, CONTIG, MXIG};
use vtoc_tests::desk::Desk;
use vtoc_tests::volumes::name;

/// N = 4: two sets, the VTOC full, tracks 17–19 free. A has no secondary amount, B has.
fn full() -> Desk {
    let mut desk = Desk::begin(4, 5, 2, 1, 2);
    desk.tracks("A", 4, 0).granted(&[(3, 4)]);
    desk.tracks("B", 10, 2).granted(&[(7, 10)]);
    desk
}

#[test]
fn amounts() {
    let mut desk = full();
    for kind in [3, 4, 255, 256, u32::MAX] {
        desk.allocate("C", kind, 17, 1, 0).refused(7);
    }
    for kind in [0, 1] {
        for amount in [0, 65_536, u32::MAX] {
            desk.allocate("C", kind, 0, amount, 0).refused(7);
        }
        for secondary in [16_777_216, u32::MAX] {
            desk.allocate("C", kind, 0, 1, secondary).refused(7);
        }
        // The range does not depend on the volume, nor does the start count.
        desk.allocate("C", kind, u32::MAX, 65_535, 16_777_215).refused(9);
    }
    desk.allocate("C", 2, 17, 0, 0).refused(7);
    desk.allocate("C", 2, 17, 4, 0).refused(7);
    desk.allocate("C", 2, 20, 1, 0).refused(7);
    desk.allocate("C", 2, u32::MAX, 1, 0).refused(7);
    desk.allocate("C", 2, u32::MAX, u32::MAX, 0).refused(7);
    desk.allocate("C", 2, 1, u32::MAX, 0).refused(7);
    desk.allocate("C", 2, 17, 1, 1).refused(7);
    // Before 6.
    desk.allocate("A", 0, 0, 0, 0).refused(7);
    desk.allocate("A", 2, 17, 1, 1).refused(7);
}

#[test]
fn options() {
    let mut desk = full();
    for option in [4, 5, 255, 256, 257, 65_536, 65_537, 1 << 31, u32::MAX] {
        // Unknown ones, whatever the kind.
        for kind in [0, 1, 2, 3] {
            desk.allocate_by(option, "C", kind, 17, 1, 0).refused(7);
        }
    }
    for option in [CONTIG, MXIG, ALX] {
        // On absolute tracks, and the other numbers as without an option.
        desk.allocate_by(option, "C", 2, 17, 1, 0).refused(7);
        desk.allocate_by(option, "C", 3, 17, 1, 0).refused(7);
        for kind in [0, 1] {
            for amount in [0, 65_536, u32::MAX] {
                desk.allocate_by(option, "C", kind, 0, amount, 0).refused(7);
            }
            desk.allocate_by(option, "C", kind, 0, 1, 16_777_216).refused(7);
            desk.allocate_by(option, "C", kind, u32::MAX, 65_535, 16_777_215).refused(9);
        }
        // 6 before 9 before 11; three tracks are free, and no slot.
        desk.tracks_by(option, "A", 4, 0).refused(6);
        desk.tracks_by(option, "C", 4, 0).refused(9);
        desk.cylinders_by(option, "C", 1, 0).refused(9);
        desk.tracks_by(option, "C", 3, 0).refused(11);
    }
    // 4 before 7, and 7 before 6 and 9.
    desk.tracks_by(4, "", 1, 0).refused(4);
    desk.allocate_by(ALX, "", 2, 17, 1, 0).refused(4);
    desk.tracks_by(4, "A", 1, 0).refused(7);
    desk.allocate_by(CONTIG, "A", 2, 17, 1, 0).refused(7);
    desk.tracks_by(4, "C", 4, 0).refused(7);
    desk.allocate_by(MXIG, "C", 2, 16, 1, 0).refused(7);
}

#[test]
fn duplicate_then_space_then_slots() {
    let mut desk = full();
    desk.tracks("A", 1, 0).refused(6);
    desk.tracks("A", 4, 0).refused(6);
    desk.tracks("C", 4, 0).refused(9);
    desk.cylinders("C", 1, 0).refused(9);
    for (start, count) in [(0, 1), (1, 1), (2, 1), (0, 20), (3, 1), (6, 1), (16, 1), (16, 2)] {
        desk.absolute("C", start, count).refused(9);
    }
    desk.tracks("C", 3, 0).refused(11);
    desk.absolute("C", 17, 3).refused(11);
    desk.rename("A", "B").refused(6);
    desk.rename("A", "A").refused(6);
}

#[test]
fn extend_8_9_10_11() {
    let mut desk = full();
    desk.extend("A").refused(8);
    desk.extend("B").granted(&[(17, 2)]);
    desk.extend("B").refused(9);
    // Absolute sets have no secondary amount.
    let mut desk = Desk::begin(20, 1, 3, 1, 1);
    desk.absolute("A", 5, 1).accepted();
    desk.extend("A").refused(8);
    desk.scratch("A").accepted();
    // The fourth extent wants a format 3.
    let mut desk = Desk::begin(20, 1, 4, 1, 1);
    desk.downwards("A", 2, 3);
    desk.absolute("B", 18, 1).accepted();
    desk.extend("A").refused(11);
    // Sixteen extents; 9 comes before 10, and is not avoided by taking less.
    let mut desk = Desk::begin(40, 1, 5, 1, 1);
    desk.downwards("A", 2, 16);
    desk.extend("A").refused(10);
    desk.tracks("B", 21, 0).granted(&[(18, 21)]);
    desk.tracks("C", 1, 0).refused(11);
    desk.release("A", 14, 1).gave_back(1);
    desk.extend("A").granted(&[(2, 1)]);
    let mut desk = Desk::begin(18, 1, 5, 1, 1);
    desk.downwards("A", 2, 16);
    desk.extend("A").refused(9);
}

#[test]
fn extend_with_more_pieces_than_fit_is_10() {
    // Fifteen extents, W after each, and two holes for an amount of 2.
    let mut desk = Desk::begin(60, 1, 9, 1, 1);
    desk.tracks("A", 2, 2).accepted();
    desk.tracks("W", 1, 1).accepted();
    for _ in 1..15 {
        desk.extend("A").accepted();
        desk.extend("W").accepted();
    }
    desk.absolute("B", 48, 1).accepted();
    desk.absolute("C", 50, 10).accepted();
    desk.extend("A").refused(10);
    desk.scratch("B").accepted();
    desk.extend("A").granted(&[(47, 2)]);
}

#[test]
fn extend_with_a_huge_secondary_is_no_space() {
    for kind in [0, 1] {
        let mut desk = Desk::begin(4, 5, 4, 1, 2);
        desk.allocate("A", kind, 0, 1, 16_777_215).accepted();
        desk.extend("A").refused(9);
    }
}

#[test]
fn ttr() {
    let mut desk = full();
    let mut at = |ttr: u32| desk.call(Call::Release { name: name("B").to_vec(), ttr }).result;
    for ttr in [1 << 24, (1 << 24) + 0x0101, u32::MAX, 0x000A01, 0xFFFF01, 0x000100, 0x000900] {
        assert_eq!(at(ttr), 12, "{ttr:06X}");
    }
    // Ten tracks: TT up to 9; nothing given back is no refusal.
    assert_eq!(at(0x0009FF), 0);
    assert_eq!(at(0x000001), 0);
    assert_eq!(at(0x000000), 0);
    assert_eq!(at(0x000101), 12);
}
