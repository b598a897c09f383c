//! Document 02's space options: CONTIG, MXIG and ALX.

use vtoc_tests::audit::{picture, Extent, Picture};
use vtoc_tests::call::{ALX, CONTIG, MXIG, NO_OPTION};
use vtoc_tests::desk::Desk;

#[track_caller]
fn seen(desk: &Desk) -> Picture {
    picture(&desk.table).expect("not taken")
}

/// The extents of the set with the highest slot.
#[track_caller]
fn last_extents(desk: &Desk) -> Vec<Extent> {
    seen(desk).sets.last().expect("a set").extents.clone()
}

/// H = 1; holes of these lengths from track 3 on, each with a one-track set after it; so many free
/// slots.
fn holes(lengths: &[u32], spare: u32) -> Desk {
    let total: u32 = lengths.iter().map(|length| length + 1).sum();
    let mut desk = Desk::begin(3 + total, 1, 3 + lengths.len() as u32 + spare, 1, 1);
    desk.absolute("WALL", 2, 1).accepted();
    desk.walls(lengths);
    desk
}

#[test]
fn contig_is_one_piece_or_none() {
    // Starts 3, 9, 13, 18, 22.
    let desk = holes(&[5, 3, 4, 3, 9], 3);
    for (amount, piece) in [
        (1, (9, 1)),
        (2, (9, 2)),
        (3, (9, 3)),
        (4, (13, 4)),
        (5, (3, 5)),
        (6, (22, 6)),
        (9, (22, 9)),
    ] {
        desk.clone().tracks_by(CONTIG, "A", amount, 0).granted(&[piece]);
    }
    desk.clone().tracks_by(CONTIG, "A", 10, 0).refused(9);
    desk.clone().tracks("A", 10, 0).granted(&[(22, 9), (3, 1)]);
}

#[test]
fn mxig_is_the_longest_whole() {
    // Starts 3, 6, 12, 16.
    let mut desk = holes(&[2, 5, 3, 5], 4);
    for amount in 1..=5 {
        desk.clone().tracks_by(MXIG, "A", amount, 0).granted(&[(6, 5)]);
    }
    desk.clone().tracks_by(MXIG, "A", 6, 0).refused(9);
    desk.tracks_by(MXIG, "A", 1, 0).granted(&[(6, 5)]);
    desk.tracks_by(MXIG, "B", 5, 0).granted(&[(16, 5)]);
    desk.tracks_by(MXIG, "C", 4, 0).refused(9);
    desk.tracks_by(MXIG, "C", 3, 0).granted(&[(12, 3)]);
    assert_eq!(seen(&desk).free, [(3, 2)]);
}

#[test]
fn alx_is_every_candidate_that_serves() {
    // Starts 3, 6, 12, 16, 22, 26.
    let desk = holes(&[2, 5, 3, 5, 3, 1], 3);
    let five = [(6, 5), (16, 5), (12, 3), (22, 3), (3, 2)];
    for (amount, pieces) in [(1, 5), (2, 5), (3, 4), (4, 2), (5, 2)] {
        desk.clone().tracks_by(ALX, "A", amount, 0).granted(&five[..pieces]);
    }
    desk.clone().tracks_by(ALX, "A", 6, 0).refused(9);
    let mut desk = desk;
    desk.tracks_by(ALX, "A", 1, 7).granted(&five);
    assert_eq!(last_extents(&desk), [(1, 6, 10), (1, 16, 20), (1, 12, 14), (1, 22, 24), (1, 3, 4)]);
    assert_eq!(seen(&desk).free, [(26, 1)]);
    desk.scratch("A").gave_back(18);
}

#[test]
fn alx_of_seven_alike_takes_the_lowest_five() {
    // Starts 3, 7, 11, 15, 19, 23, 27.
    let desk = holes(&[3; 7], 3);
    for amount in 1..=3 {
        let five = [(3, 3), (7, 3), (11, 3), (15, 3), (19, 3)];
        desk.clone().tracks_by(ALX, "A", amount, 0).granted(&five);
    }
}

/// H = 4, tracks 0 to 59, free 5–11 (one whole cylinder, from 8), 16–19 (one), 25–35 (two from
/// 28), 40–47 (two), 50–54 (none).
fn cylinders() -> Desk {
    let mut desk = Desk::begin(15, 4, 8, 1, 2);
    for (i, (start, count)) in
        [(3, 2), (12, 4), (20, 5), (36, 4), (48, 2), (55, 5)].into_iter().enumerate()
    {
        desk.absolute(&format!("WALL{i}"), start, count).accepted();
    }
    assert_eq!(seen(&desk).free, [(5, 7), (16, 4), (25, 11), (40, 8), (50, 5)]);
    desk
}

#[test]
fn whole_cylinders_and_never_the_rest() {
    let desk = cylinders();
    desk.clone().cylinders_by(CONTIG, "A", 1, 0).granted(&[(8, 4)]);
    desk.clone().cylinders_by(CONTIG, "A", 2, 0).granted(&[(28, 8)]);
    for amount in [1, 2] {
        desk.clone().cylinders_by(MXIG, "A", amount, 0).granted(&[(28, 8)]);
    }
    desk.clone().cylinders_by(ALX, "A", 2, 0).granted(&[(28, 8), (40, 8)]);
    for option in [CONTIG, MXIG, ALX] {
        desk.clone().cylinders_by(option, "A", 3, 0).refused(9);
    }
    let mut desk = desk;
    desk.cylinders_by(ALX, "A", 1, 0).granted(&[(28, 8), (40, 8), (8, 4), (16, 4)]);
    let whole = [(0x81, 28, 35), (0x81, 40, 47), (0x81, 8, 11), (0x81, 16, 19)];
    assert_eq!(last_extents(&desk), whole);
    assert_eq!(seen(&desk).free, [(5, 3), (25, 3), (50, 5)]);
    // Five tracks, but no whole cylinder.
    desk.cylinders_by(ALX, "B", 1, 0).refused(9);
    desk.tracks_by(MXIG, "B", 1, 0).granted(&[(50, 5)]);
}

#[test]
fn the_longest_is_so_in_cylinders() {
    // H = 3. Free 4–10: seven tracks, one whole cylinder; 12–17: six tracks, two.
    let mut desk = Desk::begin(8, 3, 4, 1, 2);
    for (text, start, count) in [("W0", 3, 1), ("W1", 11, 1), ("W2", 18, 6)] {
        desk.absolute(text, start, count).accepted();
    }
    desk.clone().tracks_by(MXIG, "A", 1, 0).granted(&[(4, 7)]);
    desk.clone().cylinders_by(MXIG, "A", 1, 0).granted(&[(12, 6)]);
    desk.clone().tracks_by(ALX, "A", 1, 0).granted(&[(4, 7), (12, 6)]);
    desk.clone().cylinders_by(ALX, "A", 1, 0).granted(&[(12, 6), (6, 3)]);
}

/// The whole volume in one piece, and the number of tracks in two bytes of the answer.
#[test]
fn the_largest_grants() {
    for (c, h, first) in [(65_535, 1, 2), (4369, 15, 15), (257, 255, 255)] {
        for option in [MXIG, ALX] {
            let mut desk = Desk::begin(c, h, 3, 1, 1);
            desk.tracks_by(option, "A", 1, 0).granted(&[(2, 65_533)]);
            desk.scratch("A").gave_back(65_533);
            desk.cylinders_by(option, "A", 1, 0).granted(&[(first, 65_535 - first)]);
        }
    }
}

#[test]
fn no_label_keeps_the_option() {
    let desk = cylinders();
    let same = |one: &dyn Fn(&mut Desk), other: &dyn Fn(&mut Desk)| {
        let (mut left, mut right) = (desk.clone(), desk.clone());
        one(&mut left);
        other(&mut right);
        assert_eq!(left.table, right.table);
        assert_ne!(left.table, desk.table);
    };
    same(&|d| d.tracks_by(CONTIG, "A", 4, 9).accepted(), &|d| d.tracks("A", 4, 9).accepted());
    same(&|d| d.tracks_by(MXIG, "A", 1, 9).accepted(), &|d| d.tracks("A", 11, 9).accepted());
    same(&|d| d.tracks_by(ALX, "A", 9, 9).accepted(), &|d| d.tracks("A", 11, 9).accepted());
    same(&|d| d.cylinders_by(MXIG, "A", 1, 9).accepted(), &|d| d.cylinders("A", 2, 9).accepted());
    same(&|d| d.cylinders_by(ALX, "A", 1, 9).accepted(), &|d| d.cylinders("A", 6, 9).accepted());
}

#[test]
fn extend_has_no_option() {
    // Starts 3, 9, 12, 16.
    for option in [CONTIG, MXIG, ALX] {
        let mut desk = holes(&[5, 2, 3, 3], 3);
        desk.tracks_by(option, "A", 5, 7).granted(&[(3, 5)]);
        desk.extend("A").granted(&[(12, 3), (16, 3), (9, 1)]);
        desk.release("A", 5, 1).gave_back(6);
    }
}

#[test]
fn four_pieces_need_a_format_3_at_once() {
    // Starts 3, 5, 8, 12.
    let desk = |spare: u32| holes(&[1, 2, 3, 4], spare);
    let four = [(12, 4), (8, 3), (5, 2), (3, 1)];
    for spare in [0, 1] {
        desk(spare).tracks_by(ALX, "A", 1, 0).refused(11);
    }
    desk(0).tracks_by(ALX, "A", 2, 0).refused(11);
    desk(1).tracks_by(ALX, "A", 2, 0).granted(&four[..3]);
    let mut desk = desk(2);
    desk.tracks_by(ALX, "A", 1, 0).granted(&four);
    let set = seen(&desk).sets.pop().expect("A");
    assert_eq!((set.slot, set.format_3), (7, Some(8)));
}

/// The same grant without an option is the base's.
#[test]
fn none_is_the_rule_of_the_base() {
    let desk = holes(&[2, 5, 3, 5], 4);
    desk.clone().tracks_by(NO_OPTION, "A", 6, 0).granted(&[(6, 5), (16, 1)]);
    desk.clone().allocate_by(NO_OPTION, "A", 2, 7, 2, 0).granted(&[(7, 2)]);
}
