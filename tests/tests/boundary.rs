//! Volumes at the edges of what initialise takes.

use vtoc_tests::audit::{picture, Picture};
use vtoc_tests::desk::Desk;
use vtoc_tests::reference::{listing, taken};
use vtoc_tests::volumes;

#[track_caller]
fn seen(desk: &Desk) -> Picture {
    assert!(taken(&desk.table));
    picture(&desk.table).expect("not taken")
}

#[track_caller]
fn lspace(desk: &mut Desk, numbers: [u32; 6]) {
    let reply = desk.lspace();
    reply.accepted();
    assert_eq!([0, 2, 4, 6, 8, 10].map(|at| reply.word(at)), numbers);
    assert!(reply.answer[12..].iter().all(|&b| b == 0));
}

#[test]
fn one_track_a_cylinder_one_record_a_track() {
    let mut desk = Desk::begin(12, 1, 1, 2, 5);
    assert_eq!(seen(&desk).free, [(1, 1), (7, 5)]);
    desk.tracks("A", 2, 1).granted(&[(7, 2)]);
    // Slot 2 lies on track 4: CC 4, HH 0, R 1.
    assert_eq!(desk.slot(0)[45..50], [0, 4, 0, 0, 1]);
    desk.cylinders("B", 4, 0).granted(&[(9, 3), (1, 1)]);
    assert_eq!(desk.slot(3)[105..115], [0x81, 0, 0, 9, 0, 0, 0, 11, 0, 0]);
    lspace(&mut desk, [0, 0, 0, 0, 0, 1]);
    assert_eq!(listing(&desk.table), b"V 12 1 12\nD A 2 1\nD B 4 2\nS 1\n");
    desk.scratch("A").gave_back(2);
    lspace(&mut desk, [2, 0, 1, 2, 0, 2]);
}

#[test]
fn vtoc_in_the_middle_splits_the_free_tracks() {
    let mut desk = Desk::begin(6, 4, 3, 10, 2);
    assert_eq!(seen(&desk).free, [(1, 9), (12, 12)]);
    assert_eq!(desk.slot(1)[4..14], [0, 1, 0, 2, 1, 0, 12, 0, 3, 0]);
    // Track 10 is CC 2, HH 2.
    assert_eq!(desk.slot(0)[105..115], [1, 0, 0, 2, 0, 2, 0, 2, 0, 3]);
    desk.tracks("A", 9, 0).granted(&[(1, 9)]);
    desk.tracks("B", 1, 0).granted(&[(12, 1)]);
    desk.tracks("C", 1, 0).granted(&[(13, 1)]);
    // Slot 4 is record 2 of track 11.
    assert_eq!(desk.slot(0)[45..50], [0, 2, 0, 3, 2]);
    // Next to the VTOC on both sides, and nothing joins across it.
    desk.scratch("A").gave_back(9);
    desk.scratch("B").gave_back(1);
    assert_eq!(seen(&desk).free, [(1, 9), (12, 1), (14, 10)]);
    desk.absolute("D", 9, 2).refused(9);
    desk.absolute("D", 9, 1).granted(&[(9, 1)]);
}

#[test]
fn vtoc_at_the_end() {
    let desk = Desk::begin(5, 2, 3, 9, 1);
    assert_eq!(seen(&desk).free, [(1, 8)]);
    assert_eq!(listing(&desk.table), b"V 5 2 10\nF 1 8\nS 1\n");
}

#[test]
fn nothing_free_at_all() {
    let mut desk = Desk::begin(4, 1, 1, 1, 3);
    assert_eq!(seen(&desk).free, []);
    lspace(&mut desk, [0, 0, 0, 0, 0, 1]);
    desk.tracks("A", 1, 0).refused(9);
    desk.absolute("A", 1, 1).refused(9);
    assert_eq!(listing(&desk.table), b"V 4 1 4\nS 1\n");
    let mut desk = Desk::begin(2, 1, 3, 1, 1);
    lspace(&mut desk, [0, 0, 0, 0, 0, 1]);
}

#[test]
fn three_records() {
    let mut desk = Desk::begin(5, 2, 3, 1, 1);
    desk.tracks("A", 1, 0).accepted();
    desk.tracks("B", 1, 0).refused(11);
    assert_eq!(desk.slot(0)[45..52], [0, 0, 0, 1, 3, 0, 0]);
    desk.scratch("A").gave_back(1);
    assert_eq!(desk.slot(0)[45..52], [0, 0, 0, 0, 0, 0, 1]);
    desk.tracks("B", 8, 0).granted(&[(2, 8)]);
}

#[test]
fn most_records() {
    for (d, v) in [(52, 9), (1, 468), (234, 2), (36, 13)] {
        let mut desk = Desk::begin(600, 2, d, 3, v);
        for i in 0..466 {
            desk.tracks(&format!("SET.N{i}"), 1, 0).accepted();
        }
        desk.tracks("MORE", 1, 0).refused(11);
        let last = seen(&desk).sets.last().unwrap().slot;
        assert_eq!(last, 467);
        let track = 3 + 467 / d;
        let address = [(track / 2) >> 8, (track / 2) & 255, 0, track % 2, 467 % d + 1];
        assert_eq!(desk.slot(0)[45..50], address.map(|x| x as u8));
        // The highest format 1 falls with its set; a gap below it is filled first.
        desk.scratch("SET.N465").accepted();
        desk.scratch("SET.N7").accepted();
        desk.tracks("MORE", 1, 0).accepted();
        assert_eq!(desk.slot(9)[0], 0xD4);
        let highest = seen(&desk).sets.last().unwrap().slot;
        assert_eq!(highest, 466);
    }
}

#[test]
fn records_on_a_track_up_to_255() {
    let mut desk = Desk::begin(300, 1, 255, 1, 1);
    for i in 0..253 {
        desk.tracks(&format!("SET.N{i}"), 1, 0).accepted();
    }
    assert_eq!(desk.slot(0)[45..52], [0, 1, 0, 0, 255, 0, 0]);
    desk.tracks("MORE", 1, 0).refused(11);
}

#[test]
fn most_tracks() {
    for (c, h) in [(65_535, 1), (4369, 15), (257, 255), (21_845, 3)] {
        let mut desk = Desk::begin(c, h, 3, 1, 1);
        assert_eq!(seen(&desk).free, [(2, 65_533)]);
        let full = [65_533 / h, 65_533 % h, 1, 65_533 / h, 65_533 % h, 1];
        lspace(&mut desk, full);
        desk.tracks("A", 65_534, 0).refused(9);
        desk.absolute("A", 2, 65_534).refused(7);
        desk.absolute("A", 65_534, 1).granted(&[(65_534, 1)]);
        desk.scratch("A").gave_back(1);
        desk.tracks("A", 65_533, 0).granted(&[(2, 65_533)]);
        desk.release("A", 65_533, 1).refused(12);
        desk.release("A", 65_532, 255).gave_back(0);
        desk.release("A", 0, 0).gave_back(65_532);
        assert_eq!(seen(&desk).free, [(3, 65_532)]);
        desk.scratch("A").gave_back(1);
        lspace(&mut desk, full);
        // All whole cylinders but the first, which holds the label.
        let first = if h == 1 { 2 } else { 1 };
        desk.cylinders("A", c - first, 0).granted(&[(first * h, 65_535 - first * h)]);
        desk.release("A", 65_534 - first * h, 1).gave_back(0);
        assert_eq!(desk.slot(2)[105], 0x81);
    }
}

#[test]
fn the_largest_vtoc_of_the_largest_volume() {
    let mut desk = Desk::begin(65_535, 1, 1, 65_067, 468);
    assert_eq!(seen(&desk).free, [(1, 65_066)]);
    desk.tracks("A", 65_066, 0).granted(&[(1, 65_066)]);
    lspace(&mut desk, [0, 0, 0, 0, 0, 465]);
}

#[test]
fn benchmark_volumes_are_as_described() {
    let make_up = |table: &[u8]| {
        let seen = picture(table).expect("not taken");
        let extents: usize = seen.sets.iter().map(|set| set.extents.len()).sum();
        (table.len(), seen.sets.len(), extents, seen.free.len())
    };
    assert_eq!(make_up(&volumes::small()), (1_120, 2, 2, 1));
    assert_eq!(make_up(&volumes::medium()), (28_000, 100, 100, 101));
    assert_eq!(make_up(&volumes::many_names()), (65_520, 446, 446, 447));
    assert_eq!(make_up(&volumes::many_extents()), (65_520, 176, 2_816, 2_812));
}
