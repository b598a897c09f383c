//! Which tracks are granted, and how they come back.

use super::{sequence, Sequence};
use crate::desk::Desk;

pub fn sequences() -> Vec<Sequence> {
    vec![
        best_fit(),
        longest_first(),
        extend_in_pieces(),
        sixteen_extents(),
        whole_cylinders(),
        absolute(),
        release(),
    ]
}

/// H = 1; holes of these lengths from track 3 on, each with a one-track set after it.
pub fn holes(desk: &mut Desk, lengths: &[u32], slots: u32) {
    let total: u32 = lengths.iter().map(|length| length + 1).sum();
    desk.initialise(3 + total, 1, slots / 2, 1, 2).accepted();
    desk.walls(lengths);
}

fn best_fit() -> Sequence {
    sequence("The shortest that fits, the lowest on ties, its first part", |desk| {
        holes(desk, &[5, 3, 4, 3, 9], 16);
        desk.tracks("A", 2, 0).granted(&[(9, 2)]);
        desk.tracks("B", 1, 0).granted(&[(11, 1)]);
        desk.tracks("C", 3, 0).granted(&[(18, 3)]);
        desk.tracks("D", 5, 0).granted(&[(3, 5)]);
        desk.tracks("E", 6, 0).granted(&[(22, 6)]);
        desk.tracks("F", 7, 0).granted(&[(13, 4), (28, 3)]);
    })
}

fn longest_first() -> Sequence {
    sequence("Two to five pieces, the longest first; six holes are too many", |desk| {
        holes(desk, &[2, 5, 3, 5, 3, 1], 12);
        desk.tracks("PIECES", 11, 0).granted(&[(6, 5), (16, 5), (12, 1)]);
        desk.scratch("PIECES").gave_back(11);
        desk.tracks("PIECES", 16, 0).granted(&[(6, 5), (16, 5), (12, 3), (22, 3)]);
        desk.scratch("PIECES").gave_back(16);
        desk.tracks("PIECES", 19, 0).refused(9);
        desk.tracks("PIECES", 18, 0).granted(&[(6, 5), (16, 5), (12, 3), (22, 3), (3, 2)]);
        desk.obtain("PIECES").without_numbers();
        desk.release("PIECES", 12, 1).gave_back(5);
    })
}

fn extend_in_pieces() -> Sequence {
    sequence("Extend in two to five pieces", |desk| {
        desk.initialise(27, 1, 7, 1, 2).without_numbers();
        for (i, secondary) in [9, 12, 14, 15].into_iter().enumerate() {
            desk.tracks(&format!("SET{i}"), 1, secondary).granted(&[(3 + i as u32, 1)]);
        }
        // Holes of one to five tracks: 7, 9–10, 12–14, 16–19, 21–25.
        for (i, start) in [8, 11, 15, 20, 26].into_iter().enumerate() {
            desk.absolute(&format!("W{i}"), start, 1).accepted();
        }
        let all = [(21, 5), (16, 4), (12, 3), (9, 2), (7, 1)];
        desk.extend("SET0").granted(&all[..2]);
        desk.extend("SET0").refused(9);
        desk.release("SET0", 0, 1).gave_back(9);
        desk.extend("SET1").granted(&all[..3]);
        desk.release("SET1", 0, 1).gave_back(12);
        desk.extend("SET2").granted(&all[..4]);
        desk.scratch("SET2").gave_back(15);
        desk.extend("SET3").granted(&[(21, 5), (16, 4), (12, 3), (9, 2), (5, 1)]);
        desk.obtain("SET3").without_numbers();
        desk.release("SET3", 13, 1).gave_back(2);
    })
}

fn sixteen_extents() -> Sequence {
    sequence("Sixteen extents and no more", |desk| {
        desk.initialise(20, 1, 5, 1, 1).without_numbers();
        desk.downwards("A", 2, 16);
        desk.extend("A").refused(10);
        desk.obtain("A").without_numbers();
        desk.scratch("A").gave_back(16);
    })
}

fn whole_cylinders() -> Sequence {
    sequence("Cylinders are whole ones, compared in cylinders", |desk| {
        desk.initialise(15, 4, 7, 1, 2).without_numbers();
        for (i, (start, count)) in
            [(3, 2), (12, 4), (20, 5), (36, 4), (48, 2), (55, 5)].into_iter().enumerate()
        {
            desk.absolute(&format!("W{i}"), start, count).accepted();
        }
        // Free 5–11, 16–19, 25–35, 40–47, 50–54.
        desk.cylinders("A", 7, 0).refused(9);
        desk.cylinders("A", 6, 1).granted(&[(28, 8), (40, 8), (8, 4), (16, 4)]);
        desk.extend("A").refused(9);
        desk.release("A", 19, 1).gave_back(4);
        desk.extend("A").granted(&[(16, 4)]);
        desk.release("A", 9, 1).gave_back(12);
        desk.cylinders("B", 1, 0).granted(&[(8, 4)]);
        desk.cylinders("C", 2, 0).granted(&[(16, 4), (44, 4)]);
    })
}

fn absolute() -> Sequence {
    sequence("Absolute tracks in every place of a free extent", |desk| {
        desk.initialise(4, 5, 5, 1, 2).without_numbers();
        desk.absolute("MIDDLE", 8, 3).granted(&[(8, 3)]);
        desk.absolute("FRONT", 3, 2).granted(&[(3, 2)]);
        desk.absolute("TAIL", 18, 2).granted(&[(18, 2)]);
        desk.absolute("WHOLE", 5, 3).granted(&[(5, 3)]);
        desk.absolute("X", 10, 2).refused(9);
        desk.absolute("X", 17, 2).refused(9);
        desk.absolute("X", 0, 20).refused(9);
        desk.extend("WHOLE").refused(8);
        desk.scratch("MIDDLE").gave_back(3);
        desk.release("WHOLE", 1, 1).gave_back(1);
        desk.absolute("X", 7, 11).granted(&[(7, 11)]);
    })
}

fn release() -> Sequence {
    sequence("Release inside and at the end of an extent, with and without its format 3", |desk| {
        desk.initialise(11, 5, 8, 1, 1).without_numbers();
        desk.cylinders("A", 2, 1).granted(&[(5, 10)]);
        for (i, cylinder) in [4, 6, 8, 10].into_iter().enumerate() {
            desk.absolute(&format!("W{i}"), 5 * cylinder - 1, 1).accepted();
            desk.extend("A").granted(&[(5 * cylinder, 5)]);
        }
        desk.obtain("A").without_numbers();
        desk.release("A", 24, 1).gave_back(5);
        desk.release("A", 21, 255).gave_back(0);
        desk.release("A", 16, 9).gave_back(5);
        desk.obtain("A").without_numbers();
        desk.release("A", 4, 1).gave_back(15);
        desk.release("A", 1, 0).refused(12);
        desk.release("A", 0, 0).gave_back(0);
        desk.extend("A").granted(&[(10, 5)]);
        desk.release("A", 5, 1).gave_back(0);
    })
}
