//! The space options of an allocate: document 02, [1].

use super::grants::holes;
use super::{sequence, Sequence};
use crate::call::{ALX, CONTIG, MXIG};
use crate::desk::Desk;

pub fn stories() -> Vec<Sequence> {
    vec![of_tracks(), of_cylinders()]
}

pub fn edges() -> Vec<Sequence> {
    vec![at_a_length(), against_the_rule()]
}

fn of_tracks() -> Sequence {
    sequence("CONTIG, MXIG and ALX of tracks", |desk| {
        // Free 3–5, 7–11, 13–15, 17–21, 23–25, 27–29; four records.
        holes(desk, &[3, 5, 3, 5, 3, 3], 12);
        for option in [CONTIG, MXIG, ALX] {
            desk.tracks_by(option, "A", 6, 0).refused(9);
        }
        // Six serve; of the last four the one at 27 is left.
        let five = [(7, 5), (17, 5), (3, 3), (13, 3), (23, 3)];
        desk.tracks_by(ALX, "A", 3, 0).granted(&five);
        desk.obtain("A").without_numbers();
        desk.scratch("A").gave_back(19);
        desk.tracks_by(MXIG, "A", 2, 4).granted(&[(7, 5)]);
        desk.tracks_by(MXIG, "B", 5, 0).granted(&[(17, 5)]);
        desk.tracks_by(ALX, "C", 1, 0).granted(&[(3, 3), (13, 3), (23, 3), (27, 3)]);
        desk.scratch("C").gave_back(12);
        desk.tracks_by(CONTIG, "C", 2, 0).granted(&[(3, 2)]);
        // One record: four pieces would need two, three do with it.
        desk.tracks_by(ALX, "D", 1, 0).refused(11);
        desk.tracks_by(ALX, "D", 2, 0).granted(&[(13, 3), (23, 3), (27, 3)]);
        desk.tracks_by(ALX, "E", 1, 0).refused(11);
        desk.scratch("D").gave_back(9);
        desk.tracks_by(CONTIG, "D", 3, 0).granted(&[(13, 3)]);
        // The option of its allocate is not kept: two pieces.
        desk.extend("A").granted(&[(23, 3), (27, 1)]);
        desk.scratch("B").gave_back(5);
        desk.tracks_by(ALX, "B", 3, 0).granted(&[(17, 5)]);
        desk.scratch("B").gave_back(5);
        desk.tracks_by(ALX, "B", 2, 0).granted(&[(17, 5), (28, 2)]);
    })
}

fn of_cylinders() -> Sequence {
    sequence("CONTIG, MXIG and ALX of cylinders, never the rest of a free extent", |desk| {
        desk.initialise(16, 3, 7, 1, 2).without_numbers();
        // Free 4–10 with one whole cylinder from 6, 12–17 with two, 19–26 with two from 21, 30–32
        // with one, 35–40 with one from 36, 42–45 with one.
        let walls = [(3, 1), (11, 1), (18, 1), (27, 3), (33, 2), (41, 1), (46, 2)];
        for (i, (start, count)) in walls.into_iter().enumerate() {
            desk.absolute(&format!("W{i}"), start, count).accepted();
        }
        let five = [(12, 6), (21, 6), (6, 3), (30, 3), (36, 3)];
        desk.cylinders_by(ALX, "A", 1, 0).granted(&five);
        desk.scratch("A").gave_back(21);
        desk.cylinders_by(MXIG, "A", 1, 0).granted(&[(12, 6)]);
        desk.cylinders_by(MXIG, "B", 2, 1).granted(&[(21, 6)]);
        for option in [CONTIG, MXIG, ALX] {
            desk.cylinders_by(option, "C", 2, 0).refused(9);
        }
        desk.cylinders_by(ALX, "C", 1, 0).granted(&[(6, 3), (30, 3), (36, 3), (42, 3)]);
        desk.scratch("C").gave_back(12);
        desk.cylinders_by(CONTIG, "C", 1, 0).granted(&[(6, 3)]);
        desk.cylinders_by(ALX, "D", 1, 0).granted(&[(30, 3), (36, 3), (42, 3)]);
        desk.release("B", 2, 1).gave_back(3);
        desk.extend("B").granted(&[(24, 3)]);
        desk.scratch("B").gave_back(6);
        desk.cylinders_by(CONTIG, "B", 1, 0).granted(&[(21, 3)]);
        desk.cylinders_by(ALX, "E", 1, 0).granted(&[(24, 3)]);
        desk.scratch("A").gave_back(6);
        desk.scratch("E").gave_back(3);
        desk.cylinders_by(ALX, "A", 1, 0).granted(&[(12, 6), (24, 3)]);
    })
}

/// H = 3. Free 4–10, seven tracks with one whole cylinder from 6, and 12–17, six with two.
fn two_candidates(desk: &mut Desk) {
    desk.initialise(8, 3, 4, 1, 2).without_numbers();
    for (text, start, count) in [("W0", 3, 1), ("W1", 11, 1), ("W2", 18, 6)] {
        desk.absolute(text, start, count).accepted();
    }
}

fn at_a_length() -> Sequence {
    sequence("Options at a candidate's length; longer in tracks, shorter in cylinders", |desk| {
        two_candidates(desk);
        // Without an option, two pieces would do.
        for option in [CONTIG, MXIG, ALX] {
            desk.tracks_by(option, "A", 8, 0).refused(9);
            desk.cylinders_by(option, "A", 3, 0).refused(9);
        }
        for (option, kind, amount, pieces) in [
            (CONTIG, 0, 6, &[(12, 6)][..]),
            (CONTIG, 0, 7, &[(4, 7)]),
            (MXIG, 0, 7, &[(4, 7)]),
            (ALX, 0, 6, &[(4, 7), (12, 6)]),
            (ALX, 0, 7, &[(4, 7)]),
            (CONTIG, 1, 2, &[(12, 6)]),
            (MXIG, 1, 1, &[(12, 6)]),
            (ALX, 1, 1, &[(12, 6), (6, 3)]),
            (ALX, 1, 2, &[(12, 6)]),
        ] {
            // A start counts for absolute requests only.
            desk.allocate_by(option, "A", kind, 4, amount, 0).granted(pieces);
            desk.scratch("A").accepted();
        }
    })
}

fn against_the_rule() -> Sequence {
    sequence("Options that are unknown, or on absolute tracks", |desk| {
        two_candidates(desk);
        for option in [256, 65_537] {
            desk.tracks_by(option, "A", 1, 0).refused(7);
            desk.cylinders_by(option, "A", 1, 0).refused(7);
            desk.allocate_by(option, "A", 2, 4, 1, 0).refused(7);
        }
        desk.tracks_by(CONTIG, "A", 0, 0).refused(7);
        desk.cylinders_by(MXIG, "A", 65_536, 0).refused(7);
        desk.tracks_by(ALX, "A", 1, 16_777_216).refused(7);
        desk.allocate_by(MXIG, "A", 3, 4, 1, 0).refused(7);
        for option in [CONTIG, MXIG, ALX] {
            desk.cylinders_by(option, "A", 65_535, 16_777_215).refused(9);
        }
        // 4 comes before 7, and 7 before 6 and 9.
        desk.tracks_by(4, "", 1, 0).refused(4);
        desk.allocate_by(ALX, "W0", 2, 4, 1, 0).refused(7);
        desk.tracks_by(4, "A", 14, 0).refused(7);
        desk.allocate_by(CONTIG, "A", 2, 3, 1, 0).refused(7);
        desk.absolute("A", 4, 1).granted(&[(4, 1)]);
    })
}
