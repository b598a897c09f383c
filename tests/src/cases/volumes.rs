//! Volume A, and volumes at the edges.

use super::{sequence, Sequence};

pub fn sequences() -> Vec<Sequence> {
    vec![
        volume_a(),
        geometries(),
        one_by_one(),
        vtoc_in_the_middle(),
        nothing_free(),
        three_records(),
        records_on_several_tracks(),
    ]
}

fn volume_a() -> Sequence {
    sequence("Volume A, step by step; after step 3, damaged copies of it", |desk| {
        desk.initialise(4, 5, 4, 1, 2).without_numbers();
        desk.tracks("FLT.A", 4, 0).granted(&[(3, 4)]);
        desk.cylinders("FLT.B", 1, 0).granted(&[(10, 5)]);
        desk.tracks("FLT.C", 7, 0).granted(&[(15, 5), (7, 2)]);
        super::damages::to_volume_a(desk);
        desk.tracks("FLT.D", 2, 0).refused(9);
        desk.absolute("FLT.D", 19, 2).refused(7);
        desk.absolute("FLT.D", 6, 1).refused(9);
        desk.scratch("FLT.B").gave_back(5);
        desk.release("FLT.C", 7, 1).refused(12);
        desk.release("FLT.C", 4, 1).gave_back(2);
        desk.rename("FLT.C", "FLT.C").refused(6);
        desk.rename("FLT.C", "FLT.A").refused(6);
        desk.obtain("FLT.C").without_numbers();
        desk.lspace().accepted();
        desk.tracks("FLT.E", 3, 5).granted(&[(7, 3)]);
        desk.extend("FLT.E").granted(&[(10, 5)]);
        desk.scratch("FLT.A").gave_back(4);
        desk.scratch("FLT.E").gave_back(8);
        desk.scratch("FLT.C").gave_back(5);
    })
}

fn geometries() -> Sequence {
    sequence("Geometries refused, and a table that is not there", |desk| {
        for (c, h, d, s, v) in [
            (0, 5, 4, 1, 2),
            (4, 0, 4, 1, 2),
            (4, 5, 4, 0, 2),
            (4, 5, 4, 1, 0),
            (4, 256, 4, 1, 2),
            (4, 5, 256, 1, 1),
            (65_536, 1, 4, 1, 2),
            (4, 5, 4, 19, 2),
            (4, 5, 1, 1, 2),
            (u32::MAX, u32::MAX, u32::MAX, u32::MAX, u32::MAX),
        ] {
            desk.initialise(c, h, d, s, v).refused(1);
        }
        desk.lspace().refused(2);
        desk.initialise(4, 5, 4, 18, 2).without_numbers();
        desk.tracks("A", 17, 0).granted(&[(1, 17)]);
    })
}

fn one_by_one() -> Sequence {
    sequence("H = 1, D = 1, the VTOC from track 2", |desk| {
        desk.initialise(12, 1, 1, 2, 5).without_numbers();
        desk.lspace().accepted();
        desk.tracks("A", 2, 1).granted(&[(7, 2)]);
        desk.cylinders("B", 4, 1).granted(&[(9, 3), (1, 1)]);
        desk.lspace().accepted();
        desk.extend("A").refused(9);
        desk.tracks("C", 1, 0).refused(9);
        desk.release("B", 1, 1).gave_back(2);
        desk.extend("B").granted(&[(1, 1)]);
        desk.extend("A").granted(&[(11, 1)]);
        desk.scratch("B").gave_back(3);
        desk.obtain("A").without_numbers();
        desk.tracks("Z", 3, 0).granted(&[(9, 2), (1, 1)]);
    })
}

fn vtoc_in_the_middle() -> Sequence {
    sequence("The VTOC in the middle of the volume, from inside a cylinder", |desk| {
        desk.initialise(6, 4, 3, 10, 2).without_numbers();
        desk.lspace().accepted();
        desk.cylinders("CYL", 1, 1).granted(&[(4, 4)]);
        desk.absolute("ABS", 9, 2).refused(9);
        desk.absolute("ABS", 9, 1).granted(&[(9, 1)]);
        desk.tracks("A", 3, 0).granted(&[(1, 3)]);
        desk.absolute("B", 12, 1).granted(&[(12, 1)]);
        desk.scratch("A").gave_back(3);
        desk.extend("CYL").granted(&[(16, 4)]);
        desk.scratch("CYL").gave_back(8);
        desk.scratch("B").gave_back(1);
        desk.scratch("ABS").gave_back(1);
    })
}

fn nothing_free() -> Sequence {
    sequence("Nothing free at all", |desk| {
        desk.initialise(4, 1, 1, 1, 3).without_numbers();
        desk.lspace().accepted();
        desk.tracks("A", 1, 0).refused(9);
        desk.absolute("A", 0, 1).refused(9);
        desk.initialise(2, 3, 4, 1, 1).without_numbers();
        desk.tracks("A", 4, 0).granted(&[(2, 4)]);
        desk.lspace().accepted();
        desk.release("A", 3, 1).gave_back(0);
        desk.release("A", 0, 0).gave_back(3);
    })
}

fn three_records() -> Sequence {
    sequence("Three records: one set, and the VTOC is full", |desk| {
        desk.initialise(5, 4, 3, 1, 1).without_numbers();
        desk.tracks("A", 1, 1).granted(&[(2, 1)]);
        desk.tracks("B", 1, 0).refused(11);
        desk.extend("A").granted(&[(3, 1)]);
        desk.extend("A").granted(&[(4, 1)]);
        // One extent still: a format 3 would have no slot.
        desk.extend("A").granted(&[(5, 1)]);
        desk.release("A", 1, 7).gave_back(2);
        desk.extend("A").granted(&[(4, 1)]);
        desk.rename("A", "B").without_numbers();
        desk.scratch("B").gave_back(3);
        desk.cylinders("B", 4, 0).granted(&[(4, 16)]);
    })
}

fn records_on_several_tracks() -> Sequence {
    sequence("Slots on several tracks; the lowest free one is taken", |desk| {
        desk.initialise(10, 3, 2, 5, 4).without_numbers();
        for (i, name) in ["A", "B", "C", "D"].into_iter().enumerate() {
            desk.tracks(name, 1, 0).granted(&[(1 + i as u32, 1)]);
        }
        desk.scratch("B").gave_back(1);
        desk.scratch("D").gave_back(1);
        desk.tracks("E", 2, 0).granted(&[(9, 2)]);
        desk.tracks("F", 1, 0).granted(&[(2, 1)]);
        desk.scratch("F").gave_back(1);
    })
}
