//! Refusals, one by one and in their order.

use super::{sequence, Sequence};
use crate::call::{Call, ALX, CONTIG, MXIG, NO_DATE, NO_OPTION, TODAY};
use crate::desk::{attributes, attributes_of, Desk};
use crate::volumes::name;

pub fn sequences() -> Vec<Sequence> {
    vec![lengths(), names(), amounts(), order()]
}

/// N = 4: two sets, the VTOC full, tracks 17–19 free. A has no secondary amount, B has.
fn full(desk: &mut Desk) {
    desk.initialise(4, 5, 2, 1, 2).without_numbers();
    desk.tracks("A", 4, 0).granted(&[(3, 4)]);
    desk.tracks("B", 10, 2).granted(&[(7, 10)]);
}

fn allocate(name: Vec<u8>, attributes: Vec<u8>) -> Call {
    let (start, amount, secondary, expiry) = (0, 1, 0, NO_DATE.to_vec());
    let (kind, option) = (0, NO_OPTION);
    Call::Allocate { name, attributes, kind, start, amount, secondary, option, expiry }
}

/// The seven calls with the name given (in a rename, as the old one).
fn calls(name: &[u8]) -> Vec<Call> {
    let n = || name.to_vec();
    vec![
        allocate(n(), attributes(9)),
        Call::Extend { name: n() },
        Call::Release { name: n(), ttr: 1 },
        scratch(n()),
        Call::Rename { old: n(), new: crate::volumes::name("NEW").to_vec() },
        Call::Obtain { name: n() },
        Call::Lspace,
    ]
}

fn scratch(name: Vec<u8>) -> Call {
    Call::Scratch { name, today: TODAY.to_vec(), overriding: 0 }
}

fn lengths() -> Sequence {
    sequence("Lengths of every buffer", |desk| {
        full(desk);
        let (table, b) = (desk.table.len(), name("B").to_vec());
        for (i, call) in calls(&b).into_iter().enumerate() {
            match i % 2 {
                0 => assert_eq!(desk.sized(table, 23 + i % 4, 280, call), 2),
                _ => assert_eq!(desk.sized([559, 561, 280][i % 3], 24, 280, call), 2),
            }
        }
        // Lengths that some table may have, but not this one.
        assert_eq!(desk.sized(420, 24, 280, Call::Lspace), 3);
        assert_eq!(desk.sized(700, 24, 280, scratch(b.clone())), 3);
        for (i, length) in [43, 45, 0, 88, 43, 45].into_iter().enumerate() {
            let mut name = b.clone();
            name.resize(length, 0x40);
            assert_eq!(desk.sized(table, 24, 280, calls(&name)[i].clone()), 2);
        }
        for labels in [140, 281] {
            assert_eq!(desk.sized(table, 24, labels, Call::Obtain { name: b.clone() }), 2);
        }
        for length in [51, 53] {
            let call = allocate(name("C").to_vec(), attributes_of(length, 5));
            assert_eq!(desk.sized(table, 24, 280, call), 2);
        }
        let new = name("C")[..40].to_vec();
        assert_eq!(desk.sized(table, 24, 280, Call::Rename { old: b.clone(), new }), 2);
        // Labels count for obtain only.
        assert_eq!(desk.sized(table, 24, 0, scratch(b)), 0);
    })
}

fn names() -> Sequence {
    sequence("Names against the rule", |desk| {
        full(desk);
        let bad = ["", " A", "1A", "-A", ".A", "A.", "A..B", "A.1B", "ABCDEFGHI", "A B", "A?"];
        for (i, text) in bad.into_iter().enumerate() {
            desk.call(calls(&name(text))[i % 6].clone()).refused(4);
        }
        desk.rename("A", "A.").refused(4);
        desk.rename("NONE", "9").refused(4);
        let mut late = name("B");
        late[43] = 0xC1;
        desk.call(Call::Obtain { name: late.to_vec() }).refused(4);
        desk.rename("A", "@#$-9.Z.Q0").without_numbers();
        desk.rename("B", "AAAAAAAA.AAAAAAAA.AAAAAAAA.AAAAAAAA.AAAAAAAA").without_numbers();
        desk.scratch("B").refused(5);
        desk.scratch("AAAAAAAA.AAAAAAAA.AAAAAAAA.AAAAAAAA.AAAAAAAA").gave_back(10);
    })
}

fn amounts() -> Sequence {
    sequence("Kinds, amounts and TTRs out of their ranges", |desk| {
        full(desk);
        desk.allocate("C", 3, 17, 1, 0).refused(7);
        desk.allocate("C", 0, 0, 0, 0).refused(7);
        desk.allocate("C", 1, 0, 65_536, 0).refused(7);
        desk.allocate("C", 0, 0, 1, 16_777_216).refused(7);
        desk.allocate("C", 0, 0, 65_535, 16_777_215).refused(9);
        desk.allocate("C", 2, 17, 0, 0).refused(7);
        desk.allocate("C", 2, 17, 4, 0).refused(7);
        desk.allocate("C", 2, u32::MAX, u32::MAX, 0).refused(7);
        desk.allocate("C", 2, 17, 1, 1).refused(7);
        for option in [4, u32::MAX] {
            desk.allocate_by(option, "C", 0, 0, 1, 0).refused(7);
            desk.allocate_by(option, "C", 2, 17, 1, 0).refused(7);
        }
        for option in [CONTIG, MXIG, ALX] {
            desk.allocate_by(option, "C", 2, 17, 1, 0).refused(7);
        }
        let mut at = |ttr: u32| desk.call(Call::Release { name: name("B").to_vec(), ttr }).result;
        for ttr in [0x0100_0001, u32::MAX, 0x000A01, 0x000100] {
            assert_eq!(at(ttr), 12);
        }
        assert_eq!(at(0x0009FF), 0);
        desk.scratch("A").gave_back(4);
        desk.allocate("C", 0, u32::MAX, 1, 16_777_215).granted(&[(17, 1)]);
        desk.extend("C").refused(9);
    })
}

fn order() -> Sequence {
    sequence("Where several refusals apply, the first of them", |desk| {
        full(desk);
        desk.allocate("", 9, 0, 0, 0).refused(4);
        desk.allocate("A", 0, 0, 0, 0).refused(7);
        desk.tracks("A", 4, 0).refused(6);
        desk.tracks("C", 4, 0).refused(9);
        desk.tracks("C", 3, 0).refused(11);
        desk.tracks_by(4, "A", 1, 0).refused(7);
        desk.tracks_by(CONTIG, "A", 4, 0).refused(6);
        desk.tracks_by(MXIG, "C", 4, 0).refused(9);
        desk.tracks_by(ALX, "C", 3, 0).refused(11);
        desk.extend("A").refused(8);
        desk.extend("C").refused(5);
        desk.release("C", 0xFFFF, 0).refused(5);
        desk.scratch("C").refused(5);
        desk.obtain("C").refused(5);
        desk.rename("C", "A").refused(5);
        desk.rename("A", "B").refused(6);
        let mut damaged = desk.table.clone();
        damaged[60] = 1;
        for call in calls(&[0; 44]) {
            assert_eq!(desk.hurt(&damaged, call), 3);
        }
    })
}
