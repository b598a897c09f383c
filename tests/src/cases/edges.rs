//! Edges of the definitions: each row is one that a definition beside the right one would answer
//! otherwise.

use super::{sequence, Sequence};
use crate::call::{Call, TODAY};
use crate::desk::Desk;
use crate::volumes::name;

pub fn sequences() -> Vec<Sequence> {
    vec![
        types(),
        first_characters(),
        later_characters(),
        amounts(),
        lengths(),
        listings(),
        digits(),
        parts(),
    ]
}

/// H = 4. A set that starts a cylinder but ends none, one that ends one, one of four tracks off a
/// cylinder, and a whole cylinder, each with the type X'81' in turn.
fn types() -> Sequence {
    sequence("X'81' starts a cylinder and ends one", |desk| {
        desk.initialise(6, 4, 3, 1, 2).without_numbers();
        let sets = [("START", 4, 3, 3), ("END", 9, 3, 3), ("SLANT", 13, 4, 3), ("WHOLE", 20, 4, 0)];
        for (text, start, count, _) in sets {
            desk.absolute(text, start, count).accepted();
        }
        for (i, (text, _, _, result)) in sets.into_iter().enumerate() {
            let mut changed = desk.table.clone();
            changed[140 * (2 + i) + 105] = 0x81;
            assert_eq!(desk.hurt(&changed, Call::Lspace), result, "{text}");
        }
    })
}

/// A name of these bytes, blanks after them.
fn bytes(characters: &[u8]) -> Vec<u8> {
    let mut name = characters.to_vec();
    name.resize(44, 0x40);
    name
}

/// A name that obeys the rule is not found, another is refused for itself.
fn named(desk: &mut Desk, characters: &[u8], result: u32) {
    let (name, today) = (bytes(characters), TODAY.to_vec());
    desk.call(Call::Scratch { name, today, overriding: 0 }).refused(result);
}

fn first_characters() -> Sequence {
    sequence("First characters, and those beside them", |desk| {
        desk.initialise(2, 2, 3, 1, 1).without_numbers();
        for first in [0xC1, 0xC9, 0xD1, 0xD9, 0xE2, 0xE9, 0x5B, 0x7B, 0x7C] {
            named(desk, &[first], 5);
        }
        let letters = [0xC0, 0xCA, 0xD0, 0xDA, 0xE1, 0xEA];
        let others = [0x5A, 0x5C, 0x7A, 0x7D, 0x60, 0x4B, 0x40, 0xEF, 0xF0, 0xF9, 0xFA];
        for first in letters.into_iter().chain(others) {
            named(desk, &[first], 4);
        }
    })
}

fn later_characters() -> Sequence {
    sequence("Later characters, and those beside them; a period that ends 44 bytes", |desk| {
        desk.initialise(2, 2, 3, 1, 1).without_numbers();
        for later in [0xC9, 0xD1, 0xE9, 0x7C, 0xF0, 0xF9, 0x60] {
            named(desk, &[0xC1, later], 5);
        }
        for later in [0xC0, 0xCA, 0xD0, 0xDA, 0xE1, 0xEA, 0xEF, 0xFA, 0x5F, 0x61, 0x4B, 0x4A] {
            named(desk, &[0xC1, later], 4);
        }
        named(desk, &name("AAAAAAAA.AAAAAAAA.AAAAAAAA.AAAAAAAA.AAAAAAAA"), 5);
        named(desk, &name("AAAAAAAA.AAAAAAAA.AAAAAAAA.AAAAAAAA.AAAAAAA."), 4);
        named(desk, &name("AAAAAAAA.AAAAAAAA.AAAAAAAA.AAAAAAAA.AAAAAAA"), 5);
    })
}

fn amounts() -> Sequence {
    sequence("Amounts and secondary amounts at their limits", |desk| {
        desk.initialise(4, 2, 4, 1, 1).without_numbers();
        for amount in [1_001, 65_535] {
            desk.cylinders("A", amount, 0).refused(9);
            desk.tracks("A", amount, 0).refused(9);
        }
        for amount in [0, 65_536] {
            desk.cylinders("A", amount, 0).refused(7);
            desk.tracks("A", amount, 0).refused(7);
        }
        desk.cylinders("A", 1, 16_777_216).refused(7);
        desk.tracks("A", 1, 16_777_216).refused(7);
        desk.cylinders("A", 1, 16_777_215).granted(&[(2, 2)]);
        desk.tracks("B", 1, 16_777_215).granted(&[(4, 1)]);
        desk.extend("A").refused(9);
    })
}

fn lengths() -> Sequence {
    sequence("Initialise with buffers of other lengths; tables of 2, 468 and 469 records", |desk| {
        let call = Call::Initialise { c: 4, h: 5, d: 4, s: 1, v: 2 };
        for (table, answer) in [(1119, 24), (1121, 24), (0, 24), (1120, 23), (1120, 25), (1120, 0)]
        {
            assert_eq!(desk.sized(table, answer, 0, call.clone()), 2);
        }
        desk.initialise(2, 2, 3, 1, 1).without_numbers();
        for (records, result) in [(2, 2), (4, 3), (468, 3), (469, 2)] {
            assert_eq!(desk.sized(140 * records, 24, 0, Call::Lspace), result);
        }
    })
}

/// A name in which every character stands that a name may have.
const ALL: &str = "ABCDEFGH.IJKLMNOP.QRSTUVWX.YZ012345.#6789-$@";

fn listings() -> Sequence {
    sequence("Listings: all 41 characters of names; tables that are refused", |desk| {
        desk.initialise(4, 3, 4, 1, 2).without_numbers();
        desk.tracks(ALL, 4, 0).granted(&[(3, 4)]);
        desk.absolute("$", 8, 1).granted(&[(8, 1)]);
        desk.absolute("@", 10, 1).granted(&[(10, 1)]);
        let (table, length) = (desk.table.clone(), desk.table.len());
        let free = "F 7 1\nF 9 1\nF 11 1\nS 3\n";
        let lines = format!("V 4 3 12\nD {ALL} 4 1\nD $ 1 1\nD @ 1 1\n{free}");
        assert_eq!(desk.listed(&table, length), lines);
        let mut damaged = table.clone();
        damaged[51] = 0;
        assert_eq!(desk.listed(&damaged, length), "E 3\n");
        assert_eq!(desk.listed(&table, length + 140), "E 3\n");
        assert_eq!(desk.listed(&table, length - 1), "E 2\n");
        assert_eq!(desk.listed(&damaged, 280), "E 2\n");
        assert_eq!(desk.listed(&table, 0), "E 2\n");
    })
}

fn digits() -> Sequence {
    sequence("A listing with numbers of four and of five digits", |desk| {
        // No set and no more tracks than these: it is the longest row to compute.
        desk.initialise(2_053, 5, 3, 1_234, 2).without_numbers();
        let (table, length) = (desk.table.clone(), desk.table.len());
        let lines = "V 2053 5 10265\nF 1 1233\nF 1236 9029\nS 4\n";
        assert_eq!(desk.listed(&table, length), lines);
    })
}

fn parts() -> Sequence {
    sequence("The ten bytes of an extent, or none", |desk| {
        for (format_1, format_3) in [
            (140, 140),
            (139, 140),
            (140, 139),
            (141, 140),
            (140, 141),
            (0, 140),
            (140, 0),
            (139, 139),
        ] {
            desk.parts(format_1, format_3);
        }
    })
}
