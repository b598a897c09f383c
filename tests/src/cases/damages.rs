//! Damaged tables: one rule broken at a time, and some changes that break none.

use super::{sequence, Sequence};
use crate::call::Call;
use crate::desk::Desk;
use crate::generate::damage::{damage, Damage};
use crate::generate::rng::Rng;
use crate::volumes::name;

pub fn sequences() -> Vec<Sequence> {
    vec![by_kind()]
}

/// A change of the table: byte offsets and their new values.
type Patch = &'static [(usize, u8)];

/// Volume A's table after step 3. Slots: FLT.A in 2, FLT.B in 3, FLT.C in 4; free 9.
const REFUSED: [(&str, Patch); 28] = [
    ("format 4: a name byte", &[(43, 5)]),
    ("format 4: the format byte", &[(44, 0xF5)]),
    ("format 4: highest format 1 one too low", &[(48, 1), (49, 4)]),
    ("format 4: no highest format 1", &[(48, 0), (49, 0)]),
    ("format 4: format 0s", &[(51, 4)]),
    ("format 4: byte 59", &[(59, 0)]),
    ("format 4: a byte that no field names", &[(139, 1)]),
    ("format 4: C", &[(63, 5)]),
    ("format 4: H", &[(65, 4)]),
    ("format 4: D", &[(74, 5)]),
    ("format 4: the VTOC's type", &[(105, 0x81)]),
    ("format 4: the VTOC one track longer", &[(114, 3)]),
    ("format 5: the mark", &[(140, 4)]),
    ("format 5: the format byte", &[(184, 0xF1)]),
    ("format 5: a taken track free", &[(148, 2)]),
    ("format 5: an entry of no track", &[(150, 9)]),
    ("format 5: a free track lost", &[(145, 0), (148, 0)]),
    ("format 5: odd tracks for a cylinder", &[(147, 1)]),
    ("format 1: a name in lower case", &[(280, 0x86)]),
    ("format 1: a name twice", &[(424, 0xC1)]),
    ("format 1: no extent", &[(280 + 59, 0)]),
    ("format 1: an extent too many", &[(280 + 59, 2)]),
    ("format 1: the unit", &[(280 + 94, 0x40)]),
    ("format 1: absolute with a secondary amount", &[(280 + 94, 0), (280 + 97, 1)]),
    ("format 1: X'81' off a cylinder", &[(280 + 105, 0x81)]),
    ("format 1: an extent's number", &[(280 + 106, 1)]),
    ("format 1: HH not below H", &[(280 + 112, 0), (280 + 114, 6)]),
    ("format 0: one byte", &[(5 * 140 + 60, 1)]),
];

const ACCEPTED: [(&str, Patch); 5] = [
    ("attribute bytes", &[(280 + 45, 0xFF), (280 + 93, 1), (280 + 104, 7)]),
    ("a TTR far beyond the set", &[(280 + 98, 0xFF), (280 + 99, 0xFF)]),
    ("a secondary amount", &[(280 + 95, 0xFF), (280 + 97, 1)]),
    ("the unit cylinders in a set of tracks", &[(280 + 94, 0xC0)]),
    ("whole cylinders as X'01'", &[(420 + 105, 0x01)]),
];

/// Makes all these changes to copies of Volume A's table after step 3.
pub fn to_volume_a(desk: &mut Desk) {
    for (what, patch) in REFUSED {
        assert_eq!(hurt(desk, patch), 3, "{what}");
    }
    for (what, patch) in ACCEPTED {
        assert_eq!(hurt(desk, patch), 0, "{what}");
    }
}

fn hurt(desk: &mut Desk, patch: Patch) -> u32 {
    let mut damaged = desk.table.clone();
    for &(at, byte) in patch {
        assert_ne!(damaged[at], byte, "no change at {at}");
        damaged[at] = byte;
    }
    desk.hurt(&damaged, Call::Lspace)
}

/// The kinds of damage that need more than Volume A to show themselves.
const KINDS: [Damage; 20] = [
    Damage::EraseRecord,
    Damage::VtocExtent,
    Damage::ChainLoop,
    Damage::ChainLink,
    Damage::ChainTooLong,
    Damage::TouchingEntries,
    Damage::UnsortedEntries,
    Damage::EntryGap,
    Damage::EmptyEntry,
    Damage::EntryLength,
    Damage::OddTracks,
    Damage::Format3Twice,
    Damage::Format3Unnamed,
    Damage::Format3Link,
    Damage::ExtentCount,
    Damage::ExtentNumber,
    Damage::Overlap,
    Damage::LostTrack,
    Damage::WideHead,
    Damage::SwapExtents,
];

/// One damage of each kind to a volume with a format 3, two other sets and several holes.
fn by_kind() -> Sequence {
    sequence("Damaged tables with a format 3", |desk| {
        desk.initialise(11, 3, 4, 4, 2).accepted();
        desk.absolute("GAP", 9, 1).accepted();
        desk.cylinders("CYL", 1, 1).accepted();
        desk.tracks("LONG", 2, 2).accepted();
        // In turns, or what touches is joined.
        for text in ["LONG", "CYL", "LONG", "CYL", "LONG"] {
            desk.extend(text).accepted();
        }
        let calls = [
            Call::Lspace,
            Call::Extend { name: name("LONG").to_vec() },
            Call::Obtain { name: name("CYL").to_vec() },
        ];
        let mut rng = Rng::new(1);
        for (i, kind) in KINDS.into_iter().enumerate() {
            // Some kinds need luck to change a few bytes only.
            let damaged = (0..200)
                .filter_map(|_| damage(&mut rng, &desk.table, kind))
                .find(|damaged| (1..=12).contains(&changes(&desk.table, damaged)));
            let damaged = damaged.unwrap_or_else(|| panic!("no small damage of kind {kind:?}"));
            desk.hurt(&damaged, calls[i % 3].clone());
        }
    })
}

/// How many bytes differ.
fn changes(one: &[u8], other: &[u8]) -> usize {
    one.iter().zip(other).filter(|(a, b)| a != b).count()
}
