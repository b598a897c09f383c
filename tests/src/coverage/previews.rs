//! The paths of previews, worked out from the table and the answer, and whether the call came next:
//! document 02, [3].

use crate::call::{Call, ALX, CALL_NAMES, CONTIG, MXIG};
use crate::generate::glance::{Glance, SetGlance};

/// The paths that a run must see. Every refusal of every preview is due besides.
pub const PREVIEWS: [&str; 25] = [
    "preview of allocate: one piece",
    "preview of allocate: several pieces",
    "preview of allocate: cylinders",
    "preview of allocate: absolute",
    "preview of allocate: CONTIG",
    "preview of allocate: MXIG",
    "preview of allocate: ALX",
    "preview of allocate: more tracks than asked for",
    "preview of extend: one piece",
    "preview of extend: several pieces",
    "preview of release: all tracks are kept",
    "preview of release: cylinder file in mid-cylinder",
    "preview of release: set with a format 3",
    "preview of release: 11, set with a format 3",
    "preview of scratch: set with a format 3",
    "preview of scratch: full VTOC",
    "preview, then another preview",
    "preview of allocate, then the call: accepted",
    "preview of allocate, then the call: refused",
    "preview of extend, then the call: accepted",
    "preview of extend, then the call: refused",
    "preview of release, then the call: accepted",
    "preview of release, then the call: refused",
    "preview of scratch, then the call: accepted",
    "preview of scratch, then the call: refused",
];

/// What a long run must see besides.
pub const WIDE: [&str; 3] = [
    "preview of allocate: 5 pieces",
    "preview of allocate: 11 though a slot is free",
    "preview of extend: format 3 needed",
];

/// A preview that the next call may follow.
#[derive(Clone, Debug)]
pub struct Seen {
    call: Call,
    table: Vec<u8>,
}

impl Seen {
    /// Of a call that is a preview.
    pub fn of(call: &Call, table: &[u8]) -> Option<Seen> {
        match call {
            Call::Preview(call) => Some(Seen { call: (**call).clone(), table: table.to_vec() }),
            _ => None,
        }
    }

    /// What the call shows that comes next.
    pub fn followed_by(&self, call: &Call, table: &[u8], result: u32) -> Option<&'static str> {
        if matches!(call, Call::Preview(_)) {
            return find("preview, then another preview".into());
        }
        if self.call != *call || self.table != table {
            return None;
        }
        let end = if result == 0 { "accepted" } else { "refused" };
        find(format!("preview of {}, then the call: {end}", verb(call)))
    }
}

fn find(path: String) -> Option<&'static str> {
    PREVIEWS.into_iter().chain(WIDE).find(|&on_list| on_list == path)
}

fn verb(call: &Call) -> &'static str {
    CALL_NAMES[call.index()]
}

/// What the preview of a call with this result shows of a sound table.
pub fn shown(call: &Call, table: &Glance, result: u32, answer: &[u8]) -> Vec<&'static str> {
    let facts = match (call, result) {
        (Call::Allocate { kind, amount, option, .. }, 0) => {
            allocated(*kind, *amount, *option, table, answer)
        }
        (Call::Extend { name }, 0) => extended(set_named(table, name), answer),
        (Call::Release { name, ttr }, 0) => released(set_named(table, name), ttr >> 8, answer),
        (Call::Release { name, .. }, 11) => {
            vec![(has_format_3(table, name), "11, set with a format 3")]
        }
        (Call::Scratch { name, .. }, 0) => vec![
            (has_format_3(table, name), "set with a format 3"),
            (table.open.is_empty(), "full VTOC"),
        ],
        (_, 11) => vec![(!table.open.is_empty(), "11 though a slot is free")],
        _ => vec![],
    };
    let taken = facts.into_iter().filter(|(fact, _)| *fact);
    taken.filter_map(|(_, path)| find(format!("preview of {}: {path}", verb(call)))).collect()
}

type Facts = Vec<(bool, &'static str)>;

fn set_named<'a>(table: &'a Glance, name: &[u8]) -> Option<&'a SetGlance> {
    table.sets.iter().find(|set| set.name == name)
}

fn has_format_3(table: &Glance, name: &[u8]) -> bool {
    set_named(table, name).is_some_and(|set| set.format_3.is_some())
}

fn word(answer: &[u8], at: usize) -> u32 {
    u32::from(answer[at]) << 8 | u32::from(answer[at + 1])
}

fn allocated(kind: u32, amount: u32, option: u32, table: &Glance, answer: &[u8]) -> Facts {
    let asked = if kind == 1 { amount * table.geometry.heads } else { amount };
    vec![
        (answer[2] == 1, "one piece"),
        (answer[2] > 1, "several pieces"),
        (answer[2] == 5, "5 pieces"),
        (kind == 1, "cylinders"),
        (kind == 2, "absolute"),
        (option == CONTIG, "CONTIG"),
        (option == MXIG, "MXIG"),
        (option == ALX, "ALX"),
        (word(answer, 0) > asked, "more tracks than asked for"),
    ]
}

fn extended(set: Option<&SetGlance>, answer: &[u8]) -> Facts {
    let extents = set.map_or(0, |set| set.extents.len());
    let end = set.and_then(|set| set.extents.last()).map_or(0, |&(start, length)| start + length);
    let after = extents + usize::from(answer[2]) - usize::from(word(answer, 3) == end);
    vec![
        (answer[2] == 1, "one piece"),
        (answer[2] > 1, "several pieces"),
        (extents <= 3 && after > 3, "format 3 needed"),
    ]
}

fn released(set: Option<&SetGlance>, tt: u32, answer: &[u8]) -> Facts {
    let Some(set) = set else { return vec![] };
    let back = word(answer, 0);
    vec![
        (back == 0, "all tracks are kept"),
        (back > 0 && back < set.tracks() - (tt + 1), "cylinder file in mid-cylinder"),
        (set.format_3.is_some(), "set with a format 3"),
    ]
}
