//! The paths of extends that join or might seem to, worked out from the set's list and the pieces:
//! document 02, [6].

use crate::audit::picture;
use crate::generate::glance::{Glance, SetGlance};

/// The paths that a run must see.
pub const JOINS: [&str; 20] = [
    "extend: joined, extent 1, 2 or 3",
    "extend: joined, extent 4 to 7",
    "extend: joined, extent 8 to 15",
    "extend: joined, extent 16",
    "extend: joined, and more pieces",
    "extend: joined, sixteen extents with more pieces",
    "extend: joined, and a format 3 made",
    "extend: joined, three extents and no slot",
    "extend: joined, X'81' and X'81'",
    "extend: joined, X'81' and X'01'",
    "extend: joined, X'01' and X'81'",
    "extend: joined, X'01' and X'01'",
    "extend: not joined, behind the highest track",
    "extend: not joined, before the last extent",
    "extend: not joined, a later piece touches",
    "extend: 10, though the first piece touches",
    "extend: 11, though the first piece touches",
    "preview of extend: joined",
    "preview of extend: joined, extent 16",
    "preview of extend: joined, three extents and no slot",
];

fn find(path: &str) -> Option<&'static str> {
    JOINS.into_iter().find(|&on_list| on_list == path)
}

fn named<'a>(table: &'a Glance, name: &[u8]) -> Option<&'a SetGlance> {
    table.sets.iter().find(|set| set.name == name)
}

/// Start and count of the pieces in an answer.
fn pieces(answer: &[u8]) -> Vec<(u32, u32)> {
    let word = |at: usize| u32::from(answer[at]) << 8 | u32::from(answer[at + 1]);
    (0..usize::from(answer[2])).map(|i| (word(3 + 4 * i), word(5 + 4 * i))).collect()
}

/// The track after the last of the set's list, and the one after its highest.
fn ends(set: &SetGlance) -> (u32, u32) {
    let ends = || set.extents.iter().map(|&(start, length)| start + length);
    (ends().next_back().unwrap_or(0), ends().max().unwrap_or(0))
}

/// What an accepted extend, or its preview, shows of a sound table.
pub fn granted(table: &Glance, name: &[u8], answer: &[u8], is_preview: bool) -> Vec<&'static str> {
    let Some(set) = named(table, name) else { return vec![] };
    let pieces = pieces(answer);
    let facts = if pieces[0].0 == ends(set).0 {
        joined(set, pieces.len(), table.open.is_empty())
    } else {
        not_joined(set, &pieces)
    };
    let call = if is_preview { "preview of extend" } else { "extend" };
    facts.iter().filter_map(|fact| find(&format!("{call}: {fact}"))).collect()
}

fn joined(set: &SetGlance, pieces: usize, no_slot: bool) -> Vec<String> {
    let extents = set.extents.len();
    let after = extents + pieces - 1;
    let place = match extents {
        0..=3 => "extent 1, 2 or 3",
        4..=7 => "extent 4 to 7",
        8..=15 => "extent 8 to 15",
        _ => "extent 16",
    };
    let kind = if set.unit == 0xC0 { 0x81 } else { 0x01 };
    let types = format!("X'{:02X}' and X'{kind:02X}'", set.kinds[extents - 1]);
    let facts = [
        (pieces > 1, "and more pieces"),
        (pieces > 1 && after == 16, "sixteen extents with more pieces"),
        (extents <= 3 && after > 3, "and a format 3 made"),
        (extents == 3 && after == 3 && no_slot, "three extents and no slot"),
        (true, place),
        (true, &types),
    ];
    let seen = facts.iter().filter(|(fact, _)| *fact);
    let mut paths: Vec<String> = seen.map(|(_, path)| format!("joined, {path}")).collect();
    paths.push("joined".into());
    paths
}

fn not_joined(set: &SetGlance, pieces: &[(u32, u32)]) -> Vec<String> {
    let ((end, highest), (start, count)) = (ends(set), pieces[0]);
    let last = set.extents.last().map_or(0, |&(start, _)| start);
    let facts = [
        (start == highest, "behind the highest track"),
        (start + count == last, "before the last extent"),
        (pieces.iter().any(|&(start, _)| start == end), "a later piece touches"),
    ];
    let seen = facts.iter().filter(|(fact, _)| *fact);
    seen.map(|(_, path)| format!("not joined, {path}")).collect()
}

/// What an extend shows that is refused with 10 or 11 on a sound table.
pub fn refused(before: &[u8], name: &[u8], result: u32) -> Option<&'static str> {
    let picture = picture(before)?;
    let set = picture.sets.iter().find(|set| set.name == *name)?;
    let (first, _) = *picture.pieces(set)?.first()?;
    let (_, _, last) = *set.extents.last()?;
    find(&format!("extend: {result}, though the first piece touches")).filter(|_| first == last + 1)
}
