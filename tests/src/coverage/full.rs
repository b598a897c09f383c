//! What happens at the end of a volume of 65,535 tracks, where one more has no sixteen bits:
//! document 02, [4].

use crate::call::{Call, CALL_NAMES};
use crate::generate::glance::{Glance, SetGlance};

/// T, and one after the last track.
const FULL: u32 = 65_535;

/// What a long run must see: every H, what ends there and what becomes of it, and every call.
pub const FULL_VOLUMES: [&str; 31] = [
    "T = 65,535: H = 1",
    "T = 65,535: H = 3",
    "T = 65,535: H = 5",
    "T = 65,535: H = 15",
    "T = 65,535: H = 17",
    "T = 65,535: H = 51",
    "T = 65,535: H = 85",
    "T = 65,535: H = 255",
    "T = 65,535: an extent ends there",
    "T = 65,535: an extent of type X'81' ends there",
    "T = 65,535: a free extent ends there",
    "T = 65,535: the VTOC ends there",
    "T = 65,535: allocate takes the last track",
    "T = 65,535: extend takes the last track",
    "T = 65,535: release gives the last track back",
    "T = 65,535: scratch gives the last track back",
    "T = 65,535: allocate of the last track alone",
    "T = 65,535: allocate of the last cylinder",
    "T = 65,535: allocate past the end refused",
    "T = 65,535: initialise accepted",
    "T = 65,535: allocate accepted",
    "T = 65,535: extend accepted",
    "T = 65,535: release accepted",
    "T = 65,535: scratch accepted",
    "T = 65,535: rename accepted",
    "T = 65,535: obtain accepted",
    "T = 65,535: lspace accepted",
    "T = 65,535: preview_allocate accepted",
    "T = 65,535: preview_extend accepted",
    "T = 65,535: preview_release accepted",
    "T = 65,535: preview_scratch accepted",
];

fn find(path: &str) -> Option<&'static str> {
    let on_list = |full: &&str| full.strip_prefix("T = 65,535: ") == Some(path);
    FULL_VOLUMES.into_iter().find(on_list)
}

fn ends_there((start, length): (u32, u32)) -> bool {
    start + length == FULL
}

/// The paths of these facts, if the volume has 65,535 tracks.
fn taken(table: &Glance, facts: Vec<(bool, String)>) -> Vec<&'static str> {
    let facts = facts.into_iter().filter(|(fact, _)| *fact && table.geometry.tracks() == FULL);
    facts.filter_map(|(_, path)| find(&path)).collect()
}

/// What an accepted call shows, previews among them; they leave the table as it was.
pub fn accepted(call: &Call, old: &Glance, new: &Glance) -> Vec<&'static str> {
    let verb = CALL_NAMES[call.index()];
    let has_end = |table: &Glance| table.holes.last().copied().is_some_and(ends_there);
    let had = has_end(old) && !matches!(call, Call::Initialise { .. });
    let mut paths = vec![
        (true, format!("H = {}", new.geometry.heads)),
        (true, format!("{verb} accepted")),
        (had && !has_end(new), format!("{verb} takes the last track")),
        (!had && has_end(new), format!("{verb} gives the last track back")),
        (has_end(new), "a free extent ends there".into()),
        (new.geometry.vtoc_end() == FULL, "the VTOC ends there".into()),
    ];
    let kinds = |set: &SetGlance| std::iter::zip(set.extents.clone(), set.kinds.clone());
    let last = new.sets.iter().flat_map(kinds).find(|&(extent, _)| ends_there(extent));
    if let Some(((_, length), kind)) = last {
        let granted = had && !has_end(new) && matches!(call, Call::Allocate { .. });
        let cylinder = kind == 0x81 && length == new.geometry.heads;
        paths.extend([
            (true, "an extent ends there".into()),
            (kind == 0x81, "an extent of type X'81' ends there".into()),
            (granted && length == 1, "allocate of the last track alone".into()),
            (granted && cylinder, "allocate of the last cylinder".into()),
        ]);
    }
    taken(new, paths)
}

/// An absolute request refused with 7, though each of its numbers is in its range.
pub fn refused(table: &Glance, start: u32, amount: u32) -> Vec<&'static str> {
    let past = start < FULL && (1..=FULL).contains(&amount) && start + amount > FULL;
    taken(table, vec![(past, "allocate past the end refused".into())])
}
