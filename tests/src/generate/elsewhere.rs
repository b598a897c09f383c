//! Tables as another system may leave them: cylinder files with extents of any kind and length, and
//! X'81' extents in sets of other units. Our own calls grant none of that.

use super::glance::glance;
use super::names;
use super::rng::Rng;
use super::shapes::{geometry, Shape};
use crate::audit::{table_with, Extent, Set};
use crate::reference::geometry::Geometry;
use crate::volumes::open_slots;

/// The most extents of a set.
const MOST: usize = 16;

/// A sound table; some have 26 free extents and hardly a slot left.
pub fn table(rng: &mut Rng) -> Vec<u8> {
    loop {
        let geometry = geometry(rng, Shape::Elsewhere);
        let made = if rng.chance(35) { crowded(rng, geometry) } else { spacious(rng, geometry) };
        // Not all draws have names that differ, or slots for all labels.
        if let Some(table) = made {
            return table;
        }
    }
}

fn spacious(rng: &mut Rng, g: Geometry) -> Option<Vec<u8>> {
    let lists = lists(rng, g);
    labelled(rng, g, lists)
}

/// The same with a comb of one-track walls behind it, which makes 26 free extents.
fn crowded(rng: &mut Rng, g: Geometry) -> Option<Vec<u8>> {
    // Once with room for all, to see what it takes.
    let mut g = Geometry { per_track: 255, vtoc_tracks: 1, ..g };
    let mut lists = lists(rng, g);
    let holes = glance(&labelled(rng, g, lists.clone())?)?.holes.len() as u32;
    let (start, teeth) = (g.tracks(), 26_u32.checked_sub(holes)?);
    let last = start + 2 * teeth;
    g.cylinders = last / g.heads + 1;
    let walls = (0..teeth).map(|i| (0x01, start + 2 * i, start + 2 * i));
    let walls: Vec<Extent> = walls.chain([(0x01, last, g.tracks() - 1)]).collect();
    lists.extend(walls.chunks(MOST).map(<[Extent]>::to_vec));
    let used = 255 - open_slots(&labelled(rng, g, lists.clone())?) as u32;
    g.per_track = used + rng.weighted(&[3, 1]) as u32;
    labelled(rng, g, lists)
}

/// The extents of each set: runs of tracks dealt out from the volume's start on, cut into extents that
/// go on from one to the next, and in the end put into another order.
fn lists(rng: &mut Rng, g: Geometry) -> Vec<Vec<Extent>> {
    let mut lists = vec![vec![]; 1 + rng.below(4)];
    let mut at = 1;
    while at < g.tracks() {
        let vtoc = g.vtoc_start..g.vtoc_end();
        if vtoc.contains(&at) {
            at = vtoc.end;
            continue;
        }
        let limit = if at < vtoc.start { vtoc.start } else { g.tracks() };
        let end = run_end(rng, at, g.heads).min(limit);
        let owner = rng.below(4 * lists.len() / 3 + 1);
        if let Some(list) = lists.get_mut(owner) {
            cut(rng, list, at..end, g.heads);
        }
        at = end;
    }
    lists.retain(|list| !list.is_empty());
    lists.iter_mut().for_each(|list| reorder(rng, list));
    lists
}

/// Where a run ends: anywhere in the next two cylinders, or with a cylinder.
fn run_end(rng: &mut Rng, at: u32, heads: u32) -> u32 {
    match rng.below(3) {
        0 => (at / heads + 1 + rng.range(0, 1)) * heads,
        _ => at + rng.range(1, 2 * heads),
    }
}

/// Appends a run to a set as one extent or as several; whole cylinders mostly as X'81'.
fn cut(rng: &mut Rng, list: &mut Vec<Extent>, run: std::ops::Range<u32>, heads: u32) {
    let pieces = rng.chance(60);
    let mut at = run.start;
    while at < run.end && list.len() < MOST {
        let end = if pieces { at + rng.range(1, heads.min(run.end - at)) } else { run.end };
        let whole = at.is_multiple_of(heads) && end.is_multiple_of(heads);
        let kind = if whole && rng.chance(80) { 0x81 } else { 0x01 };
        list.push((kind, at, end - 1));
        at = end;
    }
}

/// Most lists stay, some go backwards, some have two extents exchanged.
fn reorder(rng: &mut Rng, list: &mut [Extent]) {
    let (one, other) = (rng.below(list.len()), rng.below(list.len()));
    match rng.below(6) {
        0 => list.reverse(),
        1 | 2 => list.swap(one, other),
        _ => {}
    }
}

/// Labels for these lists: most of them cylinder files, in slots drawn at random.
fn labelled(rng: &mut Rng, g: Geometry, lists: Vec<Vec<Extent>>) -> Option<Vec<u8>> {
    let mut slots: Vec<usize> = (2..g.slots()).collect();
    let mut slot =
        |rng: &mut Rng| (!slots.is_empty()).then(|| slots.swap_remove(rng.below(slots.len())));
    let mut sets = vec![];
    for extents in lists {
        let name = names::lawful(rng, 600).try_into().expect("44 bytes");
        let unit = [0xC0, 0x80, 0x00][rng.weighted(&[6, 2, 2])];
        let secondary = if unit == 0 { 0 } else { rng.range(0, 3) };
        let format_1 = slot(rng)?;
        let format_3 = if extents.len() > 3 { Some(slot(rng)?) } else { None };
        sets.push(Set::new(format_1, format_3, name, unit, secondary, extents));
    }
    table_with([g.cylinders, g.heads, g.per_track, g.vtoc_start, g.vtoc_tracks], sets)
}
