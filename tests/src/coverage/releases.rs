//! The paths of a release, worked out track by track from the set's list as the table had it: document
//! 02, [2].

use crate::generate::glance::{Glance, SetGlance};

/// The paths that a run must see.
pub const RELEASES: [&str; 22] = [
    "release, cylinders: on to the cylinder's end inside an extent",
    "release, cylinders: on into a part of a later extent",
    "release, cylinders: on over a whole later extent",
    "release, cylinders: on into a third extent",
    "release, cylinders: on to the volume's last track",
    "release, cylinders: stops, the next extent is further on in the cylinder",
    "release, cylinders: stops, the next extent is before it in the cylinder",
    "release, cylinders: stops, the next extent is in another cylinder, far off",
    "release, cylinders: stops, the next extent goes on, but in another cylinder",
    "release, cylinders: cut where TT + 1 ends a cylinder",
    "release, cylinders: nothing given back, though TT + 1 is less than all",
    "release, cylinders: X'81' is cut",
    "release, cylinders: X'01' is cut",
    "release, cylinders: H = 1",
    "release, cylinders: format 3 freed, some more kept",
    "release, cylinders: format 3 stays, for what more is kept",
    "release, cylinders: 11, some more kept",
    "release, cylinders: 11, the format 3 stays for what more is kept",
    "release, tracks: X'81' is cut",
    "release, tracks: inside a cylinder",
    "release, absolute: X'81' is cut",
    "release, absolute: inside a cylinder",
];

/// The extents that a format 1 holds.
const IN_FORMAT_1: usize = 3;

/// A release at TT of a set, as document 02 has it for cylinder files.
struct Release<'a> {
    set: &'a SetGlance,
    heads: u32,
    last_of_volume: u32,
    /// The number of its extent and the track, for each track of the set.
    list: Vec<(usize, u32)>,
    /// TT + 1, and with what goes on in the cylinder.
    first: usize,
    kept: usize,
}

impl Release<'_> {
    fn new<'a>(table: &Glance, set: &'a SetGlance, tt: u32) -> Release<'a> {
        let extents = set.extents.iter().enumerate();
        let list = extents.flat_map(|(e, &(at, n))| (at..at + n).map(move |track| (e, track)));
        let list: Vec<_> = list.collect();
        let heads = table.geometry.heads;
        let first = tt as usize + 1;
        let mut kept = first;
        while list.get(kept).is_some_and(|&(_, next)| {
            let last = list[kept - 1].1;
            next == last + 1 && next / heads == last / heads
        }) {
            kept += 1;
        }
        let last_of_volume = table.geometry.tracks() - 1;
        Release { set, heads, last_of_volume, list, first, kept }
    }

    /// The type of the extent that is cut where so many tracks stay.
    fn cut(&self, stay: usize) -> Option<u8> {
        let (e, _) = self.list[stay - 1];
        let (next, _) = self.list.get(stay)?;
        (*next == e).then(|| self.set.kinds[e])
    }

    /// The extents that are left of so many tracks.
    fn extents(&self, stay: usize) -> usize {
        self.list[stay - 1].0 + 1
    }

    fn keeps_more(&self) -> bool {
        self.kept > self.first
    }

    /// Whether the format 3 would go if no more than TT + 1 tracks were kept.
    fn format_3_stays_for_more(&self) -> bool {
        self.extents(self.first) <= IN_FORMAT_1 && self.extents(self.kept) > IN_FORMAT_1
    }

    /// How it ends of a cylinder file.
    fn of_cylinders(&self) -> Vec<(bool, &'static str)> {
        let (from, to) = (self.extents(self.first), self.extents(self.kept));
        let (more, cut) = (self.keeps_more(), self.cut(self.kept));
        let last = self.list[self.kept - 1].1;
        let freed = self.set.extents.len() > IN_FORMAT_1 && to <= IN_FORMAT_1;
        let mut facts = vec![
            (more && cut.is_some() && from == to, "on to the cylinder's end inside an extent"),
            (cut.is_some() && from < to, "on into a part of a later extent"),
            (from + usize::from(cut.is_some()) < to, "on over a whole later extent"),
            (from + 2 <= to, "on into a third extent"),
            (more && last == self.last_of_volume, "on to the volume's last track"),
            (!more && cut.is_some() && self.heads > 1, "cut where TT + 1 ends a cylinder"),
            (
                more && self.kept == self.list.len(),
                "nothing given back, though TT + 1 is less than all",
            ),
            (cut == Some(0x81), "X'81' is cut"),
            (cut == Some(0x01), "X'01' is cut"),
            (self.heads == 1 && self.kept < self.list.len(), "H = 1"),
            (freed && more, "format 3 freed, some more kept"),
            (self.format_3_stays_for_more(), "format 3 stays, for what more is kept"),
        ];
        if let (None, Some(&(_, next))) = (cut, self.list.get(self.kept)) {
            let here = next / self.heads == last / self.heads;
            facts.push(match (here, next > last) {
                (true, true) => (true, "stops, the next extent is further on in the cylinder"),
                (true, false) => (true, "stops, the next extent is before it in the cylinder"),
                (false, _) if next == last + 1 => {
                    (self.heads > 1, "stops, the next extent goes on, but in another cylinder")
                }
                _ => (true, "stops, the next extent is in another cylinder, far off"),
            });
        }
        facts
    }

    fn of_another_unit(&self) -> Vec<(bool, &'static str)> {
        vec![
            (self.cut(self.first) == Some(0x81), "X'81' is cut"),
            (self.keeps_more(), "inside a cylinder"),
        ]
    }

    fn refused_for_slots(&self) -> Vec<(bool, &'static str)> {
        vec![
            (self.keeps_more(), "11, some more kept"),
            (self.format_3_stays_for_more(), "11, the format 3 stays for what more is kept"),
        ]
    }
}

/// What an accepted release (result 0) or one refused for slots (11) shows.
pub fn shown(table: &Glance, set: &SetGlance, tt: u32, result: u32) -> Vec<&'static str> {
    let release = Release::new(table, set, tt);
    let (unit, facts) = match (set.unit, result) {
        (0xC0, 0) => ("cylinders", release.of_cylinders()),
        (0xC0, _) => ("cylinders", release.refused_for_slots()),
        (0x80, 0) => ("tracks", release.of_another_unit()),
        (0x00, 0) => ("absolute", release.of_another_unit()),
        _ => return vec![],
    };
    let taken = facts.into_iter().filter(|(fact, _)| *fact);
    let listed = |path| RELEASES.iter().find(|&&on_list| on_list == path).copied();
    taken.filter_map(|(_, path)| listed(format!("release, {unit}: {path}"))).collect()
}
