//! The volumes of the benchmark, and the calls that are timed on each.

use super::joined;
use crate::call::{Buffers, Call, Reference, ALX, CONTIG, MXIG, NO_DATE, NO_OPTION, TODAY};
use crate::desk::attributes;
use crate::generate::aim::scratch_of;
use crate::generate::glance::{glance, Glance, SetGlance};
use crate::generate::rng::Rng;
use crate::irregular;
use crate::reference::layout::UNIT_CYLINDERS;
use crate::short::expiring;
use crate::volumes::{
    many_extents, many_names, medium, name, place, set_name, small, survey_three_counters,
    survey_two_counters,
};

pub struct Volume {
    pub title: &'static str,
    pub table: Vec<u8>,
    /// The name of the set that is extended.
    growing: Vec<u8>,
    /// The name of the set that is released, scratched, renamed and read.
    present: Vec<u8>,
    /// Whether the calls that need many extents are made too.
    irregular: bool,
    /// A table with a cylinder file, and the call that releases it in the middle of a cylinder.
    cut: Option<(Vec<u8>, Call)>,
    /// Tables with sets of one and of sixteen extents, and the calls that lengthen the last of them.
    joined: Option<(Vec<u8>, Call)>,
    joined_at_sixteen: Option<(Vec<u8>, Call)>,
}

/// A call to time, the table to make it on, and the result that it must have.
pub struct Timed<'a> {
    pub what: String,
    pub table: &'a [u8],
    pub call: Call,
    pub wanted: u32,
}

/// The volumes of the page; in a short run one of each kind, and none that takes long to build.
pub fn volumes(short: bool) -> Vec<Volume> {
    let makers: [(bool, fn() -> Volume); 11] = [
        (true, || regular("small", small())),
        (false, || regular("medium", medium())),
        (true, || regular("large, many names", many_names())),
        (false, || {
            let extents = regular("large, many extents", many_extents());
            Volume { present: name(&set_name(150)).to_vec(), ..extents }
        }),
        (true, || regular("survey, two counters", survey_two_counters())),
        (false, || regular("survey, three counters", survey_three_counters())),
        (true, || irregular("random names", irregular::random_names())),
        (false, || irregular("irregular, small", irregular::small())),
        (true, || irregular("irregular, medium", irregular::medium())),
        (true, || irregular("irregular, many extents", irregular::many_extents())),
        (false, || irregular("irregular, many format 5s", irregular::many_format_5s())),
    ];
    makers.into_iter().filter(|&(quick, _)| quick || !short).map(|(_, make)| make()).collect()
}

/// The volume with one set more, on which all calls are made.
pub fn regular(title: &'static str, mut table: Vec<u8>) -> Volume {
    place(&mut table, "BENCH.SET", 0, 0, 2, 1);
    let present = name("BENCH.SET").to_vec();
    let cut = with_cylinder_file(&table);
    with_joins(title, table, present.clone(), present, false, cut)
}

/// The volume as it is; the calls are made on sets with many extents, drawn by a fixed seed.
fn irregular(title: &'static str, table: Vec<u8>) -> Volume {
    let rng = &mut Rng::new(1);
    let sets = glance(&table).expect("sound").sets;
    let most = sets.iter().map(|set| set.extents.len()).max().expect("sets");
    let many: Vec<&SetGlance> = sets.iter().filter(|set| 2 * set.extents.len() > most).collect();
    let grows: Vec<_> = many.iter().filter(|set| can_grow(&table, set)).collect();
    let growing = rng.pick(&grows).expect("a set that can be extended").name.clone();
    let present = rng.pick(&many).expect("the one with most").name.clone();
    let cut = cylinder_file(&table).map(|call| (table.clone(), call));
    with_joins(title, table, growing, present, true, cut)
}

/// The volume, with copies in which an extend joins.
fn with_joins(
    title: &'static str, table: Vec<u8>, growing: Vec<u8>, present: Vec<u8>, irregular: bool,
    cut: Option<(Vec<u8>, Call)>,
) -> Volume {
    let made = |name: Vec<u8>, extents| {
        joined::table(&table, &name, extents).map(|table| (table, Call::Extend { name }))
    };
    let joined = made(growing.clone(), 1);
    let long = joined::with_sixteen(&table, &growing);
    let joined_at_sixteen = long.and_then(|name| made(name, 16));
    Volume { title, table, growing, present, irregular, cut, joined, joined_at_sixteen }
}

/// The table with a cylinder file of three cylinders, or of one where there are no more. The other
/// calls are timed without it.
fn with_cylinder_file(table: &[u8]) -> Option<(Vec<u8>, Call)> {
    let amount = [3, 1].into_iter().find(|&n| is_accepted(table, &Volume::allocation(1, n)))?;
    let mut table = table.to_vec();
    place(&mut table, "BENCH.CYL", 1, 0, amount, 0);
    let call = cylinder_file(&table)?;
    Some((table, call))
}

/// The release that cuts the cylinder file with most extents about its middle.
fn cylinder_file(table: &[u8]) -> Option<Call> {
    let Glance { geometry, sets, .. } = glance(table)?;
    let cut = |set: &SetGlance| {
        let ttr = mid_cylinder(set, geometry.heads)?;
        Some((set.extents.len(), Call::Release { name: set.name.clone(), ttr }))
    };
    let cuts = sets.iter().filter(|set| set.unit == UNIT_CYLINDERS).filter_map(cut);
    let cuts = cuts.filter(|(_, call)| is_accepted(table, call));
    cuts.max_by_key(|&(extents, _)| extents).map(|(_, call)| call)
}

/// The first TTR from the middle of the set on where the next track goes on in the same cylinder.
fn mid_cylinder(set: &SetGlance, heads: u32) -> Option<u32> {
    let list: Vec<u32> = set.extents.iter().flat_map(|&(at, count)| at..at + count).collect();
    let middle = list.len() / 2;
    let goes_on = |two: &[u32]| two[1] == two[0] + 1 && !two[1].is_multiple_of(heads);
    let tt = middle + list[middle..].windows(2).position(goes_on)?;
    Some((tt as u32) << 8 | 1)
}

fn can_grow(table: &[u8], set: &SetGlance) -> bool {
    is_accepted(table, &Call::Extend { name: set.name.clone() })
}

fn is_accepted(table: &[u8], call: &Call) -> bool {
    call.run(&Reference, &mut Buffers::new(table.to_vec(), 24, 280)) == 0
}

impl Volume {
    fn glance(&self) -> Glance {
        glance(&self.table).expect("sound")
    }

    /// A new set of so many tracks (kind 0) or cylinders (1).
    pub fn allocation(kind: u32, amount: u32) -> Call {
        Volume::allocation_by(NO_OPTION, kind, amount)
    }

    /// The same by an option.
    fn allocation_by(option: u32, kind: u32, amount: u32) -> Call {
        let (name, attributes) = (name("BENCH.FRESH").to_vec(), attributes(3));
        let (start, secondary, expiry) = (0, 1, NO_DATE.to_vec());
        Call::Allocate { name, attributes, kind, start, amount, secondary, option, expiry }
    }

    /// The calls to time; after each of `PREVIEWED` its preview, with the same arguments.
    pub fn calls(&self) -> Vec<Timed<'_>> {
        self.calls_alone().into_iter().flat_map(with_preview).collect()
    }

    fn calls_alone<'a>(&'a self) -> Vec<Timed<'a>> {
        let glance = self.glance();
        let g = glance.geometry;
        let (c, h, d) = (g.cylinders, g.heads, g.per_track);
        let (s, v) = (g.vtoc_start, g.vtoc_tracks);
        let present = || self.present.clone();
        let table = &self.table[..];
        let accepted = |what: &str, call| Timed { what: what.into(), table, call, wanted: 0 };
        let many = |what: &str, call| self.irregular.then(|| accepted(what, call));
        let on_a_copy = |what: &str, made: &'a Option<(Vec<u8>, Call)>| {
            let (table, call) = made.as_ref()?;
            Some(Timed { what: what.into(), table, call: call.clone(), wanted: 0 })
        };
        // Where slots and whole cylinders allow it.
        let by_option = |what: &str, option, kind, amount| {
            let call = Volume::allocation_by(option, kind, amount);
            is_accepted(&self.table, &call).then(|| accepted(what, call))
        };
        let calls = [
            Some(accepted("initialise", Call::Initialise { c, h, d, s, v })),
            Some(accepted("allocate, tracks", Volume::allocation(0, 1))),
            Some(accepted("allocate, expiry", expiring(Volume::allocation(0, 1), &TODAY))),
            Some(accepted("allocate, cylinders", Volume::allocation(1, 1))),
            many("allocate, five pieces", Volume::allocation(0, five_pieces(&glance))),
            Some(Timed {
                what: "allocate, refused 9".into(),
                table,
                call: Volume::allocation(0, 65_535),
                wanted: 9,
            }),
            by_option("allocate, CONTIG", CONTIG, 0, longest(&glance)),
            by_option("allocate, MXIG", MXIG, 0, 1),
            by_option("allocate, ALX", ALX, 0, 1),
            by_option("allocate, ALX, cylinders", ALX, 1, 1),
            Some(accepted("extend", Call::Extend { name: self.growing.clone() })),
            on_a_copy("extend, joined", &self.joined),
            on_a_copy("extend, joined, 16 extents", &self.joined_at_sixteen),
            Some(accepted("release", Call::Release { name: present(), ttr: 1 })),
            many("release, half", Call::Release { name: present(), ttr: self.half(&glance) }),
            on_a_copy("release, mid-cylinder", &self.cut),
            Some(accepted("scratch", scratch_of(present()))),
            Some(accepted(
                "rename",
                Call::Rename { old: present(), new: name("BENCH.FRESH").to_vec() },
            )),
            Some(accepted("obtain", Call::Obtain { name: present() })),
            Some(accepted("lspace", Call::Lspace)),
        ];
        calls.into_iter().flatten().collect()
    }

    /// The TTR that keeps half of the tracks.
    fn half(&self, glance: &Glance) -> u32 {
        let set = glance.sets.iter().find(|set| set.name == self.present).expect("present");
        (set.tracks() / 2).saturating_sub(1) << 8 | 1
    }

    /// The columns of `print_volumes`.
    fn figures(&self) -> String {
        let glance = self.glance();
        let figures = [
            self.table.len() / 140,
            glance.geometry.heads as usize,
            glance.geometry.tracks() as usize,
            glance.sets.len(),
            glance.sets.iter().map(|set| set.extents.len()).sum(),
            glance.holes.len(),
            glance.format_5s.len(),
        ];
        figures.map(|figure| figure.to_string()).join(" | ")
    }
}

/// The rows that have one of the preview after them.
const PREVIEWED: [&str; 11] = [
    "allocate, tracks",
    "allocate, cylinders",
    "allocate, five pieces",
    "allocate, MXIG",
    "allocate, ALX",
    "extend",
    "extend, joined",
    "extend, joined, 16 extents",
    "release",
    "release, mid-cylinder",
    "scratch",
];

/// The row of a call and, where it is to have one, that of its preview.
fn with_preview(timed: Timed<'_>) -> Vec<Timed<'_>> {
    let Timed { what, table, call, wanted } = &timed;
    let preview = call.preview().filter(|_| PREVIEWED.contains(&what.as_str()));
    let what = format!("preview {what}");
    let preview = preview.map(|call| Timed { what, table, call, wanted: *wanted });
    std::iter::once(timed).chain(preview).collect()
}

/// What each volume holds.
pub fn print_volumes(volumes: &[Volume]) {
    println!("| Volume | Records | H | Tracks | Data sets | Extents | Free extents | Format 5s |\n|---|---:|---:|---:|---:|---:|---:|---:|");
    for volume in volumes {
        println!("| {} | {} |", volume.title, volume.figures());
    }
}

/// The tracks of the longest free extent.
fn longest(glance: &Glance) -> u32 {
    glance.holes.iter().map(|&(_, length)| length).max().unwrap_or(0)
}

/// Tracks that five free extents hold and four do not, where there are five.
fn five_pieces(glance: &Glance) -> u32 {
    let mut lengths: Vec<u32> = glance.holes.iter().map(|&(_, length)| length).collect();
    lengths.sort_unstable_by(|a, b| b.cmp(a));
    lengths.iter().take(4).sum::<u32>() + 1
}
