//! Scripted sequences of calls, whose outcomes are computed here and verified elsewhere.

mod chains;
mod cylinders;
mod damages;
mod dates;
mod edges;
mod grants;
mod joins;
mod options;
mod previews;
pub mod print;
mod random;
mod refusals;
mod sixteen_bits;
mod volumes;

use crate::coverage::Coverage;
use crate::desk::{Desk, Outcome, Row};
use crate::generate::glance::glance;
use crate::generate::session::Origin;

/// A series of calls that begins with an empty table.
pub struct Sequence {
    pub title: &'static str,
    pub desk: Desk,
}

/// A sequence from the function that plays it on an empty desk.
fn sequence(title: &'static str, play: impl FnOnce(&mut Desk)) -> Sequence {
    let mut desk = Desk::default();
    play(&mut desk);
    Sequence { title, desk }
}

/// All sequences, always the same. New ones come last: tests/definitions names them by number.
pub fn sequences() -> Vec<Sequence> {
    let mut all = stories_of_the_base();
    all.extend(edges::sequences());
    all.extend(options::stories());
    all.extend(options::edges());
    all.extend(cylinders::sequences());
    all.extend(previews::sequences());
    all.extend(sixteen_bits::sequences());
    all.extend(dates::sequences());
    all.extend(joins::sequences());
    all
}

/// Those in which volumes live, which the stored recording has too.
pub fn stories() -> Vec<Sequence> {
    let mut all = stories_of_the_base();
    all.extend(options::stories());
    all.extend(cylinders::sequences());
    all.extend(previews::sequences());
    all.extend(dates::sequences());
    all.extend(joins::sequences());
    all
}

fn stories_of_the_base() -> Vec<Sequence> {
    let mut all = volumes::sequences();
    all.extend(grants::sequences());
    all.extend(refusals::sequences());
    all.extend(damages::sequences());
    all.extend(chains::sequences());
    all.extend(random::sequences());
    all
}

/// What the sequences touch.
pub fn coverage(sequences: &[Sequence]) -> Coverage {
    let mut coverage = Coverage::default();
    for row in sequences.iter().flat_map(|sequence| &sequence.desk.rows) {
        match row {
            Row::Made { call, outcome, before, after } => {
                let Outcome { result, answer, .. } = outcome;
                coverage.count(call, Origin::Live, *result, before, after, answer);
            }
            Row::Hurt { call, result, .. } => {
                coverage.count(call, Origin::Changed, *result, &[], &[], &[]);
            }
            Row::Sized { call, result, .. } => {
                coverage.count(call, Origin::Probe, *result, &[], &[], &[]);
            }
            Row::Put { .. } | Row::Listed { .. } | Row::Parts { .. } => {}
        }
    }
    coverage
}

/// The tracks and records of a sequence's largest volume.
pub fn size(sequence: &Sequence) -> (u32, usize) {
    let sizes = sequence.desk.rows.iter().filter_map(|row| match row {
        Row::Made { after, .. } => glance(after).map(|g| (g.geometry.tracks(), after.len() / 140)),
        _ => None,
    });
    sizes.fold((0, 0), |(t, n), (tracks, slots)| (t.max(tracks), n.max(slots)))
}
