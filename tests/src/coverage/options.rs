//! The paths of an allocate with an option, worked out from the candidates as the table had them.

use std::cmp::Reverse;

use crate::call::{ALX, CONTIG, MXIG};
use crate::generate::glance::Glance;

/// The paths that a run must see.
pub const OPTIONS: [&str; 47] = [
    "CONTIG, tracks: part of a candidate",
    "CONTIG, tracks: a whole candidate",
    "CONTIG, tracks: 9 though pieces would do",
    "CONTIG, cylinders: part of a candidate",
    "CONTIG, cylinders: a whole candidate",
    "CONTIG, cylinders: 9 though pieces would do",
    "MXIG, tracks: just the amount",
    "MXIG, tracks: more than the amount",
    "MXIG, tracks: tie",
    "MXIG, tracks: 9 though pieces would do",
    "MXIG, cylinders: just the amount",
    "MXIG, cylinders: more than the amount",
    "MXIG, cylinders: tie",
    "MXIG, cylinders: 9 though pieces would do",
    "MXIG, cylinders: rest of a free extent left",
    "MXIG, cylinders: another free extent is longer",
    "ALX, tracks: 1 piece",
    "ALX, tracks: 2 pieces",
    "ALX, tracks: 3 pieces",
    "ALX, tracks: 4 pieces",
    "ALX, tracks: 5 pieces",
    "ALX, tracks: just the amount",
    "ALX, tracks: tie",
    "ALX, tracks: more than five serve",
    "ALX, tracks: tie of the fifth with the sixth",
    "ALX, tracks: 9 though pieces would do",
    "ALX, cylinders: 1 piece",
    "ALX, cylinders: 2 pieces",
    "ALX, cylinders: 3 pieces",
    "ALX, cylinders: 4 pieces",
    "ALX, cylinders: 5 pieces",
    "ALX, cylinders: just the amount",
    "ALX, cylinders: tie",
    "ALX, cylinders: more than five serve",
    "ALX, cylinders: tie of the fifth with the sixth",
    "ALX, cylinders: 9 though pieces would do",
    "ALX, cylinders: rest of a free extent left",
    "ALX, cylinders: a longer free extent after a shorter one",
    "ALX: format 3 made",
    "ALX: format 5 made",
    "ALX: format 5 freed",
    "ALX: 11 for a format 1",
    "ALX: 11 for a format 3",
    "ALX: 11 for a format 5",
    "option unknown on tracks or cylinders",
    "option unknown on absolute",
    "option on absolute",
];

/// The numbers of an allocate.
#[derive(Clone, Copy)]
pub struct Numbers {
    pub kind: u32,
    pub start: u32,
    pub amount: u32,
    pub secondary: u32,
    pub option: u32,
}

/// A candidate: its length in units, that of its hole in tracks, and the holes it would leave there.
#[derive(Clone, Copy)]
struct Candidate {
    length: u32,
    hole: u32,
    rests: usize,
}

/// Paths with whether they were taken.
type Facts = Vec<(bool, String)>;

impl Numbers {
    fn option_and_kind(&self) -> Option<(&'static str, &'static str)> {
        let option = match self.option {
            CONTIG => "CONTIG",
            MXIG => "MXIG",
            ALX => "ALX",
            _ => return None,
        };
        match self.kind {
            0 => Some((option, "tracks")),
            1 => Some((option, "cylinders")),
            _ => None,
        }
    }

    /// Whether all is in its range, the option aside.
    fn otherwise_right(&self, table: &Glance) -> bool {
        let end = u64::from(self.start) + u64::from(self.amount);
        match self.kind {
            0 | 1 => (1..=65_535).contains(&self.amount) && self.secondary < 1 << 24,
            2 => {
                let inside = self.amount > 0 && end <= u64::from(table.geometry.tracks());
                inside && self.secondary == 0
            }
            _ => false,
        }
    }

    /// The candidates, longest first.
    fn candidates(&self, table: &Glance) -> Vec<Candidate> {
        let unit = if self.kind == 1 { table.geometry.heads } else { 1 };
        let whole = |&(start, hole): &(u32, u32)| {
            let (first, end) = (start.div_ceil(unit), (start + hole) / unit);
            let rests = usize::from(first * unit > start) + usize::from(end * unit < start + hole);
            (first < end).then(|| Candidate { length: end - first, hole, rests })
        };
        let mut candidates: Vec<_> = table.holes.iter().filter_map(whole).collect();
        candidates.sort_by_key(|candidate| Reverse(candidate.length));
        candidates
    }

    /// Those at least as long as the amount.
    fn serving(&self, table: &Glance) -> Vec<Candidate> {
        let mut candidates = self.candidates(table);
        candidates.retain(|candidate| candidate.length >= self.amount);
        candidates
    }
}

/// What an accepted allocate with an option shows.
pub fn granted(numbers: Numbers, before: &Glance, after: &Glance) -> Vec<&'static str> {
    let Some((option, kind)) = numbers.option_and_kind() else { return vec![] };
    let serving = numbers.serving(before);
    let longest_hole = before.holes.iter().map(|&(_, length)| length).max().unwrap_or(0);
    let paths = match numbers.option {
        CONTIG => contig(numbers.amount, &serving),
        MXIG => mxig(numbers.amount, &serving, longest_hole),
        _ => alx(numbers.amount, &serving),
    };
    let named = paths.into_iter().map(|(fact, path)| (fact, format!("{option}, {kind}: {path}")));
    let mut facts: Facts = named.collect();
    if numbers.option == ALX {
        facts.extend(records(before, after));
    }
    listed(facts)
}

fn contig(amount: u32, serving: &[Candidate]) -> Facts {
    let exact = serving.iter().any(|candidate| candidate.length == amount);
    vec![(exact, "a whole candidate".into()), (!exact, "part of a candidate".into())]
}

fn mxig(amount: u32, serving: &[Candidate], longest_hole: u32) -> Facts {
    let longest = serving[0];
    let tie = serving.get(1).is_some_and(|next| next.length == longest.length);
    vec![
        (longest.length == amount, "just the amount".into()),
        (longest.length > amount, "more than the amount".into()),
        (tie, "tie".into()),
        (longest.rests > 0, "rest of a free extent left".into()),
        (longest.hole < longest_hole, "another free extent is longer".into()),
    ]
}

fn alx(amount: u32, serving: &[Candidate]) -> Facts {
    let count = serving.len().min(5);
    let (taken, left) = serving.split_at(count);
    let pieces = format!("{count} piece{}", if count == 1 { "" } else { "s" });
    let sixth_ties = left.first().is_some_and(|sixth| sixth.length == taken[4].length);
    let in_turn = |fact: fn(&Candidate, &Candidate) -> bool| {
        taken.windows(2).any(|two| fact(&two[0], &two[1]))
    };
    vec![
        (true, pieces),
        (taken[count - 1].length == amount, "just the amount".into()),
        (in_turn(|one, next| one.length == next.length), "tie".into()),
        (!left.is_empty(), "more than five serve".into()),
        (sixth_ties, "tie of the fifth with the sixth".into()),
        (taken.iter().any(|one| one.rests > 0), "rest of a free extent left".into()),
        (
            in_turn(|one, next| one.hole < next.hole),
            "a longer free extent after a shorter one".into(),
        ),
    ]
}

/// Format 3s and 5s of an ALX.
fn records(before: &Glance, after: &Glance) -> Facts {
    let threes = |table: &Glance| table.sets.iter().filter(|set| set.format_3.is_some()).count();
    let fives = |table: &Glance| table.format_5s.len();
    vec![
        (threes(after) > threes(before), "ALX: format 3 made".into()),
        (fives(after) > fives(before), "ALX: format 5 made".into()),
        (fives(after) < fives(before), "ALX: format 5 freed".into()),
    ]
}

/// What a refused allocate with an option shows.
pub fn refused(numbers: Numbers, before: &Glance, result: u32) -> Vec<&'static str> {
    let fact = match (result, numbers.option_and_kind()) {
        (7, _) if numbers.option > ALX => {
            let on = if numbers.kind == 2 { "absolute" } else { "tracks or cylinders" };
            (numbers.otherwise_right(before), format!("option unknown on {on}"))
        }
        (7, None) => (numbers.otherwise_right(before), "option on absolute".into()),
        (9, Some((option, kind))) => {
            let five: u32 = numbers.candidates(before).iter().take(5).map(|c| c.length).sum();
            (five >= numbers.amount, format!("{option}, {kind}: 9 though pieces would do"))
        }
        (11, Some(("ALX", _))) => {
            let format = without_slot(before, &numbers.serving(before));
            (true, format!("ALX: 11 for a format {format}"))
        }
        _ => return vec![],
    };
    listed(vec![fact])
}

/// The format of the first new record of an ALX for which there is no slot.
fn without_slot(before: &Glance, serving: &[Candidate]) -> u8 {
    let taken = &serving[..serving.len().min(5)];
    let rests: usize = taken.iter().map(|candidate| candidate.rests).sum();
    let holes = before.holes.len() + rests - taken.len();
    let freed = before.format_5s.len().saturating_sub(holes.div_ceil(26).max(1));
    match before.open.len() + freed {
        0 => 1,
        1 if taken.len() > 3 => 3,
        _ => 5,
    }
}

/// The paths that were taken, those on the list.
fn listed(facts: Facts) -> Vec<&'static str> {
    let find = |path: &str| OPTIONS.iter().find(|&&on_list| on_list == path).copied();
    facts.iter().filter(|(fact, _)| *fact).filter_map(|(_, path)| find(path)).collect()
}
