//! What a run of calls has touched: results of each call, and paths worth seeing.

mod dates;
mod full;
mod joins;
mod options;
mod previews;
mod releases;

use std::collections::BTreeMap;
use std::fmt;

use crate::call::{Call, CALL_NAMES, NO_OPTION, RESULTS};
use crate::generate::glance::{glance, Glance};
use crate::generate::session::Origin;
pub use dates::DATES;
pub use full::FULL_VOLUMES;
pub use joins::JOINS;
use options::Numbers;
pub use options::OPTIONS;
use previews::Seen;
pub use previews::{PREVIEWS, WIDE as WIDE_PREVIEWS};
pub use releases::RELEASES;

/// The paths that a run must see.
pub const FEATURES: [&str; 36] = [
    "allocate: 1 piece",
    "allocate: 2 pieces",
    "allocate: 3 pieces",
    "allocate: 4 pieces",
    "allocate: 5 pieces",
    "extend: 1 piece",
    "extend: 2 pieces",
    "extend: 3 pieces",
    "extend: 4 pieces",
    "extend: 5 pieces",
    "cylinders granted",
    "absolute granted",
    "format 3 made by allocate",
    "format 3 made by extend",
    "format 3 freed by release",
    "format 3 freed by scratch",
    "format 5 made by allocate",
    "format 5 made by extend",
    "format 5 made by release",
    "format 5 made by scratch",
    "format 5 freed by allocate",
    "format 5 freed by extend",
    "format 5 freed by release",
    "format 5 freed by scratch",
    "formats 3 and 5 made at once",
    "formats 3 and 5 freed at once",
    "format 3 made, format 5 freed",
    "format 3 freed, format 5 made",
    "release inside an extent",
    "release at the end of an extent",
    "release of nothing",
    "obtain with format 3",
    "obtain without format 3",
    "lspace with no free extent",
    "damaged table refused",
    "changed table accepted",
];

/// Kinds of volume that a run must see.
pub const VOLUMES: [&str; 4] = ["H = 1", "D = 1", "VTOC not at track 1", "sixteen extents"];

/// What a long run on volumes of all sizes must see besides.
pub const WIDE: [&str; 7] = [
    "scratch on a full VTOC",
    "more than 26 free extents",
    "more than 52 free extents",
    "more than 1,000 free extents",
    "more than 60,000 tracks",
    "468 records",
    "400 data sets",
];

/// The number of calls from which on a run must have seen everything, and the fewest with each
/// result of each call then.
pub const WHOLE: usize = 150_000;
pub const EACH: usize = 10;

/// The highest refusal.
const MOST: u32 = 14;

#[derive(Clone, Debug, Default)]
pub struct Coverage {
    pub results: BTreeMap<(usize, u32), usize>,
    pub features: BTreeMap<&'static str, usize>,
    /// The call before, where it was a preview.
    last_preview: Option<Seen>,
}

impl Coverage {
    /// Counts a call with its result, and what it did to the table or why it did not.
    pub fn count(
        &mut self, call: &Call, origin: Origin, result: u32, before: &[u8], after: &[u8],
        answer: &[u8],
    ) {
        *self.results.entry((call.index(), result)).or_default() += 1;
        self.after_a_preview(call, result, before);
        let paths = dates::shown(call, result, before, after);
        paths.into_iter().for_each(|path| self.saw(path));
        match (origin, result) {
            (Origin::Changed, 3) => self.saw("damaged table refused"),
            (Origin::Changed, 2) => {}
            (Origin::Changed, _) => self.saw("changed table accepted"),
            (Origin::Live | Origin::Probe, _) => match call {
                Call::Preview(call) => self.preview(call, result, before, answer),
                _ if result == 0 => self.effect(call, before, after, answer),
                _ => self.refusal(call, result, before),
            },
        }
    }

    /// Where the call before was a preview, whether this is the call that it was of.
    fn after_a_preview(&mut self, call: &Call, result: u32, before: &[u8]) {
        let path = self.last_preview.take().and_then(|seen| seen.followed_by(call, before, result));
        path.into_iter().for_each(|path| self.saw(path));
        self.last_preview = Seen::of(call, before);
    }

    /// The preview of a call.
    fn preview(&mut self, call: &Call, result: u32, before: &[u8], answer: &[u8]) {
        let Some(table) = glance(before) else { return };
        let mut paths = previews::shown(call, &table, result, answer);
        if let (0, Call::Extend { name }) = (result, call) {
            paths.extend(joins::granted(&table, name, answer, true));
        }
        if let (0, Some(preview)) = (result, call.preview()) {
            paths.extend(full::accepted(&preview, &table, &table));
        }
        paths.into_iter().for_each(|path| self.saw(path));
    }

    /// A refused allocate with an option or past the volume's end, a release for which slots are
    /// short, or an extend for which extents or slots are.
    fn refusal(&mut self, call: &Call, result: u32, before: &[u8]) {
        let paths = match (result, call, numbers_with_option(call)) {
            (7 | 9 | 11, _, Some(numbers)) => {
                glance(before).map(|table| options::refused(numbers, &table, result))
            }
            (11, Call::Release { name, ttr }, _) => {
                glance(before).map(|table| release_paths(&table, name, ttr >> 8, result))
            }
            (10 | 11, Call::Extend { name }, _) => {
                Some(joins::refused(before, name, result).into_iter().collect())
            }
            (7, &Call::Allocate { kind: 2, start, amount, secondary: 0, .. }, None) => {
                glance(before).map(|table| full::refused(&table, start, amount))
            }
            _ => None,
        };
        paths.into_iter().flatten().for_each(|path| self.saw(path));
    }

    /// An accepted call, by what it did to a sound table.
    fn effect(&mut self, call: &Call, before: &[u8], after: &[u8], answer: &[u8]) {
        let (Some(old), Some(new)) = (glance(before), glance(after)) else { return };
        self.volume(&new);
        full::accepted(call, &old, &new).into_iter().for_each(|path| self.saw(path));
        if matches!(call, Call::Scratch { .. }) && old.open.is_empty() {
            self.saw(WIDE[0]);
        }
        let pieces = usize::from(answer[2]);
        match call {
            Call::Allocate { kind, .. } => {
                match numbers_with_option(call) {
                    None => self.saw(FEATURES[pieces - 1]),
                    Some(numbers) => {
                        let paths = options::granted(numbers, &old, &new);
                        paths.into_iter().for_each(|path| self.saw(path));
                    }
                }
                match kind {
                    1 => self.saw("cylinders granted"),
                    2 => self.saw("absolute granted"),
                    _ => {}
                }
            }
            Call::Extend { name } => {
                self.saw(FEATURES[4 + pieces]);
                let paths = joins::granted(&old, name, answer, false);
                paths.into_iter().for_each(|path| self.saw(path));
            }
            Call::Release { name, ttr } => self.release(&old, name, ttr >> 8),
            Call::Obtain { name } => {
                let set = old.sets.iter().find(|set| set.name == *name);
                let with = set.is_some_and(|set| set.format_3.is_some());
                self.saw(if with { "obtain with format 3" } else { "obtain without format 3" });
            }
            Call::Lspace if old.holes.is_empty() => self.saw("lspace with no free extent"),
            _ => {}
        }
        if !matches!(call, Call::Initialise { .. }) {
            self.records(call, &old, &new);
        }
    }

    fn saw(&mut self, feature: &'static str) {
        *self.features.entry(feature).or_default() += 1;
    }

    fn volume(&mut self, glance: &Glance) {
        let long = glance.sets.iter().any(|set| set.extents.len() == 16);
        let g = glance.geometry;
        let facts = [g.heads == 1, g.per_track == 1, g.vtoc_start > 1, long];
        let (holes, sets) = (glance.holes.len(), glance.sets.len());
        let many = [holes > 26, holes > 52, holes > 1000];
        let large = [g.tracks() > 60_000, g.slots() == 468, sets >= 400];
        let wide = many.into_iter().chain(large).zip(WIDE[1..].iter().copied());
        for (fact, feature) in facts.into_iter().zip(VOLUMES).chain(wide) {
            if fact {
                self.saw(feature);
            }
        }
    }

    fn release(&mut self, old: &Glance, name: &[u8], tt: u32) {
        release_paths(old, name, tt, 0).into_iter().for_each(|path| self.saw(path));
        let Some(set) = old.sets.iter().find(|set| set.name == name) else { return };
        let mut end = 0;
        let at_end = set.extents.iter().any(|&(_, length)| {
            end += length;
            end == tt + 1
        });
        self.saw(match at_end {
            _ if tt + 1 == set.tracks() => "release of nothing",
            true => "release at the end of an extent",
            false => "release inside an extent",
        });
    }

    /// Format 3s and 5s made and freed.
    fn records(&mut self, call: &Call, old: &Glance, new: &Glance) {
        let threes = |glance: &Glance| glance.sets.iter().filter(|s| s.format_3.is_some()).count();
        let three = threes(new) as isize - threes(old) as isize;
        let five = new.format_5s.len() as isize - old.format_5s.len() as isize;
        match (three.signum(), five.signum()) {
            (1, 1) => self.saw("formats 3 and 5 made at once"),
            (-1, -1) => self.saw("formats 3 and 5 freed at once"),
            (1, -1) => self.saw("format 3 made, format 5 freed"),
            (-1, 1) => self.saw("format 3 freed, format 5 made"),
            _ => {}
        }
        for (format, change) in [(3, three), (5, five)] {
            let verb = if change > 0 { "made" } else { "freed" };
            let text = format!("format {format} {verb} by {}", CALL_NAMES[call.index()]);
            if let (true, Some(&feature)) = (change != 0, FEATURES.iter().find(|&&f| f == text)) {
                self.saw(feature);
            }
        }
    }

    /// The required results and features not seen. `beyond` lists results that a run
    /// cannot show.
    pub fn missing(&self, beyond: &[(usize, u32)]) -> Vec<String> {
        let results = RESULTS
            .iter()
            .enumerate()
            .flat_map(|(call, results)| results.iter().map(move |&result| (call, result)));
        let results = results
            .filter(|key| !self.results.contains_key(key) && !beyond.contains(key))
            .map(|(call, result)| format!("{} {result}", CALL_NAMES[call]));
        let features = due().filter(|f| !self.features.contains_key(f));
        results.chain(features.map(|f| f.to_string())).collect()
    }
}

impl Coverage {
    /// What is missing of what a long run must see besides.
    pub fn missing_wide(&self) -> Vec<String> {
        let missing = due_besides().filter(|f| !self.features.contains_key(f));
        missing.map(|f| f.to_string()).collect()
    }

    /// What a run of so many calls saw too seldom; nothing is due of one that is not whole.
    pub fn too_few(&self, calls: usize) -> Vec<String> {
        if calls < WHOLE {
            return vec![];
        }
        let mut few = self.missing(&[]);
        few.extend(self.missing_wide());
        for (&(call, result), &count) in &self.results {
            if count < EACH {
                few.push(format!("{} {result}: {count}", CALL_NAMES[call]));
            }
        }
        few
    }
}

/// What every run must see, apart from results.
fn due() -> impl Iterator<Item = &'static str> {
    let of_calls = FEATURES.into_iter().chain(OPTIONS).chain(RELEASES).chain(PREVIEWS);
    of_calls.chain(JOINS).chain(DATES).chain(VOLUMES)
}

/// What a long run must see besides.
fn due_besides() -> impl Iterator<Item = &'static str> {
    WIDE.into_iter().chain(WIDE_PREVIEWS).chain(FULL_VOLUMES)
}

/// The paths of a release with this result.
fn release_paths(table: &Glance, name: &[u8], tt: u32, result: u32) -> Vec<&'static str> {
    let set = table.sets.iter().find(|set| set.name == name);
    set.map_or(vec![], |set| releases::shown(table, set, tt, result))
}

/// The numbers of an allocate that has an option.
fn numbers_with_option(call: &Call) -> Option<Numbers> {
    match *call {
        Call::Allocate { kind, start, amount, secondary, option, .. } if option != NO_OPTION => {
            Some(Numbers { kind, start, amount, secondary, option })
        }
        _ => None,
    }
}

impl fmt::Display for Coverage {
    fn fmt(&self, f: &mut fmt::Formatter) -> fmt::Result {
        write!(f, "{:<17}{:>8}", "result", "all")?;
        (0..=MOST).try_for_each(|result| write!(f, "{result:>7}"))?;
        writeln!(f)?;
        let sum = |wanted: &dyn Fn(usize, u32) -> bool| -> usize {
            let seen = self.results.iter();
            seen.filter(|(&(call, result), _)| wanted(call, result)).map(|(_, count)| count).sum()
        };
        for (call, name) in CALL_NAMES.iter().enumerate() {
            write!(f, "{name:<17}{:>8}", sum(&|of, _| of == call))?;
            for result in 0..=MOST {
                match self.results.get(&(call, result)) {
                    Some(count) => write!(f, "{count:>7}")?,
                    None if RESULTS[call].contains(&result) => write!(f, "{:>7}", "NONE")?,
                    None => write!(f, "{:>7}", "-")?,
                }
            }
            writeln!(f)?;
        }
        write!(f, "{:<17}{:>8}", "all", sum(&|_, _| true))?;
        (0..=MOST).try_for_each(|result| write!(f, "{:>7}", sum(&|_, of| of == result)))?;
        writeln!(f)?;
        for feature in due() {
            writeln!(f, "{:>8}  {feature}", self.features.get(feature).unwrap_or(&0))?;
        }
        for feature in due_besides() {
            if let Some(count) = self.features.get(feature) {
                writeln!(f, "{count:>8}  {feature}")?;
            }
        }
        Ok(())
    }
}
