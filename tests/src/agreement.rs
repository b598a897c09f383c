//! A check of the table beside the reference's own, on tables sound and damaged.

use std::collections::BTreeMap;
use std::process::ExitCode;

use crate::generate::tables::{every_table, Shown};
use crate::generate::wrapped::{kinds, Kind};
use crate::reference::layout::extent_part;
use crate::reference::lspace;
use crate::volumes::{small, ANSWER};

/// The fewest tables in all, and the fewest with each answer.
const TABLES: usize = 20_000;
const EACH: usize = 1_000;
/// The fewest of each kind that look sound where sums wrap.
const WRAPPED_EACH: usize = 10;

#[derive(Clone, Default)]
struct Counts {
    tables: usize,
    damaged: usize,
    taken: usize,
    refused_2: usize,
    refused_3: usize,
    wrapped: BTreeMap<Kind, usize>,
    disagreements: usize,
}

/// Asks both about every table and prints counts. Failure at a disagreement, or where too little
/// was seen: an idle run, which shows one table over and over, must fail.
pub fn beside_reference(check: impl Fn(&[u8]) -> u32, is_idle: bool) -> ExitCode {
    let mut counts = Counts::default();
    let mut judge = |shown: Shown| counts.compare(&shown, check(shown.table));
    if is_idle {
        let table = small();
        let idle = || Shown { table: &table, origin: "idle", damaged: false, wrapped: None };
        (0..TABLES).for_each(|_| judge(idle()));
    } else {
        every_table(judge);
    }

    counts.print();
    match counts.verdict() {
        Ok(()) => ExitCode::SUCCESS,
        Err(why) => {
            eprintln!("{why}");
            ExitCode::FAILURE
        }
    }
}

/// Asks both for the bytes of extents that there are and that there are not, in records of the right
/// length and of others.
pub fn extents_beside_reference(
    extent: impl Fn(&[u8], &[u8], u32) -> Vec<u8>,
) -> Result<(), String> {
    const LENGTHS: [usize; 4] = [0, 139, 140, 141];
    let bytes: Vec<u8> = (0..=255).chain(0..=25).collect();
    let mut parts = 0;
    for (one, three) in LENGTHS.into_iter().flat_map(|one| LENGTHS.map(|three| (one, three))) {
        // The two differ in every place.
        let (format_1, format_3) = (&bytes[..one], &bytes[141..141 + three]);
        for e in (0..=17).chain([255, 256, 65_536, u32::MAX]) {
            let (given, wanted) =
                (extent(format_1, format_3, e), extent_part(format_1, format_3, e as usize));
            if given != wanted {
                return Err(format!(
                    "extent {e} of {one} and {three} bytes: {given:?}, not {wanted:?}"
                ));
            }
            parts += usize::from(!given.is_empty());
        }
    }
    println!("extents agree, {parts} with their ten bytes");
    (parts == 16).then_some(()).ok_or(format!("{parts} extents, not 16"))
}

impl Counts {
    fn print(&self) {
        let Counts { tables, damaged, taken, refused_2, refused_3, wrapped, disagreements } = self;
        println!("tables {tables}, of them damaged {damaged}");
        println!("taken {taken}, refused 2 {refused_2}, refused 3 {refused_3}");
        let (sum, least) = (wrapped.values().sum::<usize>(), wrapped.values().min().unwrap_or(&0));
        let of_kinds = wrapped.len();
        println!("sound but for sums of sixteen bits {sum}, of {of_kinds} kinds, {least} or more of each");
        println!("disagreements {disagreements}");
    }

    fn verdict(&self) -> Result<(), &'static str> {
        if self.disagreements > 0 {
            return Err("the two disagree");
        }
        let answers = [self.taken, self.refused_2, self.refused_3];
        if self.tables < TABLES || answers.iter().any(|&seen| seen < EACH) {
            return Err("too few tables of some kind");
        }
        let few = |kind| self.wrapped.get(&kind).is_none_or(|&seen| seen < WRAPPED_EACH);
        if kinds().into_iter().any(few) {
            return Err("too few tables of a kind that looks sound where sums wrap");
        }
        Ok(())
    }

    /// LSPACE of the reference refuses for the table alone.
    fn compare(&mut self, shown: &Shown, answered: u32) {
        let expected = lspace(shown.table, &mut [0; ANSWER]);
        self.tables += 1;
        self.damaged += usize::from(shown.damaged);
        if let Some(kind) = shown.wrapped {
            *self.wrapped.entry(kind).or_default() += 1;
        }
        match expected {
            0 => self.taken += 1,
            2 => self.refused_2 += 1,
            _ => self.refused_3 += 1,
        }
        if answered != expected {
            self.disagreements += 1;
            if self.disagreements <= 10 {
                let Shown { table, origin, .. } = shown;
                eprintln!("{origin}, {} bytes: {answered}, not {expected}", table.len());
            }
        }
    }
}

#[cfg(test)]
mod tests {
    use super::*;

    /// Just enough of everything passes; one fewer of anything, or one disagreement, does not.
    #[test]
    fn too_few_or_a_disagreement_fails() {
        let enough = Counts {
            tables: 20_000,
            taken: 1_000,
            refused_2: 1_000,
            refused_3: 1_000,
            wrapped: kinds().into_iter().map(|kind| (kind, 10)).collect(),
            ..Counts::default()
        };
        assert_eq!(enough.verdict(), Ok(()));
        let few = Err("too few tables of some kind");
        assert_eq!(Counts { tables: 19_999, ..enough.clone() }.verdict(), few);
        assert_eq!(Counts { taken: 999, ..enough.clone() }.verdict(), few);
        assert_eq!(Counts { refused_2: 999, ..enough.clone() }.verdict(), few);
        assert_eq!(Counts { refused_3: 999, ..enough.clone() }.verdict(), few);
        for kind in kinds() {
            let few = Err("too few tables of a kind that looks sound where sums wrap");
            let mut wrapped = enough.wrapped.clone();
            wrapped.insert(kind, 9);
            assert_eq!(Counts { wrapped: wrapped.clone(), ..enough.clone() }.verdict(), few);
            wrapped.remove(&kind);
            assert_eq!(Counts { wrapped, ..enough.clone() }.verdict(), few);
        }
        let differ = Err("the two disagree");
        assert_eq!(Counts { disagreements: 1, ..enough }.verdict(), differ);
    }
}
