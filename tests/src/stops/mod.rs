//! A third check of tables, for request [4] of document 02. Its sums are exact, or of sixteen bits with a
//! stop before each that would leave 0 to 65,535. Any stop can be left out, which makes a wrong program:
//! it goes on with the sum modulo 65,536. So it can be shown of a bad table which program would take it.

mod program;
mod tracks;

use std::collections::BTreeSet;

pub use program::{judge, Verdict};
pub use tracks::{Way, WAYS};

/// Which number of the table a sum is of.
#[derive(Clone, Copy, Debug, PartialEq, Eq, PartialOrd, Ord)]
pub enum Place {
    /// C, H and T.
    Volume,
    VtocFirst,
    VtocLast,
    /// S, V and N.
    Vtoc,
    ExtentFirst,
    ExtentLast,
    Extent,
    /// A free extent, in a format 5.
    Entry,
    Format3Link,
    Format5Link,
    /// The address of the highest format 1.
    Highest,
    /// All tracks of the volume, added up.
    Total,
}

/// Which step on the way to it.
#[derive(Clone, Copy, Debug, PartialEq, Eq, PartialOrd, Ord)]
pub enum Step {
    /// Cylinders × H, C × H or V × D.
    Product,
    /// The tracks that are added to it, S + V, or one length more in the total.
    Sum,
    /// HH, or odd tracks, below H. No sum, but wrong digits of a right sum need this rule.
    Digit,
    /// One after the last track.
    End,
    /// End − first, track − S or T − 1, which may be below zero.
    Difference,
    /// (track − S) × D.
    SlotProduct,
    /// R − 1 added to it.
    SlotSum,
    /// R from 1 to D, a rule as `Digit` is.
    Record,
}

pub type Stop = (Place, Step);

/// How a program calculates.
#[derive(Clone, Debug, PartialEq, Eq)]
pub enum Numbers {
    Exact,
    /// In sixteen bits, with all stops but these.
    SixteenWithout(BTreeSet<Stop>),
    /// In sixteen bits, with no stop at all.
    SixteenWithoutAny,
}

impl Numbers {
    /// The right program in sixteen bits.
    pub fn sixteen() -> Numbers {
        Numbers::SixteenWithout(BTreeSet::new())
    }

    fn leaves_out(&self, stop: Stop) -> bool {
        match self {
            Numbers::Exact => false,
            Numbers::SixteenWithout(stops) => stops.contains(&stop),
            Numbers::SixteenWithoutAny => true,
        }
    }
}

/// The numbers of a program, and the stops that it went past.
struct Sums {
    numbers: Numbers,
    passed: BTreeSet<Stop>,
}

impl Sums {
    /// A number as the program keeps it; nothing where it stops.
    fn keep(&mut self, stop: Stop, number: i64) -> Option<i64> {
        if self.numbers == Numbers::Exact || (0..=65_535).contains(&number) {
            return Some(number);
        }
        self.pass(stop)?;
        Some(wrapped(number))
    }

    /// A rule that is no sum, but can be left out too.
    fn rule(&mut self, stop: Stop, holds: bool) -> Option<()> {
        if holds {
            return Some(());
        }
        self.pass(stop)
    }

    fn pass(&mut self, stop: Stop) -> Option<()> {
        self.passed.insert(stop);
        self.numbers.leaves_out(stop).then_some(())
    }
}

fn wrapped(number: i64) -> i64 {
    number.rem_euclid(65_536)
}
