//! A number of tracks told by other digits than its own: CC × H + HH is the same modulo 65,536.

use super::super::rng::Rng;
use crate::stops::Step;

/// What the digits are.
#[derive(Clone, Copy, Debug, PartialEq, Eq, PartialOrd, Ord)]
pub enum Digits {
    /// HH below H, as it must be.
    Below,
    /// HH at or above H.
    Wide,
    /// HH = 65,535.
    GreatestHead,
    /// CC = 65,535.
    GreatestCylinder,
}

pub const DIGITS: [Digits; 4] =
    [Digits::Below, Digits::Wide, Digits::GreatestHead, Digits::GreatestCylinder];

/// The greatest number in two bytes, and one more.
const TOP: u32 = 65_535;
const AROUND: u32 = 65_536;

impl Digits {
    /// The stops that such digits go past.
    pub fn steps(self) -> &'static [Step] {
        match self {
            Digits::Below => &[Step::Product, Step::Sum],
            _ => &[Step::Product, Step::Sum, Step::Digit],
        }
    }

    /// CC and HH for track `t`, where there are such.
    pub fn of(self, rng: &mut Rng, t: u32, h: u32) -> Option<(u32, u32)> {
        match self {
            Digits::Below => below(rng, t, h),
            Digits::Wide => wide(rng, t, h, TOP),
            Digits::GreatestHead => greatest_head(rng, t, h),
            Digits::GreatestCylinder => (t + h <= TOP).then_some((TOP, t + h)),
        }
    }
}

/// Once around is the number for which the sum alone can pass 65,535, with CC × H still below it.
pub fn turns(rng: &mut Rng, most: u32) -> u32 {
    if rng.chance(50) {
        1
    } else {
        rng.range(1, most)
    }
}

/// t + 65,536 to t + 65,536 × (H − 1) all have a CC of two bytes; with H = 1 there is none.
pub fn below(rng: &mut Rng, t: u32, h: u32) -> Option<(u32, u32)> {
    let number = t + AROUND * turns(rng, h - 1);
    (h > 1).then_some((number / h, number % h))
}

/// H or more of the tracks are told apart from the cylinders, `most` at the most.
pub fn wide(rng: &mut Rng, t: u32, h: u32, most: u32) -> Option<(u32, u32)> {
    let number = t + AROUND * turns(rng, h);
    moved(rng, number, h, most)
}

/// The digits of a number with H or more of its tracks told apart.
pub fn moved(rng: &mut Rng, number: u32, h: u32, most: u32) -> Option<(u32, u32)> {
    let (cc, hh) = (number / h, number % h);
    let fewest = cc.saturating_sub(TOP).max(1);
    let greatest = (most.checked_sub(hh)? / h).min(cc);
    (fewest <= greatest).then(|| {
        let moved = rng.range(fewest, greatest);
        (cc - moved, hh + h * moved)
    })
}

fn greatest_head(rng: &mut Rng, t: u32, h: u32) -> Option<(u32, u32)> {
    let fit = |turns: &u32| (t + AROUND * turns - TOP).is_multiple_of(h);
    let turns: Vec<u32> = (1..=h).filter(fit).collect();
    let cc = (t + AROUND * rng.pick(&turns)? - TOP) / h;
    (cc <= TOP && h <= TOP).then_some((cc, TOP))
}
