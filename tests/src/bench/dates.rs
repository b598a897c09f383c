//! The rows of the two conversions of dates, which have no volume.

use super::row::Row;
use crate::audit::dates::{packed, stored};
use crate::call::Call;
use crate::generate::rng::Rng;
use crate::short::{to_packed, to_stored};

/// How many dates a row converts.
const DATES: usize = 1_000;

/// The titles of the rows, and for each the conversions of days drawn at random.
pub fn conversions() -> [(&'static str, Vec<Call>); 2] {
    let rng = &mut Rng::new(1);
    let days: Vec<(u32, u32)> =
        (0..DATES).map(|_| (rng.range(1900, 2099), rng.range(1, 365))).collect();
    [
        ("date to stored", days.iter().map(|&(y, d)| to_stored(&packed(y, d))).collect()),
        ("date to packed", days.iter().map(|&(y, d)| to_packed(&stored(y, d))).collect()),
    ]
}

/// The rows of the page.
pub fn rows() -> Vec<(String, Row<'static>)> {
    let row =
        |(what, calls): (&str, Vec<Call>)| (format!("{what}, 1,000 dates"), Row::dates(calls));
    conversions().map(row).into()
}
