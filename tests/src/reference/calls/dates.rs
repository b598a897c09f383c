//! The conversion of dates both ways: calls without a table. Never inlined, since what a benchmark sets
//! beside them is not either.

use super::{answered, sized, Answer, NO_NUMBERS};
use crate::reference::dates::{packed, stored};
use crate::reference::Refusal;

/// The stored form of a packed date. Refusals in order: 2, 14.
#[inline(never)]
pub fn date_to_stored(date: &[u8], answer: &mut [u8]) -> u32 {
    answered(answer, || stored(sized(date)?).map(first).ok_or(Refusal::Date))
}

/// The packed form of a stored date. Refusals in order: 2, 14.
#[inline(never)]
pub fn date_to_packed(date: &[u8], answer: &mut [u8]) -> u32 {
    answered(answer, || packed(sized(date)?).map(first).ok_or(Refusal::Date))
}

/// "The result stands first in the 24 answer bytes, zeros after."
fn first<const LEN: usize>(date: [u8; LEN]) -> Answer {
    let mut answer = NO_NUMBERS;
    answer[..LEN].copy_from_slice(&date);
    answer
}
