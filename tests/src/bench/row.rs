//! A row of the page: two works on one table, timed in turns.

use std::hint::black_box;

use crate::call::{Buffers, Call, Manager, Reference};
use crate::floor;
use crate::library::Library;
use crate::timing::time_both_on_copies;

enum Work {
    /// A call of the library and of the reference, with the result that it must have.
    Call(Call, u32),
    /// The plain pass and the C check.
    Floor,
    /// The conversions of many dates, one after another: one takes less than can be timed.
    Dates(Vec<Call>),
}

/// Microseconds of both, the best so far.
pub struct Row<'a> {
    table: &'a [u8],
    work: Work,
    best: [f64; 2],
}

impl Row<'_> {
    pub fn call(table: &[u8], call: Call, wanted: u32) -> Row<'_> {
        compare(&call, table);
        Row { table, work: Work::Call(call, wanted), best: [f64::MAX; 2] }
    }

    /// Of these conversions, which look at no table.
    pub fn dates(calls: Vec<Call>) -> Row<'static> {
        calls.iter().for_each(|call| compare(call, &[]));
        Row { table: &[0; 140], work: Work::Dates(calls), best: [f64::MAX; 2] }
    }

    pub fn floor(table: &[u8]) -> Row<'_> {
        Row { table, work: Work::Floor, best: [f64::MAX; 2] }
    }

    fn time(&mut self, batches: usize) {
        let times = match &self.work {
            Work::Call(call, wanted) => time_both_on_copies(
                self.table,
                batches,
                |table| make(&Library, call, table, *wanted),
                |table| make(&Reference, call, table, *wanted),
            ),
            Work::Floor => time_both_on_copies(
                self.table,
                batches,
                |table| {
                    black_box(floor::pass(table));
                },
                |table| assert_eq!(black_box(floor::check(table)), 0),
            ),
            Work::Dates(calls) => time_both_on_copies(
                self.table,
                batches,
                |_| calls.iter().for_each(|call| convert(&Library, call)),
                |_| calls.iter().for_each(|call| convert(&Reference, call)),
            ),
        };
        self.best = [0, 1].map(|side| self.best[side].min(times[side]));
    }

    pub fn ratio(&self) -> f64 {
        self.best[0] / self.best[1]
    }

    /// Both times.
    pub fn times(&self) -> String {
        self.best.map(|time| format!("{time:.2}")).join(" | ")
    }

    /// Both times and their ratio.
    pub fn times_and_ratio(&self) -> String {
        format!("{} | {:.2}", self.times(), self.ratio())
    }
}

/// Both leave the same bytes, or a ratio means nothing.
fn compare(call: &Call, table: &[u8]) {
    let before = Buffers::new(table.to_vec(), 24, 280);
    let (mut one, mut other) = (before.clone(), before);
    assert_eq!(call.run(&Library, &mut one), call.run(&Reference, &mut other));
    assert!(one == other, "the two differ: {call:?}");
}

/// Makes the call on a table that is lent, with output buffers of its own.
fn make(manager: &impl Manager, call: &Call, table: &mut [u8], wanted: u32) {
    let (mut answer, mut labels) = ([0; 24], [0; 280]);
    let result = call.run_on(manager, table, &mut answer, &mut labels);
    assert_eq!(black_box(result), wanted);
}

/// Converts a date, with no buffer but that of the answer.
fn convert(manager: &impl Manager, call: &Call) {
    let mut answer = [0; 24];
    let result = call.run_on(manager, &mut [], &mut answer, &mut []);
    assert_eq!(black_box((result, answer)).0, 0);
}

/// How often a page times its rows.
#[derive(Clone, Copy)]
pub struct Effort {
    pub rounds: usize,
    /// Batches of a row in one round.
    pub batches: usize,
}

/// Times every row in several rounds: a disturbance of the machine lasts longer than a row takes,
/// and seldom as long as a round.
pub fn time_in_rounds<'a, 'b: 'a>(rows: impl Iterator<Item = &'a mut Row<'b>>, effort: Effort) {
    let mut rows: Vec<_> = rows.collect();
    for _ in 0..effort.rounds {
        rows.iter_mut().for_each(|row| row.time(effort.batches));
    }
}
