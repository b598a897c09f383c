//! Times of short work on a shared machine, which is often slow and never too fast.

use std::time::Instant;

const BATCHES: usize = 60;

/// Microseconds of one run of `work`: the best of 60 batches, each of some 3 ms.
pub fn time(mut work: impl FnMut()) -> f64 {
    let runs = runs_in_batch(&mut work);
    (0..BATCHES).map(|_| batch(&mut work, runs)).fold(f64::MAX, f64::min)
}

/// The same for two works whose batches take turns, so that both meet the same machine.
pub fn time_both(mut one: impl FnMut(), mut other: impl FnMut()) -> [f64; 2] {
    let (one_runs, other_runs) = (runs_in_batch(&mut one), runs_in_batch(&mut other));
    let mut best = [f64::MAX; 2];
    for _ in 0..BATCHES {
        best[0] = best[0].min(batch(&mut one, one_runs));
        best[1] = best[1].min(batch(&mut other, other_runs));
    }
    best
}

/// The same for two works that change a table: each run gets a copy of its own, made outside the
/// timed part. `batches` of them.
pub fn time_both_on_copies(
    table: &[u8], batches: usize, mut one: impl FnMut(&mut [u8]), mut other: impl FnMut(&mut [u8]),
) -> [f64; 2] {
    // So many that a batch is long enough to time, so few that the copies stay in the cache.
    let count = (COPIED / table.len()).clamp(1, 200);
    let mut copies = vec![table.to_vec(); count];
    let mut best = [f64::MAX; 2];
    for _ in 0..batches {
        best[0] = best[0].min(batch_on_copies(table, &mut copies, &mut one));
        best[1] = best[1].min(batch_on_copies(table, &mut copies, &mut other));
    }
    best
}

/// Bytes of all copies together.
const COPIED: usize = 262_144;

fn batch_on_copies(table: &[u8], copies: &mut [Vec<u8>], work: &mut impl FnMut(&mut [u8])) -> f64 {
    copies.iter_mut().for_each(|copy| copy.copy_from_slice(table));
    let start = Instant::now();
    copies.iter_mut().for_each(|copy| work(copy));
    start.elapsed().as_secs_f64() * 1e6 / copies.len() as f64
}

fn runs_in_batch(work: &mut impl FnMut()) -> u32 {
    let once = batch(work, 1) * 1e-6;
    ((0.003 / once.max(1e-8)) as u32).clamp(1, 100_000)
}

/// Microseconds of one of `runs` runs.
fn batch(work: &mut impl FnMut(), runs: u32) -> f64 {
    let start = Instant::now();
    (0..runs).for_each(|_| work());
    start.elapsed().as_secs_f64() * 1e6 / f64::from(runs)
}
