//! Document 02, [3], sentence by sentence: each preview of the reference beside the reference's call on
//! a copy of the table, which is what the document says it equals.

use std::collections::BTreeMap;

use vtoc_tests::audit::picture;
use vtoc_tests::call::{Buffers, Call, Reference, CALL_NAMES, RESULTS};
use vtoc_tests::generate::damage::{damage, DAMAGES};
use vtoc_tests::generate::grids;
use vtoc_tests::generate::rng::Rng;
use vtoc_tests::generate::session::{lives, Origin, Session};
use vtoc_tests::generate::shapes::{Shape, SHAPES};
use vtoc_tests::ledger::Ledger;
use vtoc_tests::short;
use vtoc_tests::volumes::{fresh, name, place, small};

/// "Its reply equals that of the call made on a copy of the table, refusals included, and the lent
/// table is not written." Returns the result.
#[track_caller]
fn as_on_a_copy(call: &Call, lent: &Buffers) -> u32 {
    let preview = call.preview().expect("a call that has one");
    let (mut seen, mut copy) = (lent.clone(), lent.clone());
    let (result, wanted) = (preview.run(&Reference, &mut seen), call.run(&Reference, &mut copy));
    assert_eq!(result, wanted, "{call:02X?}");
    assert_eq!(seen.answer, copy.answer, "{call:02X?}");
    assert!(seen.table == lent.table, "the table is written: {call:02X?}");
    assert!(seen.labels == lent.labels, "the labels are written: {call:02X?}");
    assert!(result == 0 || seen == *lent, "refused with {result}, but written: {call:02X?}");
    result
}

/// How often each preview had each result.
#[derive(Default)]
struct Counts(BTreeMap<(&'static str, u32), usize>);

impl Counts {
    /// Compares a call's preview, where it has one.
    #[track_caller]
    fn compare(&mut self, call: &Call, lent: &Buffers) {
        if let Some(preview) = call.preview() {
            let result = as_on_a_copy(call, lent);
            *self.0.entry((CALL_NAMES[preview.index()], result)).or_default() += 1;
        }
    }

    fn seen(&self, name: &'static str, result: u32) -> usize {
        self.0.get(&(name, result)).copied().unwrap_or(0)
    }

    /// Each of these results, where the call can have it, was seen so often.
    #[track_caller]
    fn each_seen(&self, wanted: &[u32], times: usize) {
        for (&name, results) in CALL_NAMES.iter().zip(RESULTS).skip(8).take(4) {
            for &result in results.iter().filter(|result| wanted.contains(result)) {
                let seen = self.seen(name, result);
                assert!(seen >= times, "{name} {result}: {seen}");
            }
        }
    }
}

/// "Add a preview of allocate, extend, release and scratch."
#[test]
fn of_these_four() {
    let name = || name("A").to_vec();
    let with = [
        short::tracks("A", 1, 0),
        short::extend("A"),
        short::release("A", 0, 1),
        short::scratch("A"),
    ];
    let without = [
        Call::Initialise { c: 4, h: 5, d: 4, s: 1, v: 2 },
        Call::Rename { old: name(), new: name() },
        Call::Obtain { name: name() },
        Call::Lspace,
    ];
    assert!(with.iter().all(|call| call.preview().is_some()));
    assert!(without.iter().all(|call| call.preview().is_none()));
    assert!(with.iter().all(|call| call.preview().unwrap().preview().is_none()));
}

/// Calls of all kinds in the lives of volumes, with hostile arguments and on damaged tables; full
/// VTOCs are among them.
#[test]
fn in_the_lives_of_volumes() {
    let mut counts = Counts::default();
    let mut live = |mut session: Session, calls: usize| {
        for _ in 0..calls {
            let trial = session.next_trial();
            counts.compare(&trial.call, &trial.buffers);
            let mut buffers = trial.buffers.clone();
            trial.call.run(&Reference, &mut buffers);
            session.keep(&trial, buffers.table);
        }
    };
    for (seed, &shape) in (0..180).zip(SHAPES.iter().cycle()) {
        let session = Session::of_shape(seed, shape).with_dates();
        live(session, if shape == Shape::Large { 40 } else { 250 });
        live(Session::elsewhere(seed).with_dates(), 60);
    }
    counts.each_seen(&[0, 2, 3, 4, 5, 6, 7, 8, 9, 10, 11, 12, 13, 14], 25);
    assert!(counts.seen("preview_allocate", 11) > 500);
}

/// Every length of every buffer, and numbers at their limits.
#[test]
fn in_the_grids() {
    let mut counts = Counts::default();
    let grids = [grids::lengths(), grids::amounts(), grids::options(), grids::ttrs()];
    for (call, buffers) in grids.into_iter().flatten() {
        counts.compare(&call, &buffers);
    }
    counts.each_seen(&[0, 2], 1);
    assert!(counts.seen("preview_allocate", 7) > 1_000);
    assert!(counts.seen("preview_allocate", 11) > 100);
    assert!(counts.seen("preview_release", 12) > 1_000);
}

/// Every length of the answer, and of the table around all that matter; those of names and attributes
/// are in the grids.
#[test]
fn every_length() {
    let table = small();
    let calls = [
        short::tracks("NEW", 3, 1),
        short::release("FLT.A", 0, 1),
        short::scratch("FLT.A"),
        short::extend("FLT.A"),
    ];
    for call in &calls {
        for length in (0..4 * 1_120).chain(140 * 466..140 * 470) {
            let mut lent = Buffers::new(table.clone(), 24, 0);
            lent.table.resize(length, 0);
            let result = as_on_a_copy(call, &lent);
            assert_eq!(result == 2, length % 140 != 0 || !(3..=468).contains(&(length / 140)));
        }
        for length in 0..=200 {
            let result = as_on_a_copy(call, &Buffers::new(table.clone(), length, 0));
            assert_eq!(result == 2, length != 24);
        }
    }
}

/// Each kind of damage to tables of all shapes, with calls aimed at the sound one.
#[test]
fn on_damaged_tables() {
    let mut counts = Counts::default();
    let rng = &mut Rng::new(3);
    lives(30, 24, |table| {
        for &kind in DAMAGES {
            let Some(damaged) = damage(rng, table, kind) else { continue };
            let trial = Session::on(rng.word(), table, Shape::Cylinders).next_trial();
            counts.compare(&trial.call, &Buffers { table: damaged, ..trial.buffers });
        }
    });
    counts.each_seen(&[3], 50);
}

/// Bytes of any kind: 2 or 3, and nothing is written.
#[test]
fn on_noise() {
    let rng = &mut Rng::new(4);
    for round in 0..2_000 {
        let length = if round % 2 == 0 { 140 * rng.below(20) } else { rng.below(3_000) };
        let lent = Buffers::new((0..length).map(|_| rng.byte()).collect(), 24, 0);
        let trial = Session::on(rng.word(), &fresh(20, 3, 8, 1, 1), Shape::Tiny).next_trial();
        if trial.call.preview().is_some() {
            assert!([2, 3].contains(&as_on_a_copy(&trial.call, &lent)));
        }
    }
}

/// "A preview may stand anywhere in a list of calls and the ledger doesn't notice it": the list with
/// its previews and the list without them leave the same ledger and the same table, at every point.
#[test]
fn the_ledger_does_not_notice() {
    let mut previews = 0;
    for seed in 0..60 {
        let mut session = Session::on(seed, &fresh(30, 4, 12, 1, 1), Shape::Cylinders)
            .with_previews()
            .with_dates();
        let begun = Ledger::of(&picture(session.table()).expect("sound"));
        let (mut with, mut without) = (begun.clone(), begun);
        let mut without_table = session.table().to_vec();
        for _ in 0..150 {
            let trial = session.next_trial();
            let mut buffers = trial.buffers.clone();
            let result = trial.call.run(&Reference, &mut buffers);
            if trial.origin == Origin::Live {
                with.enter(&trial.call, result, &buffers.answer);
                let is_preview = matches!(trial.call, Call::Preview(_));
                previews += usize::from(is_preview && result == 0);
                if !is_preview {
                    let lent = Buffers { table: without_table, ..trial.buffers.clone() };
                    without_table = entered(&mut without, &trial.call, lent);
                }
            }
            session.keep(&trial, buffers.table);
            assert_eq!(with, without);
            assert!(session.table() == without_table);
        }
    }
    assert!(previews > 1_000, "{previews}");
}

/// Makes the call and enters it; the table that it leaves.
fn entered(ledger: &mut Ledger, call: &Call, mut lent: Buffers) -> Vec<u8> {
    let result = call.run(&Reference, &mut lent);
    ledger.enter(call, result, &lent.answer);
    assert!(ledger.agrees(&picture(&lent.table).expect("sound")));
    lent.table
}

/// A preview that is entered with an answer as of a grant changes no name, no list and no sum.
#[test]
fn whatever_it_answers() {
    let ledger = Ledger::of(&picture(&small()).expect("sound"));
    let answer = [0, 4, 1, 0, 7, 0, 4, 0, 0, 0, 0, 0, 0, 0, 0, 0, 0, 0, 0, 0, 0, 0, 0, 0];
    for call in [
        short::tracks("FLT.B", 4, 0),
        short::extend("FLT.A"),
        short::release("FLT.A", 0, 1),
        short::scratch("FLT.A"),
    ] {
        let mut entered = ledger.clone();
        entered.enter(&call.preview().expect("one of the four"), 0, &answer);
        assert_eq!(entered, ledger);
        entered.enter(&call, 0, &answer);
        assert_ne!(entered, ledger);
    }
}

/// A manager whose preview makes the call is found out: the ledger is not that of its table.
#[test]
fn a_preview_that_writes_is_noticed() {
    let mut table = small();
    place(&mut table, "FLT.B", 0, 0, 1, 1);
    for call in [
        short::tracks("FLT.D", 2, 0),
        short::extend("FLT.B"),
        short::release("FLT.A", 0, 1),
        short::scratch("FLT.A"),
    ] {
        let mut ledger = Ledger::of(&picture(&table).expect("sound"));
        let mut buffers = Buffers::new(table.clone(), 24, 280);
        assert_eq!(call.run(&Reference, &mut buffers), 0);
        ledger.enter(&call.preview().expect("one of the four"), 0, &buffers.answer);
        assert!(ledger.agrees(&picture(&table).expect("sound")));
        assert!(!ledger.agrees(&picture(&buffers.table).expect("sound")), "{call:?}");
    }
}
