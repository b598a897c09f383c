//! Document 02, [6], followed word by word by the audit, track by track, beside the reference: an extend
//! of every set of many volumes, whatever its secondary amount.

use std::collections::BTreeMap;

use vtoc_tests::audit::{picture, Set};
use vtoc_tests::call::Call;
use vtoc_tests::desk::Desk;
use vtoc_tests::generate::session::{lives, Session};
use vtoc_tests::ledger::Ledger;

/// How often each thing was seen.
type Counts = BTreeMap<&'static str, usize>;

/// The table with another secondary amount in a set's label.
fn with_secondary(table: &[u8], set: &Set, amount: u32) -> Vec<u8> {
    let mut table = table.to_vec();
    table[140 * set.slot + 95..][..3].copy_from_slice(&amount.to_be_bytes()[1..]);
    table
}

/// Amounts that make the free tracks behind the set the first piece, and others.
fn amounts(free: &[(u32, u32)], set: &Set, h: u32) -> Vec<u32> {
    let unit = if set.unit() == 0xC0 { h } else { 1 };
    let mut lengths: Vec<u32> = free.iter().map(|&(_, length)| length / unit).collect();
    lengths.sort_unstable_by(|a, b| b.cmp(a));
    let several = (2..=5).map(|n| lengths.iter().take(n).sum::<u32>());
    let mut amounts: Vec<u32> = several.chain([1, 2]).chain(lengths.iter().copied()).collect();
    amounts.retain(|&amount| amount > 0);
    amounts.sort_unstable();
    amounts.dedup();
    amounts
}

/// Extends of every set with every such amount.
fn compare(table: &[u8], counts: &mut Counts) {
    let volume = picture(table).expect("not taken");
    for set in volume.sets.iter().filter(|set| set.unit() != 0) {
        for amount in amounts(&volume.free, set, volume.h) {
            let changed = with_secondary(table, set, amount);
            let before = picture(&changed).expect("a secondary amount may be any");
            let call = Call::Extend { name: set.name.to_vec() };
            let mut desk = Desk { table: changed, rows: vec![] };
            let made = desk.seen_and_made(call.clone());
            let mut saw = |what| *counts.entry(what).or_default() += 1;
            let growth = match before.extend(&set.name) {
                Ok(growth) => growth,
                Err(refusal) => {
                    made.refused(refusal);
                    saw("refused");
                    continue;
                }
            };
            made.granted(&growth.pieces);
            let after = picture(&desk.table).expect("not taken");
            let now = after.sets.iter().find(|other| other.name == set.name).expect("still there");
            assert_eq!(now.extents, growth.extents);
            let mut ledger = Ledger::of(&before);
            ledger.enter(&call, made.result, &made.answer);
            assert!(ledger.agrees(&after));
            let (old, pieces) = (set.extents.len(), growth.pieces.len());
            if growth.extents.len() == old + pieces {
                saw("appended");
                continue;
            }
            saw("joined");
            saw(if old <= 3 { "joined in a format 1" } else { "joined in a format 3" });
            if pieces > 1 {
                saw("joined, and more pieces");
            }
            if set.unit() != 0xC0 || set.extents[old - 1].0 != 0x81 {
                saw("joined as X'01'");
            }
        }
    }
}

/// At least so many of each.
fn at_least(fewest: usize, counts: &Counts) {
    let few = [
        "refused",
        "appended",
        "joined",
        "joined in a format 1",
        "joined in a format 3",
        "joined, and more pieces",
        "joined as X'01'",
    ];
    let too_few: Vec<_> = few.iter().filter(|&what| counts.get(what) < Some(&fewest)).collect();
    assert!(too_few.is_empty(), "{too_few:?} of {counts:?}");
}

#[test]
fn on_volumes_from_elsewhere() {
    let mut counts = Counts::new();
    for seed in 0..1500 {
        compare(Session::elsewhere(seed).table(), &mut counts);
    }
    at_least(100, &counts);
}

#[test]
fn on_volumes_made_for_it() {
    let mut counts = Counts::new();
    for seed in 0..400 {
        compare(Session::touching(seed).table(), &mut counts);
    }
    at_least(150, &counts);
}

/// Volumes of all shapes, a few times in their lives.
#[test]
fn on_our_own_volumes() {
    let mut counts = Counts::new();
    lives(240, 12, |table| compare(table, &mut counts));
    at_least(100, &counts);
}
