//! Document 02's words on the release of cylinder files, followed slowly, track by track, beside the
//! reference: every set of many volumes, at every TT.

use vtoc_tests::audit::{picture, Extent, Picture, Set};
use vtoc_tests::call::Call;
use vtoc_tests::desk::Desk;
use vtoc_tests::generate::session::{lives, Session};
use vtoc_tests::ledger::Ledger;

/// "the first TT + 1 in the set's list", and of a set with unit X'C0' those after them, "as long as each
/// is the next on the volume and in the same cylinder".
fn kept(set: &Set, h: u32, tt: usize) -> Vec<u32> {
    let list = set.tracks();
    let mut kept = list[..=tt].to_vec();
    for &track in &list[tt + 1..] {
        let last = kept[kept.len() - 1];
        if set.unit() != 0xC0 || track != last + 1 || track / h != last / h {
            break;
        }
        kept.push(track);
    }
    kept
}

/// The extents with the tracks that are kept, and no others.
fn extents(set: &Set, mut kept: usize) -> Vec<Extent> {
    let mut left = vec![];
    for &(kind, first, last) in &set.extents {
        let length = (last + 1 - first) as usize;
        match kept {
            0 => break,
            _ if kept >= length => left.push((kind, first, last)),
            _ => {
                let kind = if set.unit() == 0xC0 { kind } else { 0x01 };
                left.push((kind, first, first + kept as u32 - 1));
            }
        }
        kept = kept.saturating_sub(length);
    }
    left
}

/// The format 5s for the free tracks of before and those given back.
fn members(before: &Picture, back: &[u32]) -> usize {
    let mut is_free = vec![false; (before.c * before.h) as usize];
    let free = before.free.iter().flat_map(|&(start, length)| start..start + length);
    free.chain(back.iter().copied()).for_each(|track| is_free[track as usize] = true);
    let runs = is_free.chunk_by(|one, next| one == next).filter(|run| run[0]).count();
    runs.div_ceil(26).max(1)
}

/// Whether slots are too few for the release.
fn is_full(before: &Picture, set: &Set, back: &[u32], left: &[Extent]) -> bool {
    let freed = usize::from(set.format_3.is_some() && left.len() <= 3);
    members(before, back) > before.chain.len() + before.format_0s + freed
}

/// Releases of every set at every TT; counts those of cylinder files that keep more than TT + 1 tracks,
/// others that are accepted, and those that are refused.
fn compare(table: &[u8], counts: &mut [usize; 3]) {
    let desk = Desk { table: table.to_vec(), rows: vec![] };
    let before = picture(table).expect("not taken");
    for set in &before.sets {
        let list = set.tracks();
        for tt in 0..list.len() {
            let kept = kept(set, before.h, tt);
            let left = extents(set, kept.len());
            let back = &list[kept.len()..];
            let mut desk = desk.clone();
            let call = Call::Release { name: set.name.to_vec(), ttr: (tt as u32) << 8 | 1 };
            let made = desk.call(call.clone());
            if is_full(&before, set, back, &left) {
                made.refused(11);
                counts[2] += 1;
                continue;
            }
            made.gave_back(back.len() as u32);
            let after = picture(&desk.table).expect("not taken");
            let set_after = after.sets.iter().find(|other| other.name == set.name);
            assert_eq!(set_after.expect("still there").extents, left);
            let mut ledger = Ledger::of(&before);
            ledger.enter(&call, made.result, &made.answer);
            assert!(ledger.agrees(&after));
            counts[usize::from(kept.len() == tt + 1)] += 1;
        }
    }
}

#[test]
fn on_volumes_from_elsewhere() {
    let mut counts = [0; 3];
    for seed in 0..150 {
        compare(Session::elsewhere(seed).table(), &mut counts);
    }
    let [more, just, refused] = counts;
    assert!(more > 1_000 && just > 3_000 && refused > 50, "{more}, {just}, {refused}");
}

/// Volumes of all shapes, a few times in their lives.
#[test]
fn on_our_own_volumes() {
    let mut counts = [0; 3];
    lives(20, 24, |table| compare(table, &mut counts));
    let [more, just, _] = counts;
    assert!(more > 1_000 && just > 10_000, "{more}, {just}");
}
