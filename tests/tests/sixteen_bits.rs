//! Document 02, [4]: tables that look sound where sums wrap at 65,536 are refused; and each of them
//! would be taken by a program that leaves out the stops of its kind.

use std::collections::{BTreeMap, BTreeSet};

use vtoc_tests::audit::picture;
use vtoc_tests::cases::sequences;
use vtoc_tests::desk::Row;
use vtoc_tests::generate::glance::glance;
use vtoc_tests::generate::wrapped::{
    bases, every, full_volumes, kinds, one_of_each, Astray, Digits, Kind, Length, Wrapped,
    FULL_HEADS,
};
use vtoc_tests::reference::{listing, lspace, taken};
use vtoc_tests::stops::{judge, Numbers, Stop, WAYS};

/// Tries of each kind on each sound table, and the fewest tables of a kind.
const TRIES: usize = 4;
const LEAST: usize = 10;

/// Reference, audit and both right programs, each by every way.
#[track_caller]
fn all_say(table: &[u8], sound: bool, what: &str) {
    assert_eq!(taken(table), sound, "reference: {what}");
    assert_eq!(picture(table).is_some(), sound, "audit: {what}");
    for numbers in [Numbers::Exact, Numbers::sixteen()] {
        for way in WAYS {
            assert_eq!(judge(table, &numbers, way).taken, sound, "{way:?}, {numbers:?}: {what}");
        }
    }
}

#[test]
fn sound_tables_are_taken() {
    for (i, table) in bases().iter().enumerate() {
        all_say(table, true, &format!("base {i}"));
    }
}

/// For every H: extents of both kinds, sixteen of them in a set, and up to three format 5s.
#[test]
fn full_volumes_are_as_described() {
    let (mut ends_taken, mut ends_free) = (BTreeSet::new(), BTreeSet::new());
    for table in full_volumes() {
        let seen = glance(&table).expect("sound");
        let g = seen.geometry;
        assert_eq!(g.tracks(), 65_535);
        assert!(seen.sets.iter().any(|set| set.extents.len() == 16));
        let mut extents = seen.sets.iter().flat_map(|set| &set.extents);
        if extents.any(|&(start, length)| start + length == 65_535) {
            ends_taken.insert(g.heads);
        }
        if seen.holes.last().is_some_and(|&(start, length)| start + length == 65_535) {
            ends_free.insert(g.heads);
        }
    }
    assert_eq!(ends_taken, BTreeSet::from(FULL_HEADS));
    assert_eq!(ends_free, BTreeSet::from(FULL_HEADS));
    let chains = bases().iter().map(|table| glance(table).expect("sound").format_5s.len()).max();
    assert_eq!(chains, Some(3));
}

#[test]
fn wrapped_tables_are_refused() {
    every(TRIES, |Wrapped { kind, table }| {
        all_say(table, false, &format!("{kind:?}"));
        assert_eq!(lspace(table, &mut [0; 24]), 3);
        assert_eq!(listing(table), b"E 3\n");
    });
}

/// The stops that a table goes past, which are shown to be needed: without them it is taken, and with
/// any one of them put back it is not.
fn stops_left_out(kind: Kind, table: &[u8]) -> BTreeSet<Stop> {
    let free = judge(table, &Numbers::SixteenWithoutAny, kind.way());
    assert!(free.taken, "{kind:?} is taken by no program");
    let takes = |stops: &BTreeSet<Stop>| {
        judge(table, &Numbers::SixteenWithout(stops.clone()), kind.way()).taken
    };
    assert!(takes(&free.passed), "{kind:?} {:?}", free.passed);
    for stop in &free.passed {
        let mut others = free.passed.clone();
        others.remove(stop);
        assert!(!takes(&others), "{kind:?} is taken with the stop {stop:?}");
    }
    free.passed
}

/// What the tables of a kind show.
#[derive(Default)]
struct Seen {
    tables: usize,
    stops: BTreeSet<Stop>,
    /// Stops that, left out alone, take a table.
    alone: BTreeSet<Stop>,
}

fn seen_by_kind() -> BTreeMap<Kind, Seen> {
    let mut seen: BTreeMap<Kind, Seen> = BTreeMap::new();
    every(TRIES, |Wrapped { kind, table }| {
        let stops = stops_left_out(*kind, table);
        let seen = seen.entry(*kind).or_default();
        seen.tables += 1;
        if stops.len() == 1 {
            seen.alone.extend(&stops);
        }
        seen.stops.extend(stops);
    });
    seen
}

/// Kinds in which each stop must be seen alone: nothing else is wrong with their numbers.
fn is_by_one_stop(kind: Kind) -> bool {
    use vtoc_tests::generate::wrapped::Which::Both;
    match kind {
        Kind::Extent(_, which, Digits::Below) | Kind::Vtoc(which, Digits::Below) => which != Both,
        Kind::Address(_, astray) => !matches!(astray, Astray::TrackWide | Astray::BeforeVtoc),
        Kind::Entry(_, length) => length != Length::WrappedOdd,
        Kind::Extent(..) | Kind::Vtoc(..) => false,
        Kind::VtocPast(_) | Kind::ExtentBackwards | Kind::VolumeOf65536 => false,
        _ => true,
    }
}

#[test]
fn each_kind_would_be_taken_without_its_stops() {
    let seen = seen_by_kind();
    let mut stops = BTreeSet::new();
    for kind in kinds() {
        let Some(seen) = seen.get(&kind) else { panic!("no table: {kind:?}") };
        assert!(seen.tables >= LEAST, "{} tables: {kind:?}", seen.tables);
        let named: BTreeSet<Stop> = kind.stops().into_iter().collect();
        assert_eq!(seen.stops, named, "{kind:?}");
        if is_by_one_stop(kind) {
            assert_eq!(seen.alone, named, "alone: {kind:?}");
        }
        println!("{:>5}  {kind:?}: {:?}", seen.tables, seen.stops);
        stops.extend(named);
    }
    assert_eq!(seen.len(), kinds().len());
    assert!(one_of_each().keys().eq(seen.keys()));
    // Each stop that there is: 7 CCHHs with product, sum and the rule on HH; for 3 of them, which are
    // addresses, four steps to the slot; entry 4, VTOC 4, extent 2, volume 2, the total of all.
    assert_eq!(stops.len(), 7 * 3 + 3 * 4 + 4 + 4 + 2 + 2 + 1);
}

/// The damaged tables of the computed sequence 39 would be taken too.
#[test]
fn computed_cases_would_be_taken_without_stops() {
    let (mut table, mut bad) = (vec![], BTreeSet::new());
    for row in &sequences()[39 - 1].desk.rows {
        match row {
            Row::Made { after, .. } => table.clone_from(after),
            Row::Hurt { patches, result, .. } => {
                let mut hurt = table.clone();
                patches.iter().for_each(|&(at, byte)| hurt[at] = byte);
                let wrong = |way| judge(&hurt, &Numbers::SixteenWithoutAny, way).taken;
                assert!(*result == 3 && WAYS.into_iter().any(wrong), "{patches:?}");
                all_say(&hurt, false, "computed case");
                bad.insert(hurt);
            }
            _ => panic!("{row:?}"),
        }
    }
    assert_eq!(bad.len(), 11);
}
