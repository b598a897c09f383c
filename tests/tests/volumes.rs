//! The benchmark's volumes and names are what its page says of them.

use std::collections::HashSet;

use vtoc_tests::audit::picture;
use vtoc_tests::generate::glance::glance;
use vtoc_tests::generate::rng::Rng;
use vtoc_tests::reference::name::obeys;
use vtoc_tests::volumes::{survey_three_counters, survey_two_counters};
use vtoc_tests::{irregular, naming};

/// Records, H, and the fewest data sets, extents and format 5s.
fn holds(table: &[u8], records: usize, heads: u32, fewest: [usize; 3]) {
    let glance = glance(table).expect("a format 4");
    let extents: usize = glance.sets.iter().map(|set| set.extents.len()).sum();
    let found = [glance.sets.len(), extents, glance.format_5s.len()];
    assert!(picture(table).is_some(), "sound for the audit too");
    assert_eq!((table.len() / 140, glance.geometry.heads), (records, heads));
    assert!(found.iter().zip(fewest).all(|(&found, fewest)| found >= fewest), "{found:?}");
}

#[test]
fn volumes_hold_what_they_should() {
    holds(&survey_two_counters(), 468, 19, [461, 461, 1]);
    holds(&survey_three_counters(), 468, 19, [461, 461, 1]);
    holds(&irregular::random_names(), 468, 15, [446, 500, 10]);
    holds(&irregular::small(), 48, 15, [20, 100, 2]);
    holds(&irregular::medium(), 195, 19, [100, 700, 5]);
    holds(&irregular::many_extents(), 468, 255, [250, 1700, 18]);
    holds(&irregular::many_format_5s(), 468, 255, [180, 2600, 95]);
}

#[test]
fn irregular_sets_lie_in_no_order() {
    for table in [irregular::medium(), irregular::many_extents(), irregular::many_format_5s()] {
        let sets = glance(&table).expect("a format 4").sets;
        let steps: Vec<_> = sets.iter().flat_map(|set| set.extents.windows(2)).collect();
        let back = steps.iter().filter(|step| step[1].0 < step[0].0).count();
        assert!(4 * back > steps.len(), "{back} steps back of {}", steps.len());
    }
}

#[test]
fn names_of_each_kind_are_lawful_and_differ() {
    let counted = |kind: fn(usize) -> [u8; 44]| (0..462).map(kind).collect::<Vec<_>>();
    for names in [
        counted(naming::one_counter),
        counted(naming::two_counters),
        counted(naming::two_counters_far),
        counted(naming::three_counters),
        naming::distinct_random(&mut Rng::new(1), 462),
        naming::crafted(20),
    ] {
        assert!(names.iter().all(obeys));
        assert_eq!(names.iter().collect::<HashSet<_>>().len(), names.len());
    }
}
