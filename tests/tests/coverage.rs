//! A run that sees too little says so.

use vtoc_tests::call::{CALL_NAMES, RESULTS};
use vtoc_tests::coverage::{
    Coverage, DATES, EACH, FEATURES, FULL_VOLUMES, JOINS, OPTIONS, PREVIEWS, RELEASES, VOLUMES,
    WHOLE, WIDE, WIDE_PREVIEWS,
};

/// Just enough of everything.
fn enough() -> Coverage {
    let mut coverage = Coverage::default();
    for (call, results) in RESULTS.iter().enumerate() {
        for &result in *results {
            coverage.results.insert((call, result), EACH);
        }
    }
    let features = FEATURES.into_iter().chain(OPTIONS).chain(RELEASES).chain(PREVIEWS);
    for feature in features
        .chain(JOINS)
        .chain(DATES)
        .chain(VOLUMES)
        .chain(WIDE)
        .chain(WIDE_PREVIEWS)
        .chain(FULL_VOLUMES)
    {
        coverage.features.insert(feature, 1);
    }
    coverage
}

/// Accepted, and the refusals of each call, which its preview has too: `RESULTS` is what a run is held
/// to.
#[test]
fn every_result_is_due() {
    let expected: [(&str, &[u32]); 14] = [
        ("initialise", &[0, 1, 2]),
        ("allocate", &[0, 2, 3, 4, 6, 7, 9, 11, 14]),
        ("extend", &[0, 2, 3, 4, 5, 8, 9, 10, 11]),
        ("release", &[0, 2, 3, 4, 5, 11, 12]),
        ("scratch", &[0, 2, 3, 4, 5, 13, 14]),
        ("rename", &[0, 2, 3, 4, 5, 6]),
        ("obtain", &[0, 2, 3, 4, 5]),
        ("lspace", &[0, 2, 3]),
        ("preview_allocate", &[0, 2, 3, 4, 6, 7, 9, 11, 14]),
        ("preview_extend", &[0, 2, 3, 4, 5, 8, 9, 10, 11]),
        ("preview_release", &[0, 2, 3, 4, 5, 11, 12]),
        ("preview_scratch", &[0, 2, 3, 4, 5, 13, 14]),
        ("date_to_stored", &[0, 2, 14]),
        ("date_to_packed", &[0, 2, 14]),
    ];
    for (call, expected) in expected.into_iter().enumerate() {
        let mut due = RESULTS[call].to_vec();
        due.sort();
        assert_eq!((CALL_NAMES[call], &due[..]), expected);
    }
}

#[test]
fn enough_is_enough() {
    assert_eq!(EACH, 10);
    assert_eq!(WHOLE, 150_000);
    assert_eq!(enough().too_few(WHOLE), Vec::<String>::new());
    assert_eq!(Coverage::default().too_few(WHOLE - 1), Vec::<String>::new());
}

#[test]
fn nothing_seen_names_everything() {
    let due = RESULTS.iter().map(|results| results.len()).sum::<usize>();
    let of_calls = FEATURES.len() + OPTIONS.len() + RELEASES.len() + PREVIEWS.len();
    let features = of_calls + JOINS.len() + DATES.len() + VOLUMES.len();
    let besides = WIDE.len() + WIDE_PREVIEWS.len() + FULL_VOLUMES.len();
    assert_eq!(Coverage::default().too_few(WHOLE).len(), due + features + besides);
    assert_eq!(Coverage::default().missing(&[]).len(), due + features);
}

#[test]
fn each_that_is_missing_is_named() {
    for &(call, result) in enough().results.keys() {
        let name = format!("{} {result}", CALL_NAMES[call]);
        let mut coverage = enough();
        coverage.results.insert((call, result), EACH - 1);
        assert_eq!(coverage.too_few(WHOLE), [format!("{name}: {}", EACH - 1)]);
        coverage.results.remove(&(call, result));
        assert_eq!(coverage.too_few(WHOLE), [name.clone()]);
        assert_eq!(coverage.missing(&[]), [name]);
    }
    for feature in enough().features.into_keys() {
        let mut coverage = enough();
        coverage.features.remove(feature);
        assert_eq!(coverage.too_few(WHOLE), [feature]);
    }
}
