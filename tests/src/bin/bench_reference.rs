//! How long the reference takes per call, on a small, a medium and two large volumes.

use std::hint::black_box;

use vtoc_tests::call::{MXIG, NO_DATE, NO_OPTION, TODAY};
use vtoc_tests::reference::{
    allocate, extend, listing, lspace, obtain, preview_allocate, preview_scratch, release, rename,
    taken,
};
use vtoc_tests::timing::time;
use vtoc_tests::volumes::{
    many_extents, many_names, medium, name, scratch, set_name, small, ANSWER, ATTRIBUTES,
};

fn accepted(result: u32) {
    assert_eq!(black_box(result), 0);
}

/// Allocate of a track, or of the longest free extent.
fn one_track(table: &mut [u8], name: &[u8], option: u32) -> u32 {
    allocate(table, name, &ATTRIBUTES, 0, 0, 1, 1, option, &NO_DATE, &mut [0; ANSWER])
}

fn measure(label: &str, mut table: Vec<u8>, present: &str) {
    let (present, fresh) = (name(present), name("BENCH.FRESH"));
    let mut answer = [0; ANSWER];
    let mut labels = [0; 280];
    let before = table.clone();
    let check = time(|| assert!(black_box(taken(black_box(&table)))));
    let inquiry = time(|| accepted(lspace(black_box(&table), &mut answer)));
    let read = time(|| accepted(obtain(&table, &present, &mut labels, &mut answer)));
    let list = time(|| drop(black_box(listing(black_box(&table)))));
    let seen = time(|| {
        let (of, none, date) = (&ATTRIBUTES, NO_OPTION, &NO_DATE);
        accepted(preview_allocate(&table, &fresh, of, 0, 0, 1, 1, none, date, &mut answer));
        accepted(preview_scratch(&table, &present, &TODAY, 0, &mut answer));
    });
    let names = time(|| {
        accepted(rename(&mut table, &present, &fresh, &mut answer));
        accepted(rename(&mut table, &fresh, &present, &mut answer));
    }) / 2.0;
    // Pairs that undo each other; shown is the pair, so no call hides behind another.
    let grant = time(|| {
        accepted(one_track(&mut table, &fresh, NO_OPTION));
        accepted(scratch(&mut table, &fresh));
    });
    let longest = time(|| {
        accepted(one_track(&mut table, &fresh, MXIG));
        accepted(scratch(&mut table, &fresh));
    });
    accepted(one_track(&mut table, &fresh, NO_OPTION));
    let growth = time(|| {
        accepted(extend(&mut table, &fresh, &mut answer));
        accepted(release(&mut table, &fresh, 1, &mut answer));
    });
    accepted(scratch(&mut table, &fresh));
    assert!(table == before, "the benchmark must leave the table as it was");
    println!(
        "{label:<14}{check:>9.2}{inquiry:>9.2}{read:>9.2}{list:>9.2}{names:>9.2}{seen:>10.2}{grant:>14.2}{longest:>14.2}{growth:>15.2}"
    );
}

fn main() {
    println!("microseconds per call (pairs: for both calls)");
    println!(
        "{:<14}{:>9}{:>9}{:>9}{:>9}{:>9}{:>10}{:>14}{:>14}{:>15}",
        "volume",
        "check",
        "lspace",
        "obtain",
        "listing",
        "rename",
        "previews",
        "alloc+scratch",
        "MXIG+scratch",
        "extend+release"
    );
    measure("small", small(), "FLT.C");
    measure("medium", medium(), &set_name(50));
    measure("many names", many_names(), &set_name(400));
    measure("many extents", many_extents(), &set_name(150));
}
