//! The proved check beside the reference's, in one run.

use std::hint::black_box;

use vtoc_tests::proved::check;
use vtoc_tests::reference::taken;
use vtoc_tests::timing::time_both;
use vtoc_tests::volumes::{many_extents, many_names, medium, small};

fn measure(label: &str, table: Vec<u8>) {
    let [proved, reference] = time_both(
        || assert_eq!(black_box(check(black_box(&table))), 0),
        || assert!(black_box(taken(black_box(&table)))),
    );
    let ratio = proved / reference;
    println!("{label:<14}{:>9}{proved:>10.2}{reference:>11.2}{ratio:>8.2}", table.len());
}

fn main() {
    println!("microseconds per check of a sound table");
    println!("{:<14}{:>9}{:>10}{:>11}{:>8}", "volume", "bytes", "proved", "reference", "ratio");
    measure("small", small());
    measure("medium", medium());
    measure("many names", many_names());
    measure("many extents", many_extents());
}
