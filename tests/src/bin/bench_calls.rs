//! The library beside the reference, call by call, in one run: tables in Markdown, with a ratio for
//! each row. `bench_calls` prints the end of docs/PERFORMANCE.md; `bench_calls --short` is quick and
//! rough; `bench_calls --store DIR` writes each row's table and its call as a record, for
//! tests/instructions.

use std::fs::write;

use vtoc_tests::bench::dates::conversions;
use vtoc_tests::bench::growth::{print_by_names, print_by_size};
use vtoc_tests::bench::page::{print_calls, processor, HEAD};
use vtoc_tests::bench::row::Effort;
use vtoc_tests::bench::volume::{print_volumes, volumes};
use vtoc_tests::call::{Call, CALL_NAMES};
use vtoc_tests::replay::record;

/// DIR/N.table and DIR/N.call for each row, and DIR/rows: N, the call's name, volume and title. Of the
/// conversions of dates the first one, with a table that they do not look at.
fn store(directory: &str) {
    let (mut rows, mut number) = (String::new(), 0);
    let mut add = |table: &[u8], call: &Call, volume: &str, what: &str| {
        let path = format!("{directory}/{number}");
        let record = record(call, table.len(), 24, 280).expect("lengths as they must be");
        write(format!("{path}.table"), table).expect("the directory is there");
        write(format!("{path}.call"), record).expect("the directory is there");
        let name = CALL_NAMES[call.index()];
        rows += &format!("{number}\t{name}\t{volume}\t{what}\n");
        number += 1;
    };
    for volume in volumes(false) {
        for timed in volume.calls() {
            add(timed.table, &timed.call, volume.title, &timed.what);
        }
    }
    for (what, calls) in conversions() {
        add(&[0; 140], &calls[0], "no volume", what);
    }
    write(format!("{directory}/rows"), rows).expect("the directory is there");
}

fn main() {
    let words: Vec<String> = std::env::args().collect();
    if let [_, option, directory] = &words[..] {
        assert_eq!(option, "--store");
        return store(directory);
    }
    let short = words.get(1).is_some_and(|word| word == "--short");
    let effort = if short {
        Effort { rounds: 1, batches: 20 }
    } else {
        println!("{HEAD}\nProcessor: {}.\n", processor());
        Effort { rounds: 10, batches: 60 }
    };
    let volumes = volumes(short);
    print_volumes(&volumes);
    print_calls(&volumes, effort);
    if !short {
        println!("\n## Growth");
        print_by_size(effort);
        print_by_names(effort);
    }
}
