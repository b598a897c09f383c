//! The program vtlist beside the reference's listing. `listings PROGRAM` runs it on the stored
//! tables and on many others, and fails at the first listing that differs. `listings --store`
//! writes the stored tables, listings/NAME.table, and what the reference lists for each,
//! listings/NAME.list; `listings --check` says whether they are those.

use std::fs::{read, read_dir, write};
use std::io::Write;
use std::path::{Path, PathBuf};
use std::process::{Command, ExitCode, Stdio};
use std::thread;

use vtoc_tests::generate::damage::{damage, Damage};
use vtoc_tests::generate::grids::sixteen;
use vtoc_tests::generate::rng::Rng;
use vtoc_tests::generate::wrapped::{full_volumes, one_of_each};
use vtoc_tests::reference::listing;
use vtoc_tests::volumes::{fresh, many_extents, many_names, medium, place, scattered, small};

/// What the program prints for an input. A thread feeds it, since it may not read all.
fn printed(program: &str, input: &[u8]) -> Vec<u8> {
    let mut child = Command::new(program)
        .stdin(Stdio::piped())
        .stdout(Stdio::piped())
        .spawn()
        .expect("the program starts");
    let mut stdin = child.stdin.take().expect("a pipe");
    let bytes = input.to_vec();
    let feeder = thread::spawn(move || drop(stdin.write_all(&bytes)));
    let output = child.wait_with_output().expect("the program ends");
    feeder.join().expect("the input is fed");
    assert!(output.status.success(), "the program fails");
    output.stdout
}

/// A volume on which no track is free.
fn full() -> Vec<u8> {
    let mut table = fresh(10, 4, 5, 1, 1);
    place(&mut table, "ALL", 0, 0, 38, 0);
    table
}

/// A set of four extents, and no track free.
fn four_extents() -> Vec<u8> {
    let mut table = fresh(10, 4, 10, 1, 1);
    for (text, start, amount) in [("A", 3, 1), ("B", 5, 1), ("C", 7, 1), ("D", 9, 31)] {
        place(&mut table, text, 2, start, amount, 0);
    }
    place(&mut table, "FOUR", 0, 0, 4, 0);
    assert!(listing(&table).windows(10).any(|line| line == b"D FOUR 4 4"), "four extents");
    table
}

/// A table with one more byte.
fn longer(mut table: Vec<u8>, byte: u8) -> Vec<u8> {
    table.push(byte);
    table
}

/// A table with the last byte of its last record changed.
fn last_byte_changed(mut table: Vec<u8>) -> Vec<u8> {
    *table.last_mut().expect("no table is empty") ^= 1;
    table
}

/// Tables of which the reference takes none.
fn damaged() -> Vec<(&'static str, Vec<u8>)> {
    let mut rng = Rng::new(4);
    let mut hurt = |name, table: &[u8], kind| {
        let unsound =
            (0..100).find_map(|_| damage(&mut rng, table, kind).filter(|t| listing(t) == b"E 3\n"));
        (name, unsound.expect("damage that is refused"))
    };
    let (a, four) = (small(), four_extents());
    vec![
        hurt("damaged-overlap", &a, Damage::Overlap),
        hurt("damaged-lost-track", &a, Damage::LostTrack),
        hurt("damaged-touching", &a, Damage::TouchingEntries),
        hurt("damaged-duplicate", &a, Damage::DuplicateName),
        hurt("damaged-name", &a, Damage::BadName),
        hurt("damaged-count", &a, Damage::Format0Count),
        hurt("damaged-highest", &a, Damage::HighestFormat1),
        hurt("damaged-zero-byte", &a, Damage::ZeroByte),
        hurt("damaged-loop", &scattered(100, 4, 20, 1, 2, 26), Damage::ChainLoop),
        hurt("damaged-format-3", &four, Damage::Format3Unnamed),
        hurt("damaged-order", &four, Damage::SwapExtents),
    ]
}

/// The stored tables by name. crates/vtlist has one more: many extents, N = 468.
fn stored() -> Vec<(&'static str, Vec<u8>)> {
    let mut tables = vec![
        ("volume-a", small()),
        ("fresh", fresh(10, 4, 5, 1, 1)),
        ("no-free-track", full()),
        ("27-free-extents", scattered(100, 4, 20, 1, 2, 26)),
        ("53-free-extents", scattered(100, 4, 30, 1, 2, 52)),
        ("four-extents", four_extents()),
        ("sixteen-extents", sixteen()),
        ("65520-bytes", many_names()),
        ("65521-bytes", longer(many_names(), 0)),
        ("65520-bytes-damaged", last_byte_changed(many_names())),
        ("empty", vec![]),
        ("one-byte", vec![0x04]),
        ("two-records", small()[..280].to_vec()),
        ("cut-short", small()[..1119].to_vec()),
    ];
    tables.extend(damaged());
    tables
}

/// Further inputs, which are not stored.
fn others() -> Vec<(String, Vec<u8>)> {
    let mut made = vec![
        ("medium".to_string(), medium()),
        ("many extents".into(), many_extents()),
        ("65,520 zeros".into(), vec![0; 65_520]),
        ("65,521 zeros".into(), vec![0; 65_521]),
        ("200,000 zeros".into(), vec![0; 200_000]),
        ("a table and more after it".into(), [many_names(), vec![0; 100_000]].concat()),
    ];
    // each byte of Volume A's end, one bit off
    for at in 0..small().len() {
        let mut table = small();
        table[at] ^= 1;
        made.push((format!("Volume A's end, byte {at} changed"), table));
    }
    made.extend(full_volumes().into_iter().map(|table| ("65,535 tracks".into(), table)));
    made.extend(one_of_each().into_iter().map(|(kind, table)| (format!("{kind:?}"), table)));
    made
}

fn directory() -> PathBuf {
    Path::new(env!("CARGO_MANIFEST_DIR")).join("listings")
}

/// The files that `--store` makes.
fn files() -> Vec<(PathBuf, Vec<u8>)> {
    let pair = |(name, table): (&str, Vec<u8>)| {
        let lines = listing(&table);
        let path = |end: &str| directory().join(format!("{name}.{end}"));
        [(path("table"), table), (path("list"), lines)]
    };
    stored().into_iter().flat_map(pair).collect()
}

fn check_stored() -> Result<(), String> {
    let files = files();
    let there = read_dir(directory()).map_err(|error| error.to_string())?.count();
    for (path, bytes) in &files {
        if read(path).ok().as_ref() != Some(bytes) {
            return Err(format!("{} is not what listings --store makes", path.display()));
        }
    }
    if there != files.len() {
        return Err(format!("listings/ has {there} files, not {}", files.len()));
    }
    println!("stored tables {}, as made", files.len() / 2);
    Ok(())
}

fn store() -> Result<(), String> {
    for (path, bytes) in files() {
        write(&path, bytes).map_err(|error| format!("{}: {error}", path.display()))?;
    }
    Ok(())
}

/// Runs the program on what is stored, as it is stored, and on the others.
fn compare(program: &str) -> Result<(), String> {
    let mut inputs = others();
    let others = inputs.len();
    let mut expected: Vec<Vec<u8>> = inputs.iter().map(|(_, input)| listing(input)).collect();
    for (name, _) in stored() {
        let file = |end: &str| {
            let path = directory().join(format!("{name}.{end}"));
            read(&path).map_err(|error| format!("{}: {error}", path.display()))
        };
        inputs.push((name.into(), file("table")?));
        expected.push(file("list")?);
    }
    for ((what, input), expected) in inputs.iter().zip(&expected) {
        if printed(program, input) != *expected {
            return Err(format!("{what}: the listing differs"));
        }
    }
    let refused = expected.iter().filter(|lines| lines.starts_with(b"E")).count();
    let (all, stored) = (inputs.len(), inputs.len() - others);
    println!("listings {all}, of them stored {stored}, refused {refused}, all alike");
    Ok(())
}

fn main() -> ExitCode {
    let outcome = match std::env::args().nth(1).as_deref() {
        Some("--store") => store(),
        Some("--check") => check_stored(),
        Some(program) => check_stored().and_then(|()| compare(program)),
        None => Err("usage: listings PROGRAM | --store | --check".into()),
    };
    match outcome {
        Ok(()) => ExitCode::SUCCESS,
        Err(error) => {
            println!("{error}");
            ExitCode::FAILURE
        }
    }
}
