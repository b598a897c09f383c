//! How times grow: by records and tracks, and by the number of names.

use super::row::{time_in_rounds, Effort, Row};
use super::volume::{regular, Volume};
use crate::call::Call;
use crate::generate::rng::Rng;
use crate::naming;
use crate::volumes::{fresh, name, place_name, scattered};

/// The same calls on volumes of growing size: one grows in records and data sets, the other in
/// tracks.
pub fn print_by_size(effort: Effort) {
    println!("\nObtain (the check and a lookup) and an allocate of one track, by records N and tracks T.\n");
    println!("| N | T | Data sets | Obtain | Unrelated | Ratio | Allocate | Unrelated | Ratio |\n|---:|---:|---:|---:|---:|---:|---:|---:|---:|");
    // N = V x D records with a data set in nearly each; T = C x 15 tracks.
    let by_records = [(2, 10, 8), (4, 20, 64), (4, 50, 168), (9, 52, 440)]
        .map(|(v, d, sets)| (1000, v, d, sets));
    let by_tracks = [67, 500, 2000, 4369].map(|c| (c, 4, 20, 64));
    let shapes: Vec<_> = by_records.into_iter().chain(by_tracks).collect();
    let volumes: Vec<Volume> = shapes
        .iter()
        .map(|&(c, v, d, sets)| regular("", scattered(c, 15, d, 1, v, sets)))
        .collect();
    let calls = || [Call::Obtain { name: name("BENCH.SET").to_vec() }, Volume::allocation(0, 1)];
    let mut rows: Vec<_> = volumes
        .iter()
        .flat_map(|grown| calls().map(|call| Row::call(&grown.table, call, 0)))
        .collect();
    time_in_rounds(rows.iter_mut(), effort);
    for ((c, v, d, sets), pair) in shapes.into_iter().zip(rows.chunks(2)) {
        let columns: Vec<_> = pair.iter().map(Row::times_and_ratio).collect();
        println!("| {} | {} | {} | {} |", v * d, c * 15, sets + 1, columns.join(" | "));
    }
}

/// Numbers of names, and the records of the table that holds them: six on each VTOC track.
const NAMES: [usize; 4] = [58, 115, 231, 462];
const RECORDS_A_TRACK: usize = 6;

/// LSPACE on full tables, by the number of names and their kind.
pub fn print_by_names(effort: Effort) {
    println!("\nLSPACE (the check and sums) by number of names and their kind, a track for each on a table with hardly a record more.
One counter: PAYROLL.D0001. Two, eight bytes apart: SURVEY.FLT0302.STRIP08; sixteen: SURVEY.FLT0302.SECTION.STRIP08. Three:
SURVEY.BLK03.LINE07.STRIP12. Random: 1 to 44 characters. Crafted: CRAFTED.A0000000 and on, those that have one tag, by which
the library tells names apart before it compares them.\n");
    println!("| Kind | Names | Library | Unrelated | Ratio |\n|---|---:|---:|---:|---:|");
    let kinds = kinds();
    let cases: Vec<_> = kinds
        .iter()
        .flat_map(|(kind, names)| NAMES.map(|count| (kind, count, full_table(&names[..count]))))
        .collect();
    let mut rows: Vec<_> =
        cases.iter().map(|(_, _, table)| Row::call(table, Call::Lspace, 0)).collect();
    time_in_rounds(rows.iter_mut(), effort);
    for ((kind, count, _), row) in cases.iter().zip(&rows) {
        println!("| {kind} | {count} | {} |", row.times_and_ratio());
    }
}

type Names = Vec<[u8; 44]>;

fn kinds() -> [(&'static str, Names); 6] {
    let most = NAMES[3];
    let counted = |kind: fn(usize) -> [u8; 44]| (0..most).map(kind).collect();
    let rng = &mut Rng::new(1);
    [
        ("one counter", counted(naming::one_counter)),
        ("two counters, eight bytes apart", counted(naming::two_counters)),
        ("two counters, sixteen bytes apart", counted(naming::two_counters_far)),
        ("three counters", counted(naming::three_counters)),
        ("random", naming::distinct_random(rng, most)),
        ("crafted", naming::crafted(most)),
    ]
}

/// A table with these names and hardly a record more.
fn full_table(names: &[[u8; 44]]) -> Vec<u8> {
    // The format 4 and a format 5 besides.
    let tracks = (names.len() + 2).div_ceil(RECORDS_A_TRACK);
    let mut table = fresh(1000, 15, RECORDS_A_TRACK as u32, 1, tracks as u32);
    names.iter().for_each(|name| place_name(&mut table, name, 0, 0, 1, 0));
    table
}
