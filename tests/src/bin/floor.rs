//! floor.c's check beside the reference's, on the tables of `outside`: what the benchmark shows as
//! its time must be that of a whole check.

use std::process::ExitCode;

use vtoc_tests::agreement::beside_reference;
use vtoc_tests::floor;

fn main() -> ExitCode {
    beside_reference(floor::check, false)
}
