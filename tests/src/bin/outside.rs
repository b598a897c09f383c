//! The proved check beside the reference's own, on tables as calls leave them and on damaged ones;
//! before that, the ten bytes of an extent. `outside --idle` sees too little, and must fail.

use std::process::ExitCode;

use vtoc_tests::agreement::{beside_reference, extents_beside_reference};
use vtoc_tests::proved;

fn main() -> ExitCode {
    let words: Vec<String> = std::env::args().skip(1).collect();
    let is_idle = words == ["--idle"];
    if !words.is_empty() && !is_idle {
        eprintln!("usage: outside [--idle]");
        return ExitCode::from(2);
    }
    if let Err(difference) = extents_beside_reference(proved::extent) {
        eprintln!("{difference}");
        return ExitCode::FAILURE;
    }
    beside_reference(proved::check, is_idle)
}
