//! Arguments that no honest caller passes: wrong lengths, bad names, wild numbers.

use super::names;
use super::rng::Rng;
use crate::call::{Buffers, Call};
use crate::desk::attributes_of;

const WILD: [u32; 14] = [
    0,
    1,
    2,
    3,
    255,
    256,
    65_534,
    65_535,
    65_536,
    16_777_215,
    16_777_216,
    1 << 31,
    u32::MAX - 1,
    u32::MAX,
];

fn wild(rng: &mut Rng) -> u32 {
    *rng.pick(&WILD).expect("numbers")
}

/// Spoils one argument of the call, which is no preview, or one length.
pub fn spoil(rng: &mut Rng, call: &mut Call, buffers: &mut Buffers) {
    match rng.below(10) {
        0 => buffers.answer.resize([0, 1, 23, 25, 140][rng.below(5)], 0xA5),
        1 => buffers.labels.resize([0, 139, 140, 279, 281, 420][rng.below(6)], 0x5A),
        2 => spoil_table_length(rng, &mut buffers.table),
        3 | 4 => spoil_name_length(rng, call),
        5 | 6 => spoil_name(rng, call),
        _ => spoil_number(rng, call),
    }
}

/// One byte or one record more or less, or a length far off.
fn spoil_table_length(rng: &mut Rng, table: &mut Vec<u8>) {
    let len = table.len();
    let wrong = match rng.below(9) {
        0 => len.saturating_sub(1),
        1 => len + 1,
        2 => len.saturating_sub(140),
        3 => len + 140,
        4 => [0, 1, 140, 280][rng.below(4)],
        5 => 3 * 140,
        6 => 468 * 140,
        7 => 469 * 140,
        _ => rng.below(70_000),
    };
    table.resize(wrong, 0);
}

fn names_of(call: &mut Call) -> Vec<&mut Vec<u8>> {
    match call {
        Call::Allocate { name, .. }
        | Call::Extend { name }
        | Call::Release { name, .. }
        | Call::Scratch { name, .. }
        | Call::Obtain { name } => vec![name],
        Call::Rename { old, new } => vec![old, new],
        Call::Initialise { .. }
        | Call::Lspace
        | Call::DateToStored { .. }
        | Call::DateToPacked { .. } => vec![],
        Call::Preview(call) => names_of(call),
    }
}

fn spoil_name_length(rng: &mut Rng, call: &mut Call) {
    if let Call::Allocate { attributes, .. } = call {
        if rng.chance(50) {
            *attributes = attributes_of([0, 51, 53, 104][rng.below(4)], rng.byte());
            return;
        }
    }
    let mut names = names_of(call);
    let count = names.len();
    if let Some(name) = names.get_mut(rng.below(count)) {
        name.resize([0, 1, 43, 45, 88][rng.below(5)], 0x40);
    }
}

fn spoil_name(rng: &mut Rng, call: &mut Call) {
    let mut names = names_of(call);
    let count = names.len();
    if let Some(name) = names.get_mut(rng.below(count)) {
        **name = names::unlawful(rng);
    }
}

fn spoil_number(rng: &mut Rng, call: &mut Call) {
    match call {
        Call::Allocate { kind, start, amount, secondary, option, .. } => match rng.below(6) {
            0 => *kind = wild(rng),
            1 => *start = wild(rng),
            2 => *amount = wild(rng),
            3 => *secondary = wild(rng),
            // On an absolute request each of them is wrong; 0 to 3 are for other kinds.
            4 => *option = rng.range(1, 4),
            _ => *option = wild(rng),
        },
        Call::Release { ttr, .. } => {
            *ttr = if rng.chance(50) { rng.word() as u32 } else { wild(rng) }
        }
        Call::Initialise { c, h, d, s, v } => *[c, h, d, s, v][rng.below(5)] = wild(rng),
        _ => {}
    }
}
