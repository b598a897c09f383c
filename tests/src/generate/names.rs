//! Names, lawful and not.

use super::rng::Rng;

const LETTERS: [u8; 9] = [0xC1, 0xC9, 0xD1, 0xD9, 0xE2, 0xE9, 0x5B, 0x7B, 0x7C];
const OTHERS: [u8; 4] = [0xF0, 0xF9, 0x60, 0xF5];

/// One of `variety` lawful names, so that a small variety often meets itself again.
pub fn lawful(rng: &mut Rng, variety: usize) -> Vec<u8> {
    let mut own = Rng::new(rng.below(variety) as u64);
    let most = if own.chance(10) { 22 } else { 3 };
    let parts = 1 + own.below(most);
    let mut name: Vec<u8> = vec![];
    for _ in 0..parts {
        let length = if parts > 4 { 1 } else { 1 + own.below(8) };
        if name.len() + 1 + length > 44 {
            break;
        }
        if !name.is_empty() {
            name.push(0x4B);
        }
        name.extend((0..length).map(|i| character(&mut own, i == 0)));
    }
    name.resize(44, 0x40);
    name
}

fn character(rng: &mut Rng, leading: bool) -> u8 {
    let letter = *rng.pick(&LETTERS).expect("letters");
    let other = *rng.pick(&OTHERS).expect("others");
    if leading || rng.chance(60) {
        letter
    } else {
        other
    }
}

/// Bytes that are most likely no name: random, or a lawful one with a fault.
pub fn unlawful(rng: &mut Rng) -> Vec<u8> {
    let mut name = lawful(rng, 1000);
    let length = name.iter().position(|&b| b == 0x40).unwrap_or(44);
    match rng.below(9) {
        0 => name = vec![0x40; 44],
        1 => name = (0..44).map(|_| rng.byte()).collect(),
        2 => name[0] = *rng.pick(&[0xF0, 0x60, 0x4B, 0x40, 0xC0, 0xCA, 0xE1, 0x00]).expect("some"),
        3 => name[length - 1] = 0x4B,
        4 => name[43] = 0xC1,
        5 => name[rng.below(length)] = rng.byte(),
        // A part of nine; without a period.
        6 => name[..9].fill(0xC1),
        // Two periods together, or one at the end.
        7 => name[1..3].fill(0x4B),
        _ => name = [0xC1, 0x4B].repeat(22),
    }
    name
}
