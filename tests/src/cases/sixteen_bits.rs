//! Numbers and tables that look sound where sums wrap at 65,536: document 02, [4].
//! H = 255, and 65,536 = 257 × 255 + 1.

use super::{sequence, Sequence};
use crate::call::Call;
use crate::desk::Desk;
use crate::short::*;
use crate::volumes::name;

pub fn sequences() -> Vec<Sequence> {
    vec![sixteen_bits()]
}

/// An accepted call costs the definitions a pass over all tracks: 65,535 are too many, and four cylinders do.
fn sixteen_bits() -> Sequence {
    sequence("sums that would be right modulo 65,536", |desk| {
        initialised(desk);
        desk.initialise(4, 255, 4, 1, 2).without_numbers();
        some_sets(desk);
        wrapped(desk);
        desk.scratch("B").gave_back(255);
    })
}

/// Numbers that wrap to good ones, at 65,536 and at 2^32, and the volume.
fn initialised(desk: &mut Desk) {
    // C × H: 65,536 + 16, 2^32 + 16.
    desk.initialise(4_097, 16, 4, 1, 2).refused(1);
    desk.initialise((1 << 28) + 1, 16, 4, 1, 2).refused(1);
    // V × D: 65,536 + 8. S + V: 65,536 + 1, 2^32 + 1.
    desk.initialise(257, 255, 4, 1, 16_386).refused(1);
    desk.initialise(257, 255, 4, 65_535, 2).refused(1);
    desk.initialise(257, 255, 4, u32::MAX, 2).refused(1);
    desk.initialise(257, 255, 4, 1, 2).without_numbers();
    // The VTOC up to track 16,386 = 64 × 255 + 66, free from 16,387 on: 192 × 255 + 188 tracks.
    let too_long: [Patch; 2] = [(111, &[0, 64, 0, 66]), (140 + 4, &[0x40, 0x03, 0, 192, 188])];
    hurt(desk, &too_long, tracks("A", 1, 0));
}

/// Free in the end: 511–765, one cylinder's worth. B has 3–254, 1,019, 510 and 1,018.
fn some_sets(desk: &mut Desk) {
    desk.cylinders("A", 1, 1).granted(&[(255, 255)]);
    desk.absolute("END", 766, 254).granted(&[(766, 254)]);
    desk.tracks("B", 252, 1).granted(&[(3, 252)]);
    desk.release("END", 252, 1).gave_back(1);
    desk.extend("B").granted(&[(1_019, 1)]);
    desk.extend("B").granted(&[(510, 1)]);
    desk.release("END", 251, 1).gave_back(1);
    desk.extend("B").granted(&[(1_018, 1)]);
    let reply = desk.lspace();
    assert_eq!([0, 2, 4, 6, 8, 10].map(|at| reply.word(at)), [1, 0, 1, 1, 0, 2]);
}

/// Bytes to put into a copy of the table, and where.
type Patch = (usize, &'static [u8]);

/// Two calls on such a copy, which refuse it.
fn hurt(desk: &mut Desk, patches: &[Patch], other: Call) {
    let mut damaged = desk.table.clone();
    for &(at, bytes) in patches {
        damaged[at..at + bytes.len()].copy_from_slice(bytes);
    }
    assert_eq!(desk.hurt(&damaged, Call::Lspace), 3);
    assert_eq!(desk.hurt(&damaged, other), 3);
}

/// Slots: A in 2, END in 3, B in 4, its format 3 in 5.
fn wrapped(desk: &mut Desk) {
    let extent = |slot: usize, e: usize| slot * 140 + 105 + 10 * e;
    let obtain = |text| Call::Obtain { name: name(text).to_vec() };
    // B's first track, 3: 257 × 255 + 4. A's last, 509: 259 × 255 + 0.
    hurt(desk, &[(extent(4, 0) + 2, &[1, 1, 0, 4])], extend("B"));
    hurt(desk, &[(extent(2, 0) + 6, &[1, 3, 0, 0])], obtain("A"));
    // Extent 3, track 1,018: 65,535 × 255 + 1,273, with HH not below H.
    let format_3 = 5 * 140 + 4;
    hurt(desk, &[(format_3 + 2, &[0xFF, 0xFF, 0x04, 0xF9])], scratch("B"));
    // The free extent, 255 tracks: 258 × 255 + 1; 0 × 255 + 255, which is right but for the digits.
    let free = 140 + 4;
    hurt(desk, &[(free + 2, &[1, 2, 1])], tracks("C", 1, 0));
    hurt(desk, &[(free + 2, &[0, 0, 255])], extend("A"));
    // One more: 2 tracks from 65,535 on, up to 65,536 + 1.
    hurt(desk, &[(free + 5, &[0xFF, 0xFF, 0, 0, 2])], scratch("A"));
    // B's format 3 is record 2 of track 2: 2 + 65,536 = 257 × 255 + 3. Slot 5 + 65,536 = 16,385 × 4 + 1 is
    // record 2 of track 16,386.
    let link = 4 * 140 + 135;
    hurt(desk, &[(link, &[1, 1, 0, 3])], extend("B").preview().expect("there is one"));
    hurt(desk, &[(link, &[0, 64, 0, 66])], obtain("B"));
    // The highest format 1 is slot 4. 4 + 65,536 = 16,385 × 4 is record 1 of track 16,386.
    hurt(desk, &[(45, &[0, 64, 0, 66, 1])], scratch("END"));
    // The VTOC's first track, 1: 257 × 255 + 2.
    let rename = Call::Rename { old: name("A").to_vec(), new: name("C").to_vec() };
    hurt(desk, &[(107, &[1, 1, 0, 2])], rename);
}
