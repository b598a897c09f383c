//! Document 02, [4], by hand: bytes put into document 01's Volume A and others, with the sums that
//! wrap. 65,536 = 13,107 × 5 + 1 = 257 × 255 + 1.

use vtoc_tests::audit::picture;
use vtoc_tests::desk::Desk;
use vtoc_tests::reference::{lspace, taken};
use vtoc_tests::stops::{judge, Numbers, Way, WAYS};

/// Bytes to put, and where.
type Patch = (usize, &'static [u8]);

/// The table is taken, and a copy with these bytes is refused with 3, though some program that lets sums
/// wrap would take it.
#[track_caller]
fn refused(table: &[u8], patches: &[Patch]) {
    let mut bad = table.to_vec();
    for &(at, bytes) in patches {
        bad[at..at + bytes.len()].copy_from_slice(bytes);
    }
    assert!(bad != table && taken(table) && picture(table).is_some());
    assert!(!taken(&bad) && picture(&bad).is_none());
    assert_eq!(lspace(&bad, &mut [0; 24]), 3);
    let wrong = |&way: &Way| judge(&bad, &Numbers::SixteenWithoutAny, way).taken;
    assert!(WAYS.iter().any(wrong), "no wrong program takes it");
}

/// Volume A after step 3: FLT.A in slot 2 has 3–6, FLT.B 10–14, FLT.C in slot 4 15–19 and 7–8; free 9.
fn volume_a() -> Desk {
    let mut desk = Desk::begin(4, 5, 4, 1, 2);
    desk.tracks("FLT.A", 4, 0).accepted();
    desk.cylinders("FLT.B", 1, 0).accepted();
    desk.tracks("FLT.C", 7, 0).accepted();
    desk
}

const FLT_A: usize = 2 * 140 + 105;

#[test]
fn tracks_of_an_extent() {
    let table = volume_a().table;
    assert_eq!(table[FLT_A..FLT_A + 10], [0x01, 0, 0, 0, 0, 3, 0, 1, 0, 1]);
    // First: 3 + 65,536 = 13,107 × 5 + 4. The product is 65,535, the sum goes past.
    refused(&table, &[(FLT_A + 2, &[0x33, 0x33, 0, 4])]);
    // Last: 6 + 65,536 = 13,108 × 5 + 2. The product goes past.
    refused(&table, &[(FLT_A + 6, &[0x33, 0x34, 0, 2])]);
    refused(&table, &[(FLT_A + 2, &[0x33, 0x33, 0, 4]), (FLT_A + 6, &[0x33, 0x34, 0, 2])]);
    // 3 + 4 × 65,536 = 52,429 × 5 + 2, the greatest with HH below 5.
    refused(&table, &[(FLT_A + 2, &[0xCC, 0xCD, 0, 2])]);
    // 65,535 × 5 + 8 = 5 × 65,536 + 3, and HH is not below 5.
    refused(&table, &[(FLT_A + 2, &[0xFF, 0xFF, 0, 8])]);
    // 1 × 5 + 65,534 = 65,536 + 3.
    refused(&table, &[(FLT_A + 2, &[0, 1, 0xFF, 0xFE])]);
}

#[test]
fn a_free_extent() {
    let table = volume_a().table;
    let entry = 140 + 4;
    assert_eq!(table[entry..entry + 5], [0, 9, 0, 0, 1]);
    // 1 + 65,536 = 13,107 × 5 + 2.
    refused(&table, &[(entry + 2, &[0x33, 0x33, 2])]);
    // 1 + 4 × 65,536 = 52,429 × 5 + 0.
    refused(&table, &[(entry + 2, &[0xCC, 0xCD, 0])]);
    // One more, of 65,536 = 13,107 × 5 + 1 tracks from 20 on.
    refused(&table, &[(entry + 5, &[0, 20, 0x33, 0x33, 1])]);
    // One more, which ends at 65,531 + 25 = 65,536 + 20.
    refused(&table, &[(entry + 5, &[0xFF, 0xFB, 0, 5, 0])]);
    // Step 8: 8 tracks from 7 are 1 × 5 + 3. 0 × 5 + 8 are as many.
    let mut desk = volume_a();
    desk.scratch("FLT.B").gave_back(5);
    desk.release("FLT.C", 4, 1).gave_back(2);
    assert_eq!(desk.table[entry..entry + 5], [0, 7, 0, 1, 3]);
    refused(&desk.table, &[(entry + 2, &[0, 0, 8])]);
}

#[test]
fn addresses() {
    let table = volume_a().table;
    // Slot 4 is record 1 of track 2.
    assert_eq!(table[45..50], [0, 0, 0, 2, 1]);
    // Track 2 + 65,536 = 13,107 × 5 + 3.
    refused(&table, &[(45, &[0x33, 0x33, 0, 3, 1])]);
    // 4 + 65,536 = 16,385 × 4 + 0: record 1 of track 1 + 16,385 = 3,277 × 5 + 1.
    refused(&table, &[(45, &[0x0C, 0xCD, 0, 1, 1])]);
    // Record 5 of track 1, where there are four.
    refused(&table, &[(45, &[0, 0, 0, 1, 5])]);
}

#[test]
fn the_vtoc() {
    let table = volume_a().table;
    assert_eq!(table[105..115], [0x01, 0, 0, 0, 0, 1, 0, 0, 0, 2]);
    // 1 + 65,536 = 13,107 × 5 + 2, 2 + 65,536 one more.
    refused(&table, &[(107, &[0x33, 0x33, 0, 2])]);
    refused(&table, &[(111, &[0x33, 0x33, 0, 3])]);
    refused(&table, &[(107, &[0x33, 0x33, 0, 2, 0x33, 0x33, 0, 3])]);
}

/// 4,097 × 16 = 65,536 + 16, 61,441 × 16 = 15 × 65,536 + 16.
#[test]
fn cylinders() {
    let table = Desk::begin(1, 16, 4, 1, 2).table;
    refused(&table, &[(62, &[0x10, 0x01])]);
    refused(&table, &[(62, &[0xF0, 0x01])]);
    // 512 × 128 = 65,536, a sixteen-bit 0, and its last track is 65,535: 65,533 tracks from 3 on are
    // free, 511 × 128 + 125.
    let table = Desk::begin(511, 128, 4, 1, 2).table;
    refused(&table, &[(62, &[2, 0]), (140 + 4, &[0, 3, 1, 0xFF, 125])]);
}

/// D = 4: 16,386 tracks have 65,544 records, which are 8 and 65,536. The VTOC's last track is
/// 1,092 × 15 + 6; 49,148 tracks are left from 16,387 on, 3,276 × 15 + 8.
#[test]
fn records_of_the_vtoc() {
    let table = Desk::begin(4_369, 15, 4, 1, 2).table;
    refused(&table, &[(111, &[0x04, 0x44, 0, 6]), (140 + 4, &[0x40, 0x03, 0x0C, 0xCC, 8])]);
}

/// T = 65,535. Track 65,535 is 257 × 255 + 0, and one after it 65,536.
#[test]
fn one_track_too_far() {
    let mut desk = Desk::begin(257, 255, 4, 1, 1);
    let free = 140 + 4;
    // 65,533 tracks from 2 are 256 × 255 + 253.
    assert_eq!(desk.table[free..free + 5], [0, 2, 1, 0, 253]);
    refused(&desk.table, &[(free + 4, &[254])]);
    desk.absolute("END", 65_000, 535).granted(&[(65_000, 535)]);
    // 65,534 is 256 × 255 + 254.
    assert_eq!(desk.table[FLT_A + 6..FLT_A + 10], [1, 0, 0, 254]);
    refused(&desk.table, &[(FLT_A + 6, &[1, 1, 0, 0])]);
    // One more extent, 65,535 alone, or all from 0 to it.
    let second = FLT_A + 10;
    refused(&desk.table, &[(339, &[2]), (second, &[1, 1, 1, 1, 0, 0, 1, 1, 0, 0])]);
    refused(&desk.table, &[(339, &[2]), (second, &[1, 1, 0, 0, 0, 0, 1, 1, 0, 0])]);
}

/// Tracks 2 to 65,534 twice and three of them once more: 65,536 too many.
#[test]
fn tracks_in_two_extents() {
    let mut desk = Desk::begin(257, 255, 4, 1, 1);
    desk.tracks("ALL", 65_533, 0).granted(&[(2, 65_533)]);
    let all = [1, 0, 0, 0, 0, 2, 1, 0, 0, 254];
    assert_eq!(desk.table[FLT_A..FLT_A + 10], all);
    let again = (FLT_A + 10, &[1, 1, 0, 0, 0, 2, 1, 0, 0, 254, 1, 2, 0, 0, 0, 2, 0, 0, 0, 4][..]);
    refused(&desk.table, &[(339, &[3]), again]);
}

/// Initialise: numbers that wrap to good ones, at 65,536 and at 2^32.
#[test]
fn initialise() {
    let mut desk = Desk::default();
    // C × H: 65,552, 16,777,215 = 65,535 + 255 × 65,536, 2^32 + 16.
    desk.initialise(4_097, 16, 4, 1, 2).refused(1);
    desk.initialise(65_793, 255, 4, 1, 2).refused(1);
    desk.initialise((1 << 28) + 1, 16, 4, 1, 2).refused(1);
    // V × D: 65,544 and 2^32 + 8.
    desk.initialise(257, 255, 4, 1, 16_386).refused(1);
    desk.initialise(257, 255, 4, 1, (1 << 30) + 2).refused(1);
    // S + V: 65,537 and 2^32 + 1.
    desk.initialise(257, 255, 4, 65_535, 2).refused(1);
    desk.initialise(257, 255, 4, u32::MAX, 2).refused(1);
    desk.initialise(257, 255, 4, 65_533, 2).without_numbers();
}
