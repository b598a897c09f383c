//! Document 01's Volume A: every step and every figure of it.

use vtoc_tests::audit::picture;
use vtoc_tests::desk::{attributes, Desk};
use vtoc_tests::reference::listing;
use vtoc_tests::volumes::name;

const FORMAT_0: [u8; 140] = [0; 140];

/// The free extents that the format 5 chain must hold now.
#[track_caller]
fn free(desk: &Desk, runs: &[(u32, u32)]) {
    assert_eq!(picture(&desk.table).expect("not taken").free, runs);
}

fn fresh() -> Desk {
    Desk::begin(4, 5, 4, 1, 2)
}

fn after_step_1() -> Desk {
    let mut desk = fresh();
    desk.tracks("FLT.A", 4, 0).granted(&[(3, 4)]);
    desk
}

fn after_step_2() -> Desk {
    let mut desk = after_step_1();
    desk.cylinders("FLT.B", 1, 0).granted(&[(10, 5)]);
    desk
}

fn after_step_3() -> Desk {
    let mut desk = after_step_2();
    desk.tracks("FLT.C", 7, 0).granted(&[(15, 5), (7, 2)]);
    desk
}

fn after_step_6() -> Desk {
    let mut desk = after_step_3();
    desk.scratch("FLT.B").gave_back(5);
    desk.release("FLT.C", 4, 1).gave_back(2);
    desk
}

#[test]
fn initialise_writes_every_byte() {
    let desk = fresh();
    assert_eq!(desk.table.len(), 8 * 140);
    let mut format_4 = FORMAT_0;
    format_4[..44].fill(0x04);
    format_4[44] = 0xF4;
    format_4[51] = 6;
    format_4[59] = 0x01;
    format_4[63] = 4;
    format_4[65] = 5;
    format_4[74] = 4;
    // Tracks 1 and 2: type, number, CCHH 0000 0001, CCHH 0000 0002.
    format_4[105..115].copy_from_slice(&[0x01, 0, 0, 0, 0, 1, 0, 0, 0, 2]);
    assert_eq!(desk.slot(0), format_4);
    let mut format_5 = FORMAT_0;
    format_5[..4].fill(0x05);
    // Entry 3, 3 cylinders, 2 tracks.
    format_5[4..9].copy_from_slice(&[0, 3, 0, 3, 2]);
    format_5[44] = 0xF5;
    assert_eq!(desk.slot(1), format_5);
    assert!((2..8).all(|k| desk.slot(k) == FORMAT_0));
    free(&desk, &[(3, 17)]);
    assert_eq!(listing(&desk.table), b"V 4 5 20\nF 3 17\nS 6\n");
}

#[test]
fn step_1_allocate_tracks() {
    let desk = after_step_1();
    let mut format_1 = FORMAT_0;
    format_1[..44].copy_from_slice(&name("FLT.A"));
    assert_eq!(format_1[..6], [0xC6, 0xD3, 0xE3, 0x4B, 0xC1, 0x40]);
    format_1[44] = 0xF1;
    let bytes = attributes(1);
    // No expiry date: zeros in the place of three attribute bytes.
    format_1[45..56].copy_from_slice(&bytes[..11]);
    format_1[59] = 1;
    format_1[60..94].copy_from_slice(&bytes[14..48]);
    format_1[94] = 0x80;
    format_1[101..105].copy_from_slice(&bytes[48..]);
    format_1[105..115].copy_from_slice(&[0x01, 0x00, 0, 0, 0, 3, 0, 1, 0, 1]);
    assert_eq!(desk.slot(2), format_1);
    // The highest format 1 is slot 2, address 0000 0001 03; five format 0s are left.
    assert_eq!(desk.slot(0)[45..52], [0, 0, 0, 1, 3, 0, 5]);
    assert_eq!(desk.slot(1)[4..14], [0, 7, 0, 2, 3, 0, 0, 0, 0, 0]);
    free(&desk, &[(7, 13)]);
}

#[test]
fn step_2_allocate_a_cylinder() {
    let desk = after_step_2();
    assert_eq!(desk.slot(3)[94], 0xC0);
    assert_eq!(desk.slot(3)[105..115], [0x81, 0, 0, 2, 0, 0, 0, 2, 0, 4]);
    assert_eq!(desk.slot(0)[45..52], [0, 0, 0, 1, 4, 0, 4]);
    free(&desk, &[(7, 3), (15, 5)]);
}

#[test]
fn step_3_two_pieces_longest_first() {
    let mut desk = after_step_2();
    desk.clone().tracks("FLT.X", 3, 0).granted(&[(7, 3)]);
    let reply = desk.tracks("FLT.C", 7, 0);
    reply.granted(&[(15, 5), (7, 2)]);
    let mut answer = [0; 24];
    answer[..11].copy_from_slice(&[0, 7, 2, 0, 15, 0, 5, 0, 7, 0, 2]);
    assert_eq!(reply.answer, answer);
    // Slot 4 is record 1 of track 2.
    assert_eq!(desk.slot(0)[45..52], [0, 0, 0, 2, 1, 0, 3]);
    assert_eq!(desk.slot(4)[59], 2);
    assert_eq!(desk.slot(4)[105..115], [0x01, 0, 0, 3, 0, 0, 0, 3, 0, 4]);
    assert_eq!(desk.slot(4)[115..125], [0x01, 1, 0, 1, 0, 2, 0, 1, 0, 3]);
    free(&desk, &[(9, 1)]);
}

#[test]
fn step_4_refusals() {
    let mut desk = after_step_3();
    desk.tracks("FLT.D", 2, 0).refused(9);
    desk.absolute("FLT.D", 19, 2).refused(7);
    desk.absolute("FLT.D", 6, 1).refused(9);
    assert_eq!(desk.table, after_step_3().table);
}

#[test]
fn step_5_scratch_joins() {
    let mut desk = after_step_3();
    desk.scratch("FLT.B").gave_back(5);
    free(&desk, &[(9, 6)]);
    assert_eq!(desk.slot(3), FORMAT_0);
    assert_eq!(desk.slot(1)[4..14], [0, 9, 0, 1, 1, 0, 0, 0, 0, 0]);
    assert_eq!(desk.slot(0)[45..52], [0, 0, 0, 2, 1, 0, 4]);
}

#[test]
fn step_6_release() {
    let mut desk = after_step_3();
    desk.scratch("FLT.B").gave_back(5);
    desk.release("FLT.C", 7, 1).refused(12);
    desk.release("FLT.C", 4, 1).gave_back(2);
    free(&desk, &[(7, 8)]);
    assert_eq!(desk.slot(4)[59], 1);
    assert_eq!(desk.slot(4)[98..101], [0, 4, 1]);
    assert_eq!(desk.slot(4)[105..115], [0x01, 0, 0, 3, 0, 0, 0, 3, 0, 4]);
    assert_eq!(desk.slot(4)[115..140], [0; 25]);
}

#[test]
fn step_7_rename() {
    let mut desk = after_step_6();
    desk.rename("FLT.C", "FLT.C").refused(6);
    desk.rename("FLT.C", "FLT.A").refused(6);
    desk.rename("FLT.C", "FLT.E").without_numbers();
    desk.rename("FLT.E", "FLT.C").without_numbers();
    assert_eq!(desk.table, after_step_6().table);
}

#[test]
fn step_8_space_inquiry_and_listing() {
    let mut desk = after_step_6();
    let reply = desk.lspace();
    reply.accepted();
    let mut answer = [0; 24];
    answer[..12].copy_from_slice(&[0, 1, 0, 3, 0, 1, 0, 1, 0, 3, 0, 4]);
    assert_eq!(reply.answer, answer);
    let text = "V 4 5 20\nD FLT.A 4 1\nD FLT.C 5 1\nF 7 8\nS 4\n";
    assert_eq!(String::from_utf8(listing(&desk.table)).unwrap(), text);
}

#[test]
fn obtain_copies_the_labels() {
    let mut desk = after_step_6();
    let reply = desk.obtain("FLT.C");
    reply.without_numbers();
    assert_eq!(reply.labels[..140], *desk.slot(4));
    assert_eq!(reply.labels[140..], FORMAT_0);
    desk.obtain("FLT.B").refused(5);
}

#[test]
fn listing_of_refused_tables() {
    let desk = after_step_6();
    assert_eq!(listing(&desk.table[1..]), b"E 2\n");
    assert_eq!(listing(&[]), b"E 2\n");
    assert_eq!(listing(&vec![0; 140 * 469]), b"E 2\n");
    assert_eq!(listing(&desk.table[..140 * 7]), b"E 3\n");
    let mut damaged = desk.table.clone();
    damaged[139] = 1;
    assert_eq!(listing(&damaged), b"E 3\n");
}
