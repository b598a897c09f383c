//! The computed cases: complete, the same each time, and printed as agreed.

use vtoc_tests::call::{Call, NO_DATE, TODAY};
use vtoc_tests::cases::{coverage, print, sequences, size};
use vtoc_tests::desk::Desk;
use vtoc_tests::short::{expiring, scratch_on, to_packed, to_stored, tracks};
use vtoc_tests::volumes::name;

#[test]
fn digests() {
    assert_eq!(print::digest(&[]), 0);
    assert_eq!(print::digest(&[0]), 1);
    assert_eq!(print::digest(&[0, 0]), 258);
    assert_eq!(print::digest(&[255; 3]), (256 * 257 + 256) * 257 + 256);
    // Beyond the modulus: 2^61 − 1.
    let long: u128 = (0..12).fold(0, |h, _| h * 257 + 1) % ((1 << 61) - 1);
    assert_eq!(u128::from(print::digest(&[0; 12])), long);
}

#[test]
fn all_is_covered() {
    let sequences = sequences();
    assert_eq!(coverage(&sequences).missing(&[]), [""; 0]);
    assert_eq!(sequences.len(), 45);
    let rows: usize = sequences.iter().map(|sequence| sequence.desk.rows.len()).sum();
    assert!((300..=1100).contains(&rows), "{rows} rows");
    let small = sequences.iter().filter(|s| size(s).0 <= 60 && size(s).1 <= 16).count();
    assert!(small + 3 >= sequences.len(), "more than three sequences on large volumes");
}

#[test]
fn the_same_each_time() {
    for (one, two) in sequences().iter().zip(&sequences()) {
        assert_eq!(print::sequence("s", "t", &one.desk), print::sequence("s", "t", &two.desk));
    }
}

#[test]
fn rows_as_agreed() {
    let mut desk = Desk::default();
    desk.initialise(0, 5, 4, 1, 2).refused(1);
    desk.initialise(4, 5, 4, 1, 2).accepted();
    desk.tracks("AB", 4, 1).accepted();
    desk.release("AB", 1, 2).accepted();
    desk.scratch("").refused(4);
    desk.lspace().accepted();
    let mut damaged = desk.table.clone();
    damaged[0] = 0;
    damaged[280] = 0x41;
    desk.hurt(&damaged, Call::Obtain { name: name("AB").to_vec() });
    desk.sized(1119, 24, 280, Call::Rename { old: vec![0xC1; 3], new: vec![0xC2; 44] });
    desk.sized(1120, 23, 0, Call::Initialise { c: 4, h: 5, d: 4, s: 1, v: 2 });
    assert_eq!(desk.listed(&damaged, 1120), "E 3\n");
    assert_eq!(desk.listed(&desk.table.clone(), 0), "E 2\n");
    desk.parts(140, 139);
    let table = desk.table.clone();
    let release = Call::Release { name: name("AB").to_vec(), ttr: 0x101 };
    desk.preview(&release).accepted();
    desk.preview(&Call::Extend { name: name("A").to_vec() }).refused(5);
    desk.hurt(&damaged, release.preview().expect("there is one"));
    desk.sized(1119, 24, 280, release.preview().expect("there is one"));
    desk.call(to_stored(&[0, 0, 0, 0x1F])).converted(&[0, 0, 1]);
    desk.call(to_stored(&NO_DATE)).refused(14);
    desk.call(to_packed(&[])).refused(2);
    desk.call(to_packed(&[0xFF; 3])).refused(14);
    desk.call(expiring(tracks("A", 1, 0), &[1, 2, 3, 4, 5])).refused(2);
    desk.call(scratch_on("A", &TODAY, u32::MAX)).refused(5);
    let text = print::sequence("sequence9", "Title", &desk);
    let lines: Vec<&str> = text.lines().collect();
    assert_eq!(lines[..4], ["", "-- Title", "abbrev pub sequence9 : List Row", "sequence9 ="]);
    assert_eq!(lines[4], "    begin 0 5 4 1 2 1 0x0");
    assert!(lines[5].starts_with("    ∷ begin 4 5 4 1 2 0 0x"));
    let granted = "0x401000300040000000000000000000000000000000000";
    let ok = "    ∷ ok (allocate (request (nm (0xC1 ∷ 0xC2 ∷ [])) (attr 2) 0 0 4 1 0 noDate))";
    assert!(lines[6].starts_with(&format!("{ok} {granted} 0x")), "{}", lines[6]);
    assert!(lines[7].contains("(release (nm (0xC1 ∷ 0xC2 ∷ [])) 0x102)"));
    assert_eq!(lines[8], "    ∷ no (scratch (nm []) (date 4 0x0080365F) 0) 4");
    assert!(lines[9].starts_with("    ∷ ok lspace 0x"));
    let patches = "((0 , 0x00) ∷ (280 , 0x41) ∷ [])";
    let obtain = "(obtain (nm (0xC1 ∷ 0xC2 ∷ [])))";
    assert_eq!(lines[10], format!("    ∷ hurt {patches} {obtain} 3"));
    let old = "(raw 3 (0xC1 ∷ 0xC1 ∷ 0xC1 ∷ []))";
    assert!(lines[11].starts_with(&format!("    ∷ sized 1119 24 280 (rename {old} (nm (0xC2")));
    assert_eq!(lines[12], "    ∷ beginSized 4 5 4 1 2 1120 23 2");
    let (unsound, length) = (print::digest(b"E 3\n"), print::digest(b"E 2\n"));
    assert_eq!(lines[13], format!("    ∷ listed {patches} 1120 {unsound:#X}"));
    assert_eq!(lines[14], format!("    ∷ listed [] 0 {length:#X}"));
    assert_eq!(lines[15], format!("    ∷ parts 140 139 {:#X}", print::digest(&[0; 18])));
    let (preview, after) =
        ("(preview (release (nm (0xC1 ∷ 0xC2 ∷ [])) 0x101))", print::digest(&table));
    assert_eq!(lines[16], format!("    ∷ ok {preview} 0x0 {after:#X}"));
    assert_eq!(lines[17], "    ∷ no (preview (extend (nm (0xC1 ∷ [])))) 5");
    assert_eq!(lines[18], format!("    ∷ hurt {patches} {preview} 3"));
    assert_eq!(lines[19], format!("    ∷ sized 1119 24 280 {preview} 2"));
    let zeros = "0".repeat(42);
    assert_eq!(lines[20], format!("    ∷ told (dateToStored (date 4 0x0000001F)) 0x1{zeros}"));
    assert_eq!(lines[21], "    ∷ untold (dateToStored noDate) 14");
    assert_eq!(lines[22], "    ∷ untold (dateToPacked (date 0 0x0)) 2");
    assert_eq!(lines[23], "    ∷ untold (dateToPacked (date 3 0xFFFFFF)) 14");
    let request = "(request (nm (0xC1 ∷ [])) (attr 7) 0 0 1 0 0 (date 5 0x0102030405))";
    assert_eq!(lines[24], format!("    ∷ no (allocate {request}) 2"));
    let today = "(date 4 0x0080365F) 4294967295";
    assert_eq!(lines[25], format!("    ∷ no (scratch (nm (0xC1 ∷ [])) {today}) 5"));
    assert_eq!(lines[26], "    ∷ []");
}
