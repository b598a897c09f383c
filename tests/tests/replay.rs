//! Records and lines of docs/REPLAY.md.

use vtoc_tests::call::{Call, Reference, NO_DATE, TODAY};
use vtoc_tests::desk::attributes;
use vtoc_tests::recording::recording;
use vtoc_tests::replay::{adler, puts, record, Player, LINE, RECORD};
use vtoc_tests::short::{expiring, scratch, scratch_on, to_packed, to_stored};
use vtoc_tests::volumes::{name, small};

#[test]
fn adler_is_the_known_one() {
    assert_eq!(adler(b""), 1);
    assert_eq!(adler(b"Wikipedia"), 0x11E6_0398);
    assert_eq!(adler(&[0x5A; 280]), 0x0ABA_6271);
}

/// An allocate of FLT.A on a table of 1,120 bytes: its record, written out by hand, and the call.
fn allocation(kind: u8, amount: u8, option: u8) -> ([u8; RECORD], Call) {
    let mut written = [0; RECORD];
    written[..8].copy_from_slice(&[2, 44, 52, 24, 1, 24, 4, 96]);
    (written[11], written[19], written[27]) = (kind, amount, option);
    written[28..72].copy_from_slice(&name("FLT.A"));
    written[74..126].copy_from_slice(&attributes(1));
    written[128] = 4;
    let call = Call::Allocate {
        name: name("FLT.A").to_vec(),
        attributes: attributes(1),
        kind: kind.into(),
        start: 0,
        amount: amount.into(),
        secondary: 0,
        option: option.into(),
        expiry: NO_DATE.to_vec(),
    };
    (written, call)
}

/// The lines in the document, from records written out here by hand.
#[test]
fn volume_a() {
    let mut player = Player::new(&Reference);
    let mut first = [0; RECORD];
    first[..8].copy_from_slice(&[1, 0, 0, 24, 1, 24, 4, 96]);
    first[8..28].copy_from_slice(&[0, 0, 0, 4, 0, 0, 0, 5, 0, 0, 0, 4, 0, 0, 0, 1, 0, 0, 0, 2]);
    let line = player.play(&first);
    assert_eq!(line, b"01 00 000000000000000000000000000000000000000000000000 46E202CE 0ABA6271\n");

    let (second, call) = allocation(0, 4, 0);
    assert_eq!(record(&call, 1120, 24, 280), Some(second));
    let line = String::from_utf8(player.play(&second)).unwrap();
    assert!(line.starts_with("02 00 0004010003000400"), "{line}");
}

/// The option is the fifth number of an allocate, bytes 24 to 27.
#[test]
fn an_option_in_its_record() {
    let mut player = Player::new(&Reference);
    let first = Call::Initialise { c: 4, h: 5, d: 4, s: 1, v: 2 };
    player.play(&record(&first, 1120, 24, 280).expect("it fits"));
    let (second, call) = allocation(1, 2, 3);
    assert_eq!(record(&call, 1120, 24, 280), Some(second));
    let mut unknown = second;
    unknown[24] = 1;
    let line = String::from_utf8(player.play(&unknown)).unwrap();
    assert!(line.starts_with("02 07 A5A5"), "{line}");
    // All three whole cylinders, 5–19.
    let line = String::from_utf8(player.play(&second)).unwrap();
    assert!(line.starts_with("02 00 000F010005000F00"), "{line}");
}

/// The operation of a preview is X'80' above that of its call; all other bytes are the call's. The
/// table stays, and so its digest; the call has the same answer.
#[test]
fn a_preview_in_its_record() {
    let mut player = Player::new(&Reference);
    let first = Call::Initialise { c: 4, h: 5, d: 4, s: 1, v: 2 };
    player.play(&record(&first, 1120, 24, 280).expect("it fits"));
    let (made, call) = allocation(0, 4, 0);
    let mut seen = made;
    seen[0] = 0x82;
    assert_eq!(record(&call.preview().expect("there is one"), 1120, 24, 280), Some(seen));
    let answer = "000401000300040000000000000000000000000000000000";
    let line = String::from_utf8(player.play(&seen)).unwrap();
    assert_eq!(line, format!("82 00 {answer} 46E202CE 0ABA6271\n"));
    let line = String::from_utf8(player.play(&made)).unwrap();
    assert_eq!(line, format!("02 00 {answer} FF2116D0 0ABA6271\n"));
    let line = String::from_utf8(player.play(&seen)).unwrap();
    assert!(line.starts_with("82 06 A5A5"), "{line}");
}

#[test]
fn operations_of_previews() {
    let name = || name("FLT.A").to_vec();
    for (call, operation) in [
        (allocation(0, 4, 0).1, 0x82),
        (Call::Extend { name: name() }, 0x83),
        (Call::Release { name: name(), ttr: 0x010203 }, 0x84),
        (scratch("FLT.A"), 0x85),
    ] {
        let mut written = record(&call, 1120, 24, 280).expect("it fits");
        assert_eq!(written[0], operation - 0x80);
        written[0] = operation;
        assert_eq!(record(&call.preview().expect("there is one"), 1120, 24, 280), Some(written));
    }
}

/// The date is bytes 129 to 135, with its length before it; the override is the first number.
#[test]
fn dates_in_their_records() {
    let (mut written, call) = allocation(0, 4, 0);
    written[128..133].copy_from_slice(&[4, 0x01, 0x26, 0x25, 0x5F]);
    assert_eq!(record(&expiring(call, &written[129..133]), 1120, 24, 280), Some(written));

    let mut written = [0; RECORD];
    written[..12].copy_from_slice(&[5, 44, 0, 24, 1, 24, 4, 96, 0x80, 0, 0, 1]);
    written[28..72].copy_from_slice(&name("FLT.A"));
    written[128..].copy_from_slice(&[7, 1, 2, 3, 4, 5, 6, 7]);
    let today = &written[129..];
    assert_eq!(record(&scratch_on("FLT.A", today, 0x8000_0001), 1120, 24, 280), Some(written));
    assert_eq!(record(&scratch_on("FLT.A", &[0; 8], 0), 1120, 24, 280), None);

    let mut written = [0; RECORD];
    written[0] = 10;
    written[3] = 24;
    written[128..133].copy_from_slice(&[4, 0x00, 0x80, 0x36, 0x5F]);
    assert_eq!(record(&to_stored(&TODAY), 0, 24, 0), Some(written));
    written[0] = 11;
    written[128..].copy_from_slice(&[3, 80, 1, 109, 0, 0, 0, 0]);
    assert_eq!(record(&to_packed(&[80, 1, 109]), 0, 24, 0), Some(written));
}

/// Lines of conversions: the date and zeros, and the digests of what is lent of table and labels.
#[test]
fn lines_of_dates() {
    let mut player = Player::new(&Reference);
    player.table[0] = 7;
    let mut played = |call: &Call, answer: usize, length: u8| {
        let mut record = record(call, 1, answer, 280).expect("it fits");
        record[128] = length;
        String::from_utf8(player.play(&record)).unwrap()
    };
    let (zeros, untouched, ends) = ("0".repeat(40), "A5".repeat(24), "00080008 0ABA6271\n");
    let (one, other) = (to_stored(&TODAY), to_packed(&[80, 1, 109]));
    assert_eq!(played(&one, 24, 4), format!("0A 00 50016D00{zeros} {ends}"));
    assert_eq!(played(&other, 24, 3), format!("0B 00 0080365F{zeros} {ends}"));
    // Day 109 of 1980 with its bytes the other way round; zeros; every other length.
    assert_eq!(played(&to_packed(&[80, 109, 1]), 24, 3), format!("0B 14 {untouched} {ends}"));
    assert_eq!(played(&to_stored(&NO_DATE), 24, 4), format!("0A 14 {untouched} {ends}"));
    for length in [0, 1, 2, 5, 6, 7, 8, 255] {
        assert_eq!(played(&one, 24, length), format!("0A 02 {untouched} {ends}"));
        assert_eq!(played(&other, 24, length), format!("0B 02 {untouched} {ends}"));
    }
    assert_eq!(played(&one, 23, 4), format!("0A 02 {untouched} {ends}"));
}

/// Six operations above 9 are known: there is no table here, and no date.
#[test]
fn other_operations_are_unknown() {
    for operation in (10..=255).chain([0]) {
        let mut record = allocation(0, 4, 0).0;
        record[0] = operation;
        let line = String::from_utf8(Player::new(&Reference).play(&record)).unwrap();
        let result = match operation {
            10 => "14",
            11 => "02",
            0x82..=0x85 => "03",
            _ => "99",
        };
        assert!(line.starts_with(&format!("{operation:02X} {result} A5A5")), "{line}");
    }
}

#[test]
fn puts_make_one_table_of_another() {
    let (from, to) = (vec![0xEE; 1120], small());
    let mut player = Player::new(&Reference);
    player.table[..1120].copy_from_slice(&from);
    for record in puts(&from, &to) {
        assert_eq!(player.play(&record).len(), LINE);
    }
    assert_eq!(player.table[..1120], to);
    assert!(player.table[1120..].iter().all(|&byte| byte == 0));
    assert!(puts(&to, &to).is_empty());
}

#[test]
fn a_recording_plays_to_its_lines() {
    let made = recording(5, 20);
    assert_eq!(made.records.len() / RECORD, made.lines.len() / LINE);
    assert_eq!(Player::new(&Reference).play_all(&made.records), made.lines);
    // A record cut short is left out.
    let cut = &made.records[..made.records.len() - 1];
    assert_eq!(Player::new(&Reference).play_all(cut), made.lines[..made.lines.len() - LINE]);
}
