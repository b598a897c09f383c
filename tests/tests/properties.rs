//! Random and hostile calls over many volumes: what must hold whatever the calls are.

use vtoc_tests::audit::{dates, picture, Picture, Set};
use vtoc_tests::call::{Call, Reference};
use vtoc_tests::coverage::Coverage;
use vtoc_tests::generate::damage::{damage, DAMAGES};
use vtoc_tests::generate::rng::Rng;
use vtoc_tests::generate::session::{Origin, Session};
use vtoc_tests::generate::shapes::{Shape, SHAPES};
use vtoc_tests::ledger::Ledger;
use vtoc_tests::reference::{listing, taken};

/// Runs a session. After each call: refused, nothing is written; accepted, the table is
/// taken by the check and by the audit, and says what the ledger says.
fn run(mut session: Session, calls: usize, coverage: &mut Coverage) {
    let begun = |session: &Session| Ledger::of(&picture(session.table()).expect("sound"));
    let mut ledger = begun(&session);
    let mut left = session.table().to_vec();
    for _ in 0..calls {
        let trial = session.next_trial();
        if left != session.table() {
            // Another table without a call, of which the ledger cannot know: units have changed.
            ledger = begun(&session);
        }
        let mut buffers = trial.buffers.clone();
        let result = trial.call.run(&Reference, &mut buffers);
        let before = &trial.buffers.table;
        let (after, answer) = (&buffers.table, &buffers.answer);
        coverage.count(&trial.call, trial.origin, result, before, after, answer);
        judge_dates(&trial.call, result, before, answer, after);
        judge_extend(&trial.call, result, before, answer, after);
        if result != 0 {
            assert_eq!(buffers, trial.buffers, "{result} {:?}", trial.call);
            assert_eq!(taken(before), picture(before).is_some());
            let any_table = converts(&trial.call) || matches!(trial.call, Call::Initialise { .. });
            assert!(any_table || result <= 2 || taken(before) == (result != 3));
            continue;
        }
        if converts(&trial.call) {
            // On any table, which stays.
            assert_eq!((after, &buffers.labels), (before, &trial.buffers.labels));
            continue;
        }
        let seen = picture(&buffers.table).expect("an accepted call leaves a sound table");
        assert!(taken(&buffers.table));
        if !matches!(trial.call, Call::Obtain { .. }) {
            assert_eq!(buffers.labels, trial.buffers.labels);
        }
        if trial.origin == Origin::Live {
            ledger.enter(&trial.call, result, &buffers.answer);
            assert!(ledger.agrees(&seen), "{:?}", trial.call);
        }
        session.keep(&trial, buffers.table);
        left = session.table().to_vec();
    }
}

/// What the audit says of an extend and of its preview: the refusal, the pieces and the extents after.
fn judge_extend(call: &Call, result: u32, before: &[u8], answer: &[u8], after: &[u8]) {
    let (extended, is_preview) = match call {
        Call::Preview(of) => (&**of, true),
        call => (call, false),
    };
    let Call::Extend { name } = extended else { return };
    if [2, 3, 4].contains(&result) {
        return;
    }
    let before = picture(before).expect("not refused with 3");
    let expected = before.extend(name);
    assert_eq!(result, expected.as_ref().err().copied().unwrap_or(0), "{call:?}");
    let Ok(growth) = expected else { return };
    assert_eq!(pieces(answer), growth.pieces);
    let after = picture(after).expect("an accepted call leaves a sound table");
    let others = |picture: &Picture| -> Vec<Set> {
        picture.sets.iter().filter(|set| set.name != **name).cloned().collect()
    };
    assert_eq!(others(&after), others(&before));
    let set = after.sets.iter().find(|set| set.name == **name).expect("still there");
    let was = before.sets.iter().find(|set| set.name == **name).expect("found");
    let extents = if is_preview { &was.extents } else { &growth.extents };
    assert_eq!(&set.extents, extents, "{call:?}");
}

/// Start and count of the pieces in an answer.
fn pieces(answer: &[u8]) -> Vec<(u32, u32)> {
    let words = answer[3..23].chunks_exact(2).map(|w| u32::from(w[0]) << 8 | u32::from(w[1]));
    let words: Vec<u32> = words.collect();
    words.chunks_exact(2).take(answer[2].into()).map(|piece| (piece[0], piece[1])).collect()
}

/// Whether it is the conversion of a date, which looks at no table.
fn converts(call: &Call) -> bool {
    matches!(call, Call::DateToStored { .. } | Call::DateToPacked { .. })
}

/// What the audit says of the dates: the refusals 13 and 14, what is stored and what is converted.
fn judge_dates(call: &Call, result: u32, before: &[u8], answer: &[u8], after: &[u8]) {
    let expiry_of = |table: &[u8], name: &[u8]| -> Option<Vec<u8>> {
        let sets = picture(table)?.sets;
        sets.iter().find(|set| set.name == *name).map(|set| set.expiry().to_vec())
    };
    let call = if let Call::Preview(call) = call { call } else { call };
    match call {
        Call::Allocate { name, expiry, .. } if ![2, 3, 4].contains(&result) => {
            let stored = dates::expiry(expiry);
            assert_eq!(result == 14, stored.is_none(), "{expiry:02X?}");
            let made = expiry_of(after, name).filter(|_| result == 0 && before != after);
            assert!(made.is_none_or(|made| Some(&made[..]) == stored.as_ref().map(|s| &s[..])));
        }
        Call::Scratch { name, today, overriding } if ![2, 3, 4].contains(&result) => {
            let day = dates::of_packed(today).map(|(year, day)| dates::stored(year, day));
            let expected = match (day, expiry_of(before, name)) {
                (None, _) => 14,
                (_, None) => 5,
                (Some(day), Some(date)) if dates::is_later(&date, &day) && *overriding == 0 => 13,
                _ => 0,
            };
            assert_eq!(result, expected, "{call:02X?}");
        }
        Call::DateToStored { packed } if result != 2 => {
            let other = dates::of_packed(packed).map(|(year, day)| dates::stored(year, day));
            assert_eq!(other.as_ref().map(|date| &date[..]), (result == 0).then(|| &answer[..3]));
        }
        Call::DateToPacked { stored } if result != 2 => {
            let other = dates::of_stored(stored).map(|(year, day)| dates::packed(year, day));
            assert_eq!(other.as_ref().map(|date| &date[..]), (result == 0).then(|| &answer[..4]));
        }
        _ => {}
    }
}

#[test]
fn random_calls() {
    let mut coverage = Coverage::default();
    // SESSIONS=5000 cargo test random_calls: for a long run.
    let sessions = std::env::var("SESSIONS").ok().and_then(|text| text.parse().ok());
    for seed in 0..sessions.unwrap_or(240) {
        let session = Session::new(seed).with_previews().with_dates();
        let calls = if session.shape == Shape::Large { 60 } else { 380 };
        run(session, calls, &mut coverage);
        run(Session::elsewhere(seed).with_previews().with_dates(), 40, &mut coverage);
        run(Session::touching(seed).with_previews().with_dates(), 40, &mut coverage);
    }
    println!("{coverage}");
    assert_eq!(coverage.missing(&[]), [""; 0], "not seen");
}

#[test]
fn every_damage_is_judged_alike() {
    for (seed, &shape) in (0..60).zip(SHAPES[..5].iter().cycle()) {
        let mut session = Session::of_shape(seed, shape);
        let mut rng = Rng::new(seed);
        for _ in 0..3 {
            run_quietly(&mut session, 60);
            for &kind in DAMAGES {
                for _ in 0..4 {
                    let Some(damaged) = damage(&mut rng, session.table(), kind) else { continue };
                    assert_eq!(taken(&damaged), picture(&damaged).is_some(), "{kind:?} {seed}");
                }
            }
        }
    }
}

fn run_quietly(session: &mut Session, calls: usize) {
    for _ in 0..calls {
        let trial = session.next_trial();
        let mut buffers = trial.buffers.clone();
        trial.call.run(&Reference, &mut buffers);
        session.keep(&trial, buffers.table);
    }
}

/// Every byte of a small worn volume, changed in several ways: the check and the audit,
/// which share nothing, judge alike.
#[test]
fn every_single_byte_is_judged_alike() {
    for shape in [Shape::Tiny, Shape::Stretched, Shape::Worn] {
        let mut session = Session::of_shape(7, shape);
        run_quietly(&mut session, 150);
        let mut table = session.table().to_vec();
        assert!(taken(&table));
        for at in 0..table.len() {
            let kept = table[at];
            for value in [kept.wrapping_add(1), kept.wrapping_sub(1), kept ^ 0x80, 0, 1, 0x40] {
                table[at] = value;
                assert_eq!(taken(&table), picture(&table).is_some(), "{at} {value:02X}");
            }
            table[at] = kept;
        }
    }
}

#[test]
fn listings_say_what_the_audit_sees() {
    for seed in 0..40 {
        let mut session = Session::new(seed);
        run_quietly(&mut session, 60);
        let seen = picture(session.table()).expect("sound");
        let mut text = format!("V {} {} {}\n", seen.c, seen.h, seen.c * seen.h);
        for set in &seen.sets {
            let name: String = set.name.iter().filter(|&&b| b != 0x40).map(|&b| ascii(b)).collect();
            text += &format!("D {name} {} {}\n", set.tracks().len(), set.extents.len());
        }
        for (start, length) in seen.free {
            text += &format!("F {start} {length}\n");
        }
        text += &format!("S {}\n", seen.format_0s);
        assert_eq!(String::from_utf8(listing(session.table())).unwrap(), text);
    }
}

/// The character of a name byte, found by looking for it in the other direction.
fn ascii(byte: u8) -> char {
    let letters = b"ABCDEFGHIJKLMNOPQRSTUVWXYZ0123456789.-$#@";
    let found = letters.iter().find(|&&c| vtoc_tests::volumes::ebcdic(c) == byte);
    char::from(*found.expect("a name character"))
}

/// Bytes of any kind and length, and wild numbers: no panic, and no call but initialise
/// takes them.
#[test]
fn noise_is_refused() {
    let mut rng = Rng::new(1);
    for _ in 0..3000 {
        let length = match rng.below(3) {
            0 => rng.below(3000),
            1 => 140 * rng.below(20),
            _ => 140 * (465 + rng.below(6)),
        };
        let table: Vec<u8> = (0..length).map(|_| rng.byte()).collect();
        assert!(!taken(&table));
        assert!(listing(&table).starts_with(b"E "));
    }
}
