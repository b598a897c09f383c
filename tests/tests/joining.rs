//! Document 02, [6], sentence by sentence, with figures worked out by hand. H is 5 where nothing else is
//! said: cylinders 5–9, 10–14, 15–19 and so on.

use vtoc_tests::audit::{picture, table_with, Extent, Picture, Set};
use vtoc_tests::call::Call;
use vtoc_tests::desk::{Desk, Outcome};
use vtoc_tests::ledger::Ledger;
use vtoc_tests::short::{extend, release, scratch};
use vtoc_tests::volumes::{name, open_slots};

const TRACKS: u8 = 0x80;
const CYLINDERS: u8 = 0xC0;

/// A volume of 60 tracks, the VTOC on track 1, in which A has these extents, these tracks are free and
/// others have all the rest.
struct Volume {
    h: u32,
    unit: u8,
    secondary: u32,
    extents: Vec<Extent>,
    /// Start and length.
    free: Vec<(u32, u32)>,
    /// Format 0s.
    spare: usize,
}

/// A volume with a slot to spare.
fn volume(unit: u8, secondary: u32, extents: &[Extent], free: &[(u32, u32)]) -> Volume {
    let (extents, free) = (extents.to_vec(), free.to_vec());
    Volume { h: 5, unit, secondary, extents, free, spare: 1 }
}

/// The same where each track is a cylinder, of a set of tracks.
fn fine(secondary: u32, extents: &[Extent], free: &[(u32, u32)]) -> Volume {
    Volume { h: 1, ..volume(TRACKS, secondary, extents, free) }
}

impl Volume {
    fn desk(&self) -> Desk {
        let mut is_others = [true; 60];
        let own = self.extents.iter().map(|&(_, first, last)| first..last + 1);
        let free = self.free.iter().map(|&(start, length)| start..start + length);
        for track in own.chain(free).chain(std::iter::once(0..2)).flatten() {
            is_others[track as usize] = false;
        }
        let tracks: Vec<u32> = (0..60).filter(|&track| is_others[track as usize]).collect();
        let runs = tracks.chunk_by(|one, next| one + 1 == *next);
        let others: Vec<Extent> = runs.map(|run| (0x01, run[0], run[run.len() - 1])).collect();
        let mut slots = 2..;
        let mut labels = |extents: &[Extent]| {
            let format_1 = slots.next().expect("endless");
            (format_1, (extents.len() > 3).then(|| slots.next().expect("endless")))
        };
        let (slot, format_3) = labels(&self.extents);
        let own = self.extents.clone();
        let mut sets = vec![Set::new(slot, format_3, name("A"), self.unit, self.secondary, own)];
        for (i, extents) in others.chunks(16).enumerate() {
            let (slot, format_3) = labels(extents);
            sets.push(Set::new(slot, format_3, name(&format!("W{i}")), 0, 0, extents.to_vec()));
        }
        let records = slots.start + self.spare;
        let table = table_with([60 / self.h, self.h, records as u32, 1, 1], sets).expect("sound");
        assert_eq!(open_slots(&table), self.spare);
        Desk { table, rows: vec![] }
    }

    /// A's extents after an extend, which grants these pieces.
    #[track_caller]
    fn extended(&self, pieces: &[(u32, u32)]) -> Vec<Extent> {
        let mut desk = self.desk();
        extended(&mut desk, pieces);
        extents(&desk)
    }

    /// An extend that is refused.
    #[track_caller]
    fn refused(&self, refusal: u32) {
        let mut desk = self.desk();
        assert_eq!(seen(&desk).extend(&name("A")), Err(refusal));
        desk.seen_and_made(extend("A")).refused(refusal);
    }
}

fn seen(desk: &Desk) -> Picture {
    picture(&desk.table).expect("not taken")
}

fn extents(desk: &Desk) -> Vec<Extent> {
    seen(desk).sets[0].extents.clone()
}

/// Extends A, which its preview shows; the audit and the ledger agree.
#[track_caller]
fn extended(desk: &mut Desk, pieces: &[(u32, u32)]) -> Outcome {
    let before = seen(desk);
    let outcome = desk.seen_and_made(extend("A"));
    outcome.granted(pieces);
    assert_eq!(before.extend(&name("A")).expect("granted").extents, extents(desk));
    let mut ledger = Ledger::of(&before);
    ledger.enter(&extend("A"), 0, &outcome.answer);
    assert!(ledger.agrees(&seen(desk)));
    outcome
}

/// One track each, downwards from track 40, every other track.
fn comb(count: u32) -> Vec<Extent> {
    (0..count).map(|e| (0x01, 40 - 2 * e, 40 - 2 * e)).collect()
}

/// "If the first piece of an extend begins on the track after the set's last one, that last extent is
/// lengthened instead": extents 0 to 2 in the format 1, 3 to 6 before and 7 to 15 after byte 44 of the
/// format 3. All that changes is the end of that extent and the free extent.
#[test]
fn in_every_place_of_the_labels() {
    for count in 1..=16 {
        let mut list = comb(count);
        let e = list.len() - 1;
        let last = list[e].2;
        let mut desk = fine(1, &list, &[(last + 1, 1)]).desk();
        let mut expected = desk.table.clone();
        extended(&mut desk, &[(last + 1, 1)]);
        let (slot, at) = match e {
            0..3 => (2, 105 + 10 * e),
            3..7 => (3, 4 + 10 * (e - 3)),
            _ => (3, 45 + 10 * (e - 7)),
        };
        expected[140 * slot + at + 7] += 1;
        expected[144..149].fill(0);
        assert_eq!(desk.table, expected, "{count} extents");
        list[e].2 += 1;
        assert_eq!(extents(&desk), list);
        // "The reply still names the piece"; obtain has the whole extent.
        let labels = desk.obtain("A").labels;
        let bytes = [1, e as u8, 0, last as u8, 0, 0, 0, last as u8 + 1, 0, 0];
        assert_eq!(labels[140 * (slot - 2) + at..][..10], bytes);
    }
}

#[test]
fn not_where_a_track_lies_between() {
    let list = [(1, 20, 21)];
    assert_eq!(volume(TRACKS, 1, &list, &[(23, 1)]).extended(&[(23, 1)]), [list[0], (1, 23, 23)]);
    // Nor where the piece ends before the set's first track.
    assert_eq!(volume(TRACKS, 1, &list, &[(19, 1)]).extended(&[(19, 1)]), [list[0], (1, 19, 19)]);
    assert_eq!(volume(TRACKS, 2, &list, &[(18, 2)]).extended(&[(18, 2)]), [list[0], (1, 18, 19)]);
}

/// "the set's last one" is the last of its list, not the highest.
#[test]
fn behind_the_last_track_not_the_highest() {
    let list = [(1, 20, 21), (1, 10, 11)];
    let behind = |track| volume(TRACKS, 1, &list, &[(track, 1)]).extended(&[(track, 1)]);
    assert_eq!(behind(22), [list[0], list[1], (1, 22, 22)]);
    assert_eq!(behind(12), [list[0], (1, 10, 12)]);
    assert_eq!(behind(9), [list[0], list[1], (1, 9, 9)]);
    assert_eq!(behind(19), [list[0], list[1], (1, 19, 19)]);
}

/// "the first piece": a later one that begins there is an extent of its own. Pieces never touch each
/// other, since free extents do not.
#[test]
fn only_the_first_piece() {
    let list = [(1, 20, 21)];
    let second = volume(TRACKS, 4, &list, &[(22, 1), (40, 3)]);
    assert_eq!(second.extended(&[(40, 3), (22, 1)]), [list[0], (1, 40, 42), (1, 22, 22)]);
    let first = volume(TRACKS, 4, &list, &[(22, 3), (40, 1)]);
    assert_eq!(first.extended(&[(22, 3), (40, 1)]), [(1, 20, 24), (1, 40, 40)]);
    let third = volume(TRACKS, 6, &list, &[(22, 1), (40, 3), (50, 2)]);
    let pieces = [(40, 3), (50, 2), (22, 1)];
    assert_eq!(third.extended(&pieces), [list[0], (1, 40, 42), (1, 50, 51), (1, 22, 22)]);
}

/// "nothing prefers a touching candidate": the shortest that fits is taken.
#[test]
fn the_choice_is_as_before() {
    let list = [(1, 20, 21)];
    let shorter = volume(TRACKS, 2, &list, &[(22, 3), (40, 2)]);
    assert_eq!(shorter.extended(&[(40, 2)]), [list[0], (1, 40, 41)]);
    let tie = volume(TRACKS, 2, &list, &[(10, 2), (22, 2)]);
    assert_eq!(tie.extended(&[(10, 2)]), [list[0], (1, 10, 11)]);
    let later_tie = volume(TRACKS, 2, &list, &[(22, 2), (40, 2)]);
    assert_eq!(later_tie.extended(&[(22, 2)]), [(1, 20, 23)]);
}

/// A free extent that touches is not enough: the piece begins with the next cylinder.
#[test]
fn a_piece_of_cylinders_begins_a_cylinder() {
    let volume = volume(CYLINDERS, 1, &[(1, 10, 12)], &[(13, 7)]);
    assert_eq!(volume.extended(&[(15, 5)]), [(1, 10, 12), (0x81, 15, 19)]);
}

/// The label and the VTOC are no tracks of a set: 1–2 and 4 do not touch.
#[test]
fn the_vtoc_lies_between() {
    let mut desk = Desk::begin(12, 5, 4, 3, 1);
    desk.tracks("A", 2, 1).granted(&[(1, 2)]);
    extended(&mut desk, &[(4, 1)]);
    assert_eq!(extents(&desk), [(1, 1, 2), (1, 4, 4)]);
    extended(&mut desk, &[(5, 1)]);
    assert_eq!(extents(&desk), [(1, 1, 2), (1, 4, 5)]);
}

/// "Its type stays X'81' only if the piece is X'81' too." Our own calls leave X'81' in cylinder files and
/// X'01' in others; the rest comes from elsewhere.
#[test]
fn types() {
    let joined = |unit, secondary, (kind, first, last): Extent, pieces: &[(u32, u32)]| {
        volume(unit, secondary, &[(kind, first, last)], &[(last + 1, 12)]).extended(pieces)
    };
    assert_eq!(joined(CYLINDERS, 1, (0x81, 10, 14), &[(15, 5)]), [(0x81, 10, 19)]);
    assert_eq!(joined(CYLINDERS, 2, (0x81, 10, 14), &[(15, 10)]), [(0x81, 10, 24)]);
    assert_eq!(joined(CYLINDERS, 1, (0x01, 10, 14), &[(15, 5)]), [(0x01, 10, 19)]);
    assert_eq!(joined(CYLINDERS, 1, (0x01, 13, 14), &[(15, 5)]), [(0x01, 13, 19)]);
    assert_eq!(joined(TRACKS, 2, (0x81, 10, 14), &[(15, 2)]), [(0x01, 10, 16)]);
    // Whole cylinders, but the piece is X'01'.
    assert_eq!(joined(TRACKS, 5, (0x81, 10, 14), &[(15, 5)]), [(0x01, 10, 19)]);
    assert_eq!(joined(TRACKS, 5, (0x01, 10, 14), &[(15, 5)]), [(0x01, 10, 19)]);
    assert_eq!(joined(TRACKS, 3, (0x01, 11, 12), &[(13, 3)]), [(0x01, 11, 15)]);
}

/// The types of earlier extents, and of pieces behind the first, are as before.
#[test]
fn types_beside_it() {
    let list = [(0x81, 20, 24), (0x81, 10, 14)];
    let of_tracks = volume(TRACKS, 7, &list, &[(15, 4), (40, 3)]);
    let after = of_tracks.extended(&[(15, 4), (40, 3)]);
    assert_eq!(after, [(0x81, 20, 24), (0x01, 10, 18), (0x01, 40, 42)]);
    let list = [(0x01, 30, 34), (0x01, 10, 14)];
    let of_cylinders = volume(CYLINDERS, 3, &list, &[(15, 5), (50, 10)]);
    let after = of_cylinders.extended(&[(50, 10), (15, 5)]);
    assert_eq!(after, [list[0], list[1], (0x81, 50, 59), (0x81, 15, 19)]);
    let of_cylinders = volume(CYLINDERS, 3, &list, &[(15, 10), (50, 5)]);
    let after = of_cylinders.extended(&[(15, 10), (50, 5)]);
    assert_eq!(after, [list[0], (0x01, 10, 24), (0x81, 50, 54)]);
}

/// "Refusal 10 [counts] extents after joining."
#[test]
fn sixteen_extents_after_joining() {
    let list = comb(16);
    let last = list[15].2;
    assert_eq!(fine(1, &list, &[(last + 1, 1)]).extended(&[(last + 1, 1)]).len(), 16);
    fine(1, &list, &[(last - 1, 1)]).refused(10);
    fine(1, &list, &[(41, 1)]).refused(10);
    // Two pieces are too many, whichever of them touches.
    fine(3, &list, &[(50, 2), (last + 1, 1)]).refused(10);
    let list = [comb(15), vec![(0x01, 4, 4)]].concat();
    fine(3, &list, &[(5, 2), (50, 1)]).refused(10);
}

/// Five pieces, the first of which joins or does not: from 11, 12 and 13 extents to 16 and 17.
#[test]
fn several_pieces_after_joining() {
    let few = [(53, 2), (2, 1), (56, 1), (58, 1)];
    for (count, joins, accepted) in
        [(11, false, true), (12, false, false), (12, true, true), (13, true, false)]
    {
        let list = [comb(count - 1), vec![(0x01, 47, 48)]].concat();
        let pieces = [&[(if joins { 49 } else { 5 }, 3)], &few[..]].concat();
        let volume = fine(8, &list, &pieces);
        if !accepted {
            volume.refused(10);
            continue;
        }
        let after = volume.extended(&pieces);
        assert_eq!(after.len(), 16);
        assert_eq!(after[list.len() - 1], (0x01, 47, if joins { 51 } else { 48 }));
    }
}

/// "the need for a format 3 in refusal 11 [counts] extents after joining": three extents, no slot left.
#[test]
fn a_format_3_that_is_not_needed() {
    let full = |volume| Volume { spare: 0, ..volume };
    let list = comb(3);
    let last = list[2].2;
    assert_eq!(full(fine(1, &list, &[(last + 1, 1)])).extended(&[(last + 1, 1)]).len(), 3);
    full(fine(1, &list, &[(last - 1, 1)])).refused(11);
    full(fine(1, &list, &[(41, 1)])).refused(11);
    // Two pieces, the first of which joins: four extents from three, three from two.
    let list = [(1, 40, 40), (1, 38, 38), (1, 20, 20)];
    let pieces = [(21, 2), (50, 1)];
    full(fine(3, &list, &pieces)).refused(11);
    let after = fine(3, &list, &pieces).extended(&pieces);
    assert_eq!(after, [list[0], list[1], (1, 20, 22), (1, 50, 50)]);
    assert_eq!(full(fine(3, &list[1..], &pieces)).extended(&pieces).len(), 3);
}

/// A set that is extended behind its one extent keeps one extent, as often as one likes; then it is cut
/// inside that extent, and goes.
#[test]
fn again_and_again() {
    let mut desk = Desk::begin(12, 5, 3, 1, 1);
    desk.tracks("A", 1, 2).granted(&[(2, 1)]);
    for i in 0..20 {
        extended(&mut desk, &[(3 + 2 * i, 2)]);
        assert_eq!(extents(&desk), [(1, 2, 4 + 2 * i)]);
    }
    desk.seen_and_made(release("A", 6, 1)).gave_back(34);
    assert_eq!(extents(&desk), [(1, 2, 8)]);
    extended(&mut desk, &[(9, 2)]);
    assert_eq!(extents(&desk), [(1, 2, 10)]);
    assert_eq!(seen(&desk).free, [(11, 49)]);
    desk.seen_and_made(scratch("A")).gave_back(9);
    assert_eq!(seen(&desk).free, [(2, 58)]);
}

/// A cylinder file that has been joined keeps whole cylinders in a release, and the type X'81'.
#[test]
fn released_inside_what_was_joined() {
    let mut desk = Desk::begin(12, 5, 3, 1, 1);
    desk.cylinders("A", 1, 1).granted(&[(5, 5)]);
    for cylinder in 2..5 {
        extended(&mut desk, &[(5 * cylinder, 5)]);
    }
    assert_eq!(extents(&desk), [(0x81, 5, 24)]);
    // 5–11, and on to 14: inside the piece that was joined first.
    desk.seen_and_made(release("A", 6, 1)).gave_back(10);
    assert_eq!(extents(&desk), [(0x81, 5, 14)]);
    extended(&mut desk, &[(15, 5)]);
    assert_eq!(extents(&desk), [(0x81, 5, 19)]);
}

/// A release may take the format 3; what comes after may join in the format 1.
#[test]
fn joined_after_a_release() {
    let list = [(1, 40, 41), (1, 30, 31), (1, 20, 24), (1, 10, 10)];
    let mut desk = volume(TRACKS, 1, &list, &[]).desk();
    desk.release("A", 5, 1).gave_back(4);
    assert_eq!(extents(&desk), [list[0], list[1], (1, 20, 21)]);
    // 10 is shorter than 22–24.
    desk.clone().seen_and_made(extend("A")).granted(&[(10, 1)]);
    desk.absolute("B", 10, 1).accepted();
    extended(&mut desk, &[(22, 1)]);
    assert_eq!(extents(&desk), [list[0], list[1], (1, 20, 22)]);
    assert_eq!(seen(&desk).sets[0].format_3, None);
}

/// Allocate joins nothing, as its pieces do not touch; a set beside another is not joined to it.
#[test]
fn only_to_its_own_set() {
    let mut desk = Desk::begin(12, 5, 5, 1, 1);
    desk.tracks("A", 3, 1).granted(&[(2, 3)]);
    desk.tracks("B", 3, 1).granted(&[(5, 3)]);
    extended(&mut desk, &[(8, 1)]);
    assert_eq!(extents(&desk), [(1, 2, 4), (1, 8, 8)]);
    assert_eq!(seen(&desk).sets[1].extents, [(1, 5, 7)]);
}

/// The last track of the largest volume, 65,534, is joined.
#[test]
fn up_to_the_end_of_65_535_tracks() {
    let geometry = [257, 255, 3, 1, 1];
    let set = Set::new(2, None, name("A"), TRACKS, 1, vec![(1, 2, 65_533)]);
    let mut desk = Desk { table: table_with(geometry, vec![set]).expect("sound"), rows: vec![] };
    extended(&mut desk, &[(65_534, 1)]);
    assert_eq!(extents(&desk), [(1, 2, 65_534)]);
    desk.seen_and_made(Call::Extend { name: name("A").to_vec() }).refused(9);
}
