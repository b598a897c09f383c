//! Document 02, [2], sentence by sentence, with figures worked out by hand. H is 5 where nothing
//! else is said: cylinders 5–9, 10–14, 15–19 and so on.

use vtoc_tests::audit::{picture, table_with, Extent, Picture, Set};
use vtoc_tests::call::{Buffers, Call, Reference, NO_OPTION};
use vtoc_tests::desk::Desk;
use vtoc_tests::faulty::{Fault, Faulty};
use vtoc_tests::ledger::Ledger;
use vtoc_tests::short::{allocation, scratch};
use vtoc_tests::volumes::name;

const TRACKS: u8 = 0x80;
const CYLINDERS: u8 = 0xC0;
const ABSOLUTE: u8 = 0x00;

/// C 6, H 5, D 2, S 1, V 4: eight records, tracks 5 to 29 to be had. One set, A in slot 2, its
/// format 3 in slot 3, as another system may have made it.
fn with(unit: u8, extents: &[Extent]) -> Desk {
    let format_3 = (extents.len() > 3).then_some(3);
    let set = Set::new(2, format_3, name("A"), unit, 0, extents.to_vec());
    let table = table_with([6, 5, 2, 1, 4], vec![set]).expect("sound");
    Desk { table, rows: vec![] }
}

fn seen(desk: &Desk) -> Picture {
    picture(&desk.table).expect("not taken")
}

/// After a release at TT, R 1 that gives back so many tracks: A's extents.
#[track_caller]
fn released(desk: &Desk, tt: u32, back: u32) -> Vec<Extent> {
    let mut desk = desk.clone();
    desk.release("A", tt, 1).gave_back(back);
    assert_eq!(desk.slot(2)[98..101], [0, tt as u8, 1], "the TTR is stored as given");
    seen(&desk).sets[0].extents.clone()
}

/// "For a set with unit X'C0', release now also keeps the tracks after the first TT + 1 in the set's
/// list, as long as each is the next on the volume and in the same cylinder."
#[test]
fn up_to_the_end_of_the_cylinder() {
    let desk = with(CYLINDERS, &[(0x81, 10, 24)]);
    for tt in 0..5 {
        assert_eq!(released(&desk, tt, 10), [(0x81, 10, 14)]);
    }
    for tt in 5..10 {
        assert_eq!(released(&desk, tt, 5), [(0x81, 10, 19)]);
    }
    for tt in 10..15 {
        assert_eq!(released(&desk, tt, 0), [(0x81, 10, 24)]);
    }
    desk.clone().release("A", 15, 1).refused(12);
}

#[test]
fn what_is_free_after_it() {
    let mut desk = with(CYLINDERS, &[(0x81, 10, 24)]);
    desk.release("A", 6, 1).gave_back(5);
    assert_eq!(seen(&desk).free, [(5, 5), (20, 10)]);
    desk.release("A", 0, 0).gave_back(5);
    assert_eq!(seen(&desk).free, [(5, 5), (15, 15)]);
    assert_eq!(desk.slot(2)[98..101], [0, 0, 0]);
}

/// The list goes on over the end of an extent: 11–12, 13, 10.
#[test]
fn by_the_list_across_extents() {
    let desk = with(CYLINDERS, &[(1, 11, 12), (1, 13, 13), (1, 10, 10)]);
    for tt in 0..3 {
        assert_eq!(released(&desk, tt, 1), [(1, 11, 12), (1, 13, 13)]);
    }
    assert_eq!(released(&desk, 3, 0).len(), 3);
}

/// The next extent is shortened, not joined.
#[test]
fn into_a_part_of_the_next_extent() {
    let desk = with(CYLINDERS, &[(1, 11, 12), (1, 13, 16), (1, 17, 21)]);
    assert_eq!(released(&desk, 0, 7), [(1, 11, 12), (1, 13, 14)]);
    assert_eq!(released(&desk, 3, 7), [(1, 11, 12), (1, 13, 14)]);
    // 15 begins a cylinder; it goes on to 19, in the third extent.
    assert_eq!(released(&desk, 4, 2), [(1, 11, 12), (1, 13, 16), (1, 17, 19)]);
    assert_eq!(released(&desk, 9, 0).len(), 3);
}

/// "each is the next on the volume": not one further on, and not one before, in the same cylinder.
#[test]
fn not_past_a_gap() {
    let desk = with(CYLINDERS, &[(1, 10, 11), (1, 13, 14), (1, 12, 12)]);
    assert_eq!(released(&desk, 0, 3), [(1, 10, 11)]);
    assert_eq!(released(&desk, 1, 3), [(1, 10, 11)]);
    assert_eq!(released(&desk, 2, 1), [(1, 10, 11), (1, 13, 14)]);
    assert_eq!(released(&desk, 4, 0).len(), 3);
}

/// "and in the same cylinder": two extents that go on, over the end of a cylinder.
#[test]
fn not_into_another_cylinder() {
    let own = with(CYLINDERS, &[(0x81, 10, 14), (0x81, 15, 19)]);
    assert_eq!(released(&own, 0, 5), [(0x81, 10, 14)]);
    assert_eq!(released(&own, 4, 5), [(0x81, 10, 14)]);
    assert_eq!(released(&own, 5, 0).len(), 2);
    let odd = with(CYLINDERS, &[(1, 13, 14), (1, 15, 16)]);
    assert_eq!(released(&odd, 0, 2), [(1, 13, 14)]);
    assert_eq!(released(&odd, 2, 0).len(), 2);
}

#[test]
fn to_the_last_track_of_the_volume() {
    let desk = with(CYLINDERS, &[(0x81, 20, 29), (1, 7, 8)]);
    assert_eq!(released(&desk, 5, 2), [(0x81, 20, 29)]);
    assert_eq!(released(&desk, 10, 0).len(), 2);
}

/// "An extent of type X'81' cut so keeps its type", and one of type X'01' is not made X'81'.
#[test]
fn types_of_what_is_cut() {
    assert_eq!(released(&with(CYLINDERS, &[(0x81, 10, 19)]), 1, 5), [(0x81, 10, 14)]);
    assert_eq!(released(&with(CYLINDERS, &[(0x81, 10, 19)]), 4, 5), [(0x81, 10, 14)]);
    assert_eq!(released(&with(CYLINDERS, &[(0x01, 10, 19)]), 1, 5), [(0x01, 10, 14)]);
    assert_eq!(released(&with(CYLINDERS, &[(0x01, 12, 19)]), 2, 5), [(0x01, 12, 14)]);
}

/// Sets of other units: just TT + 1 tracks, and X'01' for what is cut, even where a cylinder ends.
#[test]
fn other_units_as_before() {
    for unit in [TRACKS, ABSOLUTE] {
        let desk = with(unit, &[(0x81, 10, 19), (0x81, 20, 24)]);
        assert_eq!(released(&desk, 1, 13), [(0x01, 10, 11)]);
        assert_eq!(released(&desk, 4, 10), [(0x01, 10, 14)]);
        assert_eq!(released(&desk, 9, 5), [(0x81, 10, 19)]);
        assert_eq!(released(&desk, 10, 4), [(0x81, 10, 19), (0x01, 20, 20)]);
        let desk = with(unit, &[(0x01, 11, 12), (0x01, 13, 13)]);
        assert_eq!(released(&desk, 0, 2), [(0x01, 11, 11)]);
        assert_eq!(released(&desk, 1, 1), [(0x01, 11, 12)]);
    }
}

/// Refusal 12 looks at TT + 1 alone.
#[test]
fn refusal_12_as_before() {
    let desk = with(CYLINDERS, &[(1, 11, 12), (1, 13, 13)]);
    desk.clone().release("A", 3, 1).refused(12);
    desk.clone().release("A", 1, 0).refused(12);
    desk.clone().release("A", 2, 255).gave_back(0);
    desk.clone().release("A", 0, 0).gave_back(0);
}

/// Four extents or more after it: the format 3 stays; three or fewer: it goes.
#[test]
fn the_format_3_goes_by_what_is_kept() {
    let one_each = [11, 12, 13, 14, 15, 20].map(|track| (0x01, track, track));
    let mut desk = with(CYLINDERS, &one_each);
    desk.release("A", 0, 1).gave_back(2);
    assert_eq!(seen(&desk).sets[0].extents, one_each[..4]);
    assert_eq!(seen(&desk).sets[0].format_3, Some(3));
    let later = [13, 14, 15, 20].map(|track| (0x01, track, track));
    let mut desk = with(CYLINDERS, &later);
    desk.release("A", 0, 1).gave_back(2);
    assert_eq!(seen(&desk).sets[0].extents, later[..2]);
    assert_eq!(seen(&desk).sets[0].format_3, None);
    assert_eq!(desk.slot(3), [0; 140]);
    assert_eq!(desk.slot(2)[135..], [0; 5]);
}

#[test]
fn each_track_is_a_cylinder_where_h_is_1() {
    let mut desk = Desk::begin(12, 1, 3, 1, 1);
    desk.cylinders("A", 8, 0).granted(&[(2, 8)]);
    desk.release("A", 3, 1).gave_back(4);
    assert_eq!(seen(&desk).sets[0].extents, [(0x81, 2, 5)]);
}

/// What a release gives back can be granted again, whole cylinders.
#[test]
fn granted_again() {
    let mut desk = Desk::begin(6, 5, 4, 1, 1);
    desk.cylinders("A", 4, 1).granted(&[(5, 20)]);
    desk.release("A", 7, 3).gave_back(10);
    desk.cylinders("B", 2, 0).granted(&[(15, 10)]);
    desk.extend("A").granted(&[(25, 5)]);
    assert_eq!(seen(&desk).sets[0].extents, [(0x81, 5, 14), (0x81, 25, 29)]);
    desk.release("A", 10, 1).gave_back(0);
    desk.release("A", 9, 1).gave_back(5);
}

/// A ledger and the calls that it is fed with.
struct Books {
    desk: Desk,
    ledger: Ledger,
}

impl Books {
    fn initialise(&mut self, h: u32) {
        let call = Call::Initialise { c: 30 / h, h, d: 8, s: 1, v: 1 };
        self.desk.table = vec![0; 8 * 140];
        self.enter(call);
    }

    fn allocate(&mut self, text: &str, kind: u32, start: u32, amount: u32, secondary: u32) {
        self.enter(allocation(text, kind, start, amount, secondary, NO_OPTION));
    }

    /// Makes a call, which is accepted, and enters it; the table must say the same.
    #[track_caller]
    fn enter(&mut self, call: Call) -> u32 {
        let outcome = self.desk.call(call.clone());
        outcome.accepted();
        self.ledger.enter(&call, outcome.result, &outcome.answer);
        assert!(self.ledger.agrees(&seen(&self.desk)), "{call:?}");
        outcome.word(0)
    }

    #[track_caller]
    fn release(&mut self, text: &str, tt: u32) -> u32 {
        self.enter(Call::Release { name: name(text).to_vec(), ttr: tt << 8 | 1 })
    }
}

/// "The ledger knows the unit from the allocate call and, from its start on, the volume's H, and keeps
/// the same tracks." It has them of the calls alone, also under another name and on another volume.
#[test]
fn the_ledger_keeps_the_same_tracks() {
    let mut books = Books { desk: Desk::default(), ledger: Ledger::default() };
    books.initialise(5);
    books.allocate("T", 0, 0, 8, 0);
    books.allocate("C", 1, 0, 2, 1);
    books.allocate("S", 2, 25, 4, 0);
    books.enter(Call::Extend { name: name("C").to_vec() });
    assert_eq!([books.release("T", 1), books.release("C", 11), books.release("S", 1)], [6, 0, 2]);
    books.enter(Call::Rename { old: name("C").to_vec(), new: name("D").to_vec() });
    assert_eq!(books.release("D", 2), 10);
    books.enter(scratch("D"));
    books.initialise(3);
    books.allocate("C", 1, 0, 3, 0);
    assert_eq!(books.release("C", 3), 3);
}

/// A ledger with another unit, or another H, is not the table's.
#[test]
fn the_ledger_tells_units_apart() {
    let desk = with(CYLINDERS, &[(0x81, 10, 24)]);
    let ledger = Ledger::of(&seen(&desk));
    assert!(ledger.agrees(&seen(&desk)));
    for unit in [TRACKS, ABSOLUTE] {
        assert!(!ledger.agrees(&seen(&with(unit, &[(0x81, 10, 24)]))));
    }
    let other_h = Picture { h: 6, c: 5, ..seen(&desk) };
    assert!(!ledger.agrees(&other_h));
}

/// Releases that cut a cylinder in two and answer as if they had not, or keep whole cylinders of a track
/// file: the table is sound, and the ledger is not that of it.
#[test]
fn the_ledger_notices_wrong_releases() {
    for (fault, unit) in [(Fault::CylindersCutInTwo, CYLINDERS), (Fault::TracksToCylinders, TRACKS)]
    {
        let desk = with(unit, &[(0x81, 10, 24)]);
        let call = Call::Release { name: name("A").to_vec(), ttr: 0x000601 };
        let mut ledger = Ledger::of(&seen(&desk));
        let mut buffers = Buffers::new(desk.table, 24, 280);
        let result = call.run(&Faulty { manager: &Reference, fault }, &mut buffers);
        assert_eq!((result, buffers.answer[1]), (0, 5));
        ledger.enter(&call, result, &buffers.answer);
        assert!(!ledger.agrees(&picture(&buffers.table).expect("not taken")), "{fault:?}");
    }
}
