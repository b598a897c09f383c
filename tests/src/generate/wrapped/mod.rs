//! Bad tables that look sound to a program whose sums wrap at 65,536: document 02, [4]. Each has one
//! fault, of a kind that is told by name, and `stops` shows which stop, left out, would take it.

mod bases;
mod digits;
mod draft;
mod drafts;
mod entries;
mod extents;
mod links;
mod volume;

use std::collections::BTreeMap;

use super::glance::{glance, Glance};
use super::rng::Rng;
use crate::stops::{Place, Step, Stop, Way};
pub use bases::{bases, full_volumes, FULL_HEADS};
pub use digits::Digits;

/// Where the extents of a set lie: numbers 0 to 2, 3 to 6, and 7 to 15.
#[derive(Clone, Copy, Debug, PartialEq, Eq, PartialOrd, Ord)]
pub enum Part {
    Format1,
    Format3Front,
    Format3Back,
}

/// Which track of an extent is another, the same modulo 65,536.
#[derive(Clone, Copy, Debug, PartialEq, Eq, PartialOrd, Ord)]
pub enum Which {
    First,
    Last,
    Both,
}

/// On which side of byte 44 an entry lies: 0 to 7, and 8 to 25.
#[derive(Clone, Copy, Debug, PartialEq, Eq, PartialOrd, Ord)]
pub enum Half {
    Front,
    Back,
}

/// How the length of an entry is told.
#[derive(Clone, Copy, Debug, PartialEq, Eq, PartialOrd, Ord)]
pub enum Length {
    /// The same modulo 65,536, odd tracks below H.
    Wrapped,
    /// The same modulo 65,536, with H odd tracks or more.
    WrappedOdd,
    /// The right number of tracks, but H of them or more are odd. Nothing wraps.
    RightOdd,
}

/// Which address.
#[derive(Clone, Copy, Debug, PartialEq, Eq, PartialOrd, Ord)]
pub enum Link {
    Format3,
    Format5,
    Highest,
}

/// How an address leads to the right slot though it is not that of the slot.
#[derive(Clone, Copy, Debug, PartialEq, Eq, PartialOrd, Ord)]
pub enum Astray {
    /// The same track modulo 65,536, HH below H.
    Track,
    /// The same with HH at or above H.
    TrackWide,
    /// A track after the VTOC: (track − S) × D + R − 1 is the same modulo 65,536.
    AfterVtoc,
    /// A track before S: track − S is below zero besides.
    BeforeVtoc,
    /// R = 0 of the next track. R − 1 is below zero; the slot is right.
    RecordZero,
    /// R above D of the track before. Nothing wraps.
    RecordWide,
}

/// How the VTOC goes past track 65,535.
#[derive(Clone, Copy, Debug, PartialEq, Eq, PartialOrd, Ord)]
pub enum Past {
    /// Its last track is before its first: last + 1 − first is right modulo 65,536.
    LastBeforeFirst,
    /// Its last track is told in more than sixteen bits.
    LastBeyond,
    /// Its last track is 65,535.
    EndsThere,
}

#[derive(Clone, Copy, Debug, PartialEq, Eq, PartialOrd, Ord)]
pub enum Kind {
    Extent(Part, Which, Digits),
    /// A data extent ends at track 65,535 of a volume of 65,535 tracks, one too far.
    ExtentOneTooFar,
    /// One extent more, up to track 65,535: from its first up to 0 there is no track.
    ExtentUpTo0,
    /// An extent whose last track is before its first: what it lacks, others have too much.
    ExtentBackwards,
    Entry(Half, Length),
    /// The last free extent of a volume of 65,535 tracks ends at track 65,535, one too far.
    EntryOneTooFar,
    /// One entry more, of 65,536 tracks.
    EntryOf65536,
    /// One entry more, which ends after track 65,535.
    EntryPastTheEnd,
    Address(Link, Astray),
    Vtoc(Which, Digits),
    VtocPast(Past),
    /// V × D is N + 65,536 or more.
    VtocTooLong,
    /// C × H is T modulo 65,536, H as it was.
    Cylinders,
    /// The same with another H, which no number of the table shows.
    CylindersAndHeads,
    /// A sound table but for its 65,536 tracks.
    VolumeOf65536,
    /// Extents lie in one another: all lengths together are T + 65,536 or more.
    Total,
}

/// All kinds.
pub fn kinds() -> Vec<Kind> {
    use Kind::*;
    let mut all = vec![];
    let both = |which: Which| digits::DIGITS.map(move |digits| (which, digits));
    let ends: Vec<_> =
        [Which::First, Which::Last, Which::Both].into_iter().flat_map(both).collect();
    for part in [Part::Format1, Part::Format3Front, Part::Format3Back] {
        all.extend(ends.iter().map(|&(which, digits)| Extent(part, which, digits)));
    }
    all.extend([ExtentOneTooFar, ExtentUpTo0, ExtentBackwards]);
    for half in [Half::Front, Half::Back] {
        let lengths = [Length::Wrapped, Length::WrappedOdd, Length::RightOdd];
        all.extend(lengths.map(|length| Entry(half, length)));
    }
    all.extend([EntryOneTooFar, EntryOf65536, EntryPastTheEnd]);
    for link in [Link::Format3, Link::Format5, Link::Highest] {
        all.extend(links::ASTRAY.map(|astray| Address(link, astray)));
    }
    all.extend(ends.iter().map(|&(which, digits)| Vtoc(which, digits)));
    all.extend([Past::LastBeforeFirst, Past::LastBeyond, Past::EndsThere].map(VtocPast));
    all.extend([VtocTooLong, Cylinders, CylindersAndHeads, VolumeOf65536, Total]);
    all
}

impl Kind {
    /// The way of a program that takes such tables once its stops are left out.
    pub fn way(self) -> Way {
        match self {
            Kind::ExtentUpTo0 => Way::Ends,
            Kind::ExtentBackwards | Kind::Total => Way::Total,
            Kind::VolumeOf65536 => Way::LastTracks,
            _ => Way::Map,
        }
    }

    /// The stops of which one or more, left out, take such tables. Each of them is needed for some.
    pub fn stops(self) -> Vec<Stop> {
        use Step::*;
        let of = |place: Place, steps: &[Step]| -> Vec<Stop> {
            steps.iter().map(|&step| (place, step)).collect()
        };
        let ends = |which: Which, first: Place, last: Place, digits: Digits| match which {
            Which::First => of(first, digits.steps()),
            Which::Last => of(last, digits.steps()),
            Which::Both => [of(first, digits.steps()), of(last, digits.steps())].concat(),
        };
        match self {
            Kind::Extent(_, which, digits) => {
                ends(which, Place::ExtentFirst, Place::ExtentLast, digits)
            }
            Kind::ExtentOneTooFar | Kind::ExtentUpTo0 => of(Place::Extent, &[End]),
            Kind::ExtentBackwards => vec![(Place::Extent, Difference), (Place::Total, Sum)],
            Kind::Entry(_, Length::Wrapped) => of(Place::Entry, &[Product, Sum]),
            Kind::Entry(_, Length::WrappedOdd) => of(Place::Entry, &[Product, Sum, Digit]),
            Kind::Entry(_, Length::RightOdd) => of(Place::Entry, &[Digit]),
            Kind::EntryOneTooFar | Kind::EntryPastTheEnd => of(Place::Entry, &[End]),
            Kind::EntryOf65536 => of(Place::Entry, &[Product, Sum]),
            Kind::Address(link, astray) => of(link.place(), astray.steps()),
            Kind::Vtoc(which, digits) => ends(which, Place::VtocFirst, Place::VtocLast, digits),
            Kind::VtocPast(past) => past.stops(),
            Kind::VtocTooLong => of(Place::Vtoc, &[Product]),
            Kind::Cylinders | Kind::CylindersAndHeads => of(Place::Volume, &[Product]),
            Kind::VolumeOf65536 => of(Place::Volume, &[Product, Difference]),
            Kind::Total => of(Place::Total, &[Sum]),
        }
    }
}

/// A bad table.
pub struct Wrapped {
    pub kind: Kind,
    pub table: Vec<u8>,
}

/// Shows so many tables of each kind for each sound table that has room for it, always the same ones.
pub fn every(tries: usize, mut show: impl FnMut(&Wrapped)) {
    let mut rng = Rng::new(4);
    for table in bases() {
        let glance = glance(&table).expect("sound");
        for kind in kinds() {
            for _ in 0..tries {
                let mut hurt = Patient { rng: &mut rng, glance: &glance, table: table.clone() };
                if hurt.by(kind).is_some() {
                    show(&Wrapped { kind, table: hurt.table });
                }
            }
        }
    }
    drafts::every(&mut rng, tries, |kind, table| show(&Wrapped { kind, table }));
}

/// One table of each kind.
pub fn one_of_each() -> BTreeMap<Kind, Vec<u8>> {
    let mut tables = BTreeMap::new();
    every(1, |Wrapped { kind, table }| {
        tables.entry(*kind).or_insert_with(|| table.clone());
    });
    tables
}

/// A copy of a sound table, to be changed.
struct Patient<'a> {
    rng: &'a mut Rng,
    glance: &'a Glance,
    table: Vec<u8>,
}

impl Patient<'_> {
    /// Changes the table, where it has room for this kind. Some kinds have no sound table beside
    /// them: `drafts` writes those.
    fn by(&mut self, kind: Kind) -> Option<()> {
        match kind {
            Kind::Extent(part, which, digits) => self.extent(part, which, digits),
            Kind::ExtentOneTooFar => self.extent_one_too_far(),
            Kind::ExtentUpTo0 => self.extent_up_to_0(),
            Kind::Entry(half, length) => self.entry(half, length),
            Kind::EntryOneTooFar => self.entry_one_too_far(),
            Kind::EntryOf65536 => self.entry_of_65536(),
            Kind::EntryPastTheEnd => self.entry_past_the_end(),
            Kind::Address(link, astray) => self.link(link, astray),
            Kind::Vtoc(which, digits) => self.ends_at(107, which, digits),
            Kind::Cylinders => self.cylinders(),
            Kind::CylindersAndHeads => self.cylinders_and_heads(),
            Kind::ExtentBackwards
            | Kind::VtocPast(_)
            | Kind::VtocTooLong
            | Kind::VolumeOf65536
            | Kind::Total => None,
        }
    }

    fn heads(&self) -> u32 {
        self.glance.geometry.heads
    }

    fn word(&self, at: usize) -> u32 {
        u32::from(self.table[at]) << 8 | u32::from(self.table[at + 1])
    }

    /// Writes two bytes.
    fn put(&mut self, at: usize, value: u32) {
        let value = u16::try_from(value).expect("two bytes");
        self.table[at..at + 2].copy_from_slice(&value.to_be_bytes());
    }

    /// The track of the CCHH at `at`.
    fn track(&self, at: usize) -> u32 {
        self.word(at) * self.heads() + self.word(at + 2)
    }

    /// Puts another CCHH for the track at `at`, the same modulo 65,536.
    fn other_cchh(&mut self, at: usize, digits: Digits) -> Option<()> {
        let (cc, hh) = digits.of(self.rng, self.track(at), self.heads())?;
        self.put(at, cc);
        self.put(at + 2, hh);
        Some(())
    }

    /// The same for one or both of two that follow each other.
    fn ends_at(&mut self, at: usize, which: Which, digits: Digits) -> Option<()> {
        if which != Which::Last {
            self.other_cchh(at, digits)?;
        }
        if which != Which::First {
            self.other_cchh(at + 4, digits)?;
        }
        Some(())
    }
}
