//! Addresses that are not those of their slots, though a sum that wraps leads there.

use super::digits::{turns, Digits};
use super::{Astray, Link, Patient};
use crate::reference::layout::{LINK, RECORD};
use crate::stops::{Place, Step};

pub const ASTRAY: [Astray; 6] = [
    Astray::Track,
    Astray::TrackWide,
    Astray::AfterVtoc,
    Astray::BeforeVtoc,
    Astray::RecordZero,
    Astray::RecordWide,
];

impl Link {
    pub fn place(self) -> Place {
        match self {
            Link::Format3 => Place::Format3Link,
            Link::Format5 => Place::Format5Link,
            Link::Highest => Place::Highest,
        }
    }
}

impl Astray {
    pub fn steps(self) -> &'static [Step] {
        match self {
            Astray::Track => Digits::Below.steps(),
            Astray::TrackWide => Digits::Wide.steps(),
            Astray::AfterVtoc => &[Step::SlotProduct, Step::SlotSum],
            Astray::BeforeVtoc => &[Step::Difference, Step::SlotProduct, Step::SlotSum],
            Astray::RecordZero | Astray::RecordWide => &[Step::Record],
        }
    }
}

impl Patient<'_> {
    pub(super) fn link(&mut self, link: Link, astray: Astray) -> Option<()> {
        let mut places: Vec<usize> = match link {
            Link::Format3 => self.glance.sets.iter().map(|set| set.slot * RECORD + LINK).collect(),
            Link::Format5 => {
                self.glance.format_5s.iter().map(|slot| slot * RECORD + LINK).collect()
            }
            Link::Highest => vec![45],
        };
        places.retain(|&at| self.table[at..at + 5] != [0; 5]);
        let at = *self.rng.pick(&places)?;
        match astray {
            Astray::Track => self.other_cchh(at, Digits::Below),
            Astray::TrackWide => self.other_cchh(at, Digits::Wide),
            Astray::AfterVtoc => self.after_vtoc(at),
            Astray::BeforeVtoc => self.before_vtoc(at),
            Astray::RecordZero => self.record_zero(at),
            Astray::RecordWide => self.record_wide(at),
        }
    }

    fn put_address(&mut self, at: usize, track: u32, r: u32) -> Option<()> {
        let h = self.heads();
        self.put(at, track / h);
        self.put(at + 2, track % h);
        self.table[at + 4] = u8::try_from(r).ok()?;
        Some(())
    }

    /// Track and R of the address, and its slot.
    fn address(&self, at: usize) -> (u32, u32, u32) {
        let (track, r) = (self.track(at), u32::from(self.table[at + 4]));
        let g = self.glance.geometry;
        (track, r, (track - g.vtoc_start) * g.per_track + r - 1)
    }

    /// Slot + 65,536 or more, if its track is of sixteen bits; most such tracks are on the volume.
    fn after_vtoc(&mut self, at: usize) -> Option<()> {
        let (g, (_, _, slot)) = (self.glance.geometry, self.address(at));
        let of = |turns: u32| slot + 65_536 * turns;
        let tracks = |turns: u32| g.vtoc_start + of(turns) / g.per_track;
        let fit: Vec<u32> = (1..g.per_track).filter(|&turns| tracks(turns) <= 65_535).collect();
        let most = *fit.last()?;
        let turns = turns(self.rng, most);
        self.put_address(at, tracks(turns), of(turns) % g.per_track + 1)
    }

    /// Slot − 65,536 or less, if there is such a track before the VTOC.
    fn before_vtoc(&mut self, at: usize) -> Option<()> {
        let (g, (_, _, slot)) = (self.glance.geometry, self.address(at));
        let (slot, d, start) = (i64::from(slot), i64::from(g.per_track), i64::from(g.vtoc_start));
        let of = |turns: i64| slot - 65_536 * turns;
        let track = |turns: i64| start + of(turns).div_euclid(d);
        let turns: Vec<i64> = (1..=d).filter(|&turns| track(turns) >= 0).collect();
        let turns = *self.rng.pick(&turns)?;
        self.put_address(at, track(turns) as u32, of(turns).rem_euclid(d) as u32 + 1)
    }

    fn record_zero(&mut self, at: usize) -> Option<()> {
        let (track, r, _) = self.address(at);
        (r == self.glance.geometry.per_track).then_some(())?;
        self.put_address(at, track + 1, 0)
    }

    fn record_wide(&mut self, at: usize) -> Option<()> {
        let (g, (track, r, _)) = (self.glance.geometry, self.address(at));
        (track > g.vtoc_start).then_some(())?;
        self.put_address(at, track - 1, r + g.per_track)
    }
}
