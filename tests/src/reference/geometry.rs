//! The shape of a volume: tracks, cylinders, and where its VTOC lies.

use super::layout::RECORD;

/// The fewest and the most records of a VTOC.
pub const MIN_SLOTS: usize = 3;
pub const MAX_SLOTS: usize = 468;

#[derive(Clone, Copy, Debug, PartialEq, Eq)]
pub struct Geometry {
    /// C, cylinders.
    pub cylinders: u32,
    /// H, tracks in a cylinder.
    pub heads: u32,
    /// D, records on a VTOC track.
    pub per_track: u32,
    /// S, the VTOC's first track.
    pub vtoc_start: u32,
    /// V, the VTOC's tracks.
    pub vtoc_tracks: u32,
}

impl Geometry {
    /// The limits of initialise, in 64 bits so that no argument can wrap.
    pub fn new(c: u32, h: u32, d: u32, s: u32, v: u32) -> Option<Geometry> {
        let tracks = u64::from(c) * u64::from(h);
        let slots = u64::from(v) * u64::from(d);
        let in_range = c >= 1
            && (1..=255).contains(&h)
            && (1..=255).contains(&d)
            && s >= 1
            && v >= 1
            && tracks <= 65_535
            && u64::from(s) + u64::from(v) <= tracks
            && (MIN_SLOTS as u64..=MAX_SLOTS as u64).contains(&slots);
        in_range.then_some(Geometry {
            cylinders: c,
            heads: h,
            per_track: d,
            vtoc_start: s,
            vtoc_tracks: v,
        })
    }

    /// T, the tracks of the volume.
    #[inline]
    pub fn tracks(&self) -> u32 {
        self.cylinders * self.heads
    }

    /// N, the records of the VTOC.
    #[inline]
    pub fn slots(&self) -> usize {
        (self.vtoc_tracks * self.per_track) as usize
    }

    /// Bytes of the table.
    pub fn table_len(&self) -> usize {
        self.slots() * RECORD
    }

    /// The first track after the VTOC.
    pub fn vtoc_end(&self) -> u32 {
        self.vtoc_start + self.vtoc_tracks
    }

    /// CCHH of a track.
    pub fn cchh(&self, track: u32) -> [u8; 4] {
        let (cc, hh) = (track / self.heads, track % self.heads);
        [(cc >> 8) as u8, cc as u8, 0, hh as u8]
    }

    /// The track at CCHH. HH must be below H: a track has one CCHH only.
    #[inline]
    pub fn track_at(&self, cc: u32, hh: u32) -> Option<u32> {
        let track = cc * self.heads + hh;
        (hh < self.heads && track < self.tracks()).then_some(track)
    }

    /// CCHHR of a slot.
    pub fn address(&self, slot: usize) -> [u8; 5] {
        let slot = slot as u32;
        let [c1, c2, h1, h2] = self.cchh(self.vtoc_start + slot / self.per_track);
        [c1, c2, h1, h2, (slot % self.per_track + 1) as u8]
    }

    /// The slot at CCHHR, where there is one.
    pub fn slot_at(&self, address: [u8; 5]) -> Option<usize> {
        let [c1, c2, h1, h2, r] = address.map(u32::from);
        let track = self.track_at(c1 << 8 | c2, h1 << 8 | h2)?;
        let inside = (self.vtoc_start..self.vtoc_end()).contains(&track);
        (inside && (1..=self.per_track).contains(&r))
            .then(|| ((track - self.vtoc_start) * self.per_track + r - 1) as usize)
    }
}
