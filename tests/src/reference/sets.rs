//! Bit sets in 64-bit words: one of tracks, one of slots.

use super::geometry::MAX_SLOTS;

const SLOT_WORDS: usize = MAX_SLOTS.div_ceil(64);

/// The tracks of a volume that something lies on.
pub struct TrackMap {
    words: Vec<u64>,
}

impl TrackMap {
    /// No larger than the volume, for a small one is checked in less time than it takes to
    /// clear the map of the largest.
    pub fn new(tracks: u32) -> TrackMap {
        TrackMap { words: vec![0; tracks as usize / 64 + 1] }
    }

    /// Claims `first` to `last`, tracks of the volume; false if one was claimed before.
    #[inline]
    pub fn claim(&mut self, first: u32, last: u32) -> bool {
        let (low, high) = (first as usize / 64, last as usize / 64);
        let head = !0u64 << (first % 64);
        let tail = !0u64 >> (63 - last % 64);
        if low == high {
            return self.claim_word(low, head & tail);
        }
        let mut free = self.claim_word(low, head);
        for word in &mut self.words[low + 1..high] {
            free &= *word == 0;
            *word = !0;
        }
        free & self.claim_word(high, tail)
    }

    #[inline]
    fn claim_word(&mut self, at: usize, mask: u64) -> bool {
        let word = &mut self.words[at];
        let free = *word & mask == 0;
        *word |= mask;
        free
    }
}

/// A set of slots.
#[derive(Clone, Debug, PartialEq, Eq)]
pub struct SlotSet {
    words: [u64; SLOT_WORDS],
}

impl SlotSet {
    pub fn new() -> SlotSet {
        SlotSet { words: [0; SLOT_WORDS] }
    }

    /// Adds `slot`; false if it was in.
    pub fn insert(&mut self, slot: usize) -> bool {
        let (word, bit) = (&mut self.words[slot / 64], 1u64 << (slot % 64));
        let fresh = *word & bit == 0;
        *word |= bit;
        fresh
    }

    pub fn remove(&mut self, slot: usize) {
        self.words[slot / 64] &= !(1u64 << (slot % 64));
    }

    pub fn contains(&self, slot: usize) -> bool {
        self.words[slot / 64] >> (slot % 64) & 1 == 1
    }

    pub fn len(&self) -> usize {
        self.words.iter().map(|word| word.count_ones() as usize).sum()
    }

    pub fn lowest(&self) -> Option<usize> {
        let at = self.words.iter().position(|&word| word != 0)?;
        Some(at * 64 + self.words[at].trailing_zeros() as usize)
    }

    pub fn highest(&self) -> Option<usize> {
        let at = self.words.iter().rposition(|&word| word != 0)?;
        Some(at * 64 + 63 - self.words[at].leading_zeros() as usize)
    }
}
