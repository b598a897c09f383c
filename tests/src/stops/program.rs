//! The check itself: document 01's rules in the order of the layout, each number through `Sums`.

use std::collections::BTreeSet;

use super::tracks::Tracks;
use super::{Numbers, Place, Step, Stop, Sums, Way};
use crate::audit::is_name;
use crate::reference::layout::{entry_at, extent_part, ENTRIES, RECORD};

/// What a program says of a table.
pub struct Verdict {
    pub taken: bool,
    /// The stops that a sum went past or that stopped it.
    pub passed: BTreeSet<Stop>,
}

/// Whether a program takes the table.
pub fn judge(table: &[u8], numbers: &Numbers, way: Way) -> Verdict {
    let sums = Sums { numbers: numbers.clone(), passed: BTreeSet::new() };
    let records: Vec<&[u8]> = table.chunks(RECORD).collect();
    let right_length = table.len().is_multiple_of(RECORD) && (3..=468).contains(&records.len());
    if !right_length {
        return Verdict { taken: false, passed: sums.passed };
    }
    let tracks = Tracks::new(way, 0);
    let none = BTreeSet::new();
    let mut check = Check { records, sums, tracks, h: 0, d: 0, s: 0, named: none };
    let taken = check.table(way).is_some();
    Verdict { taken, passed: check.sums.passed }
}

struct Check<'a> {
    records: Vec<&'a [u8]>,
    sums: Sums,
    tracks: Tracks,
    h: i64,
    d: i64,
    s: i64,
    /// The format 3s that a format 1 names.
    named: BTreeSet<usize>,
}

fn must(holds: bool) -> Option<()> {
    holds.then_some(())
}

fn all(bytes: &[u8], value: u8) -> bool {
    bytes.iter().all(|&byte| byte == value)
}

fn number(bytes: &[u8]) -> i64 {
    bytes.iter().fold(0, |sum, &byte| sum << 8 | i64::from(byte))
}

impl Check<'_> {
    fn table(&mut self, way: Way) -> Option<()> {
        self.format_4(way)?;
        let chain = self.chain()?;
        let sets = self.labels(&chain)?;
        self.tracks.complete(&mut self.sums)?;
        self.totals(&sets)
    }

    fn format_4(&mut self, way: Way) -> Option<()> {
        let record = self.records[0];
        let zeros = [52..59, 60..62, 66..74, 75..105, 115..140];
        must(all(&record[..44], 0x04) && record[44] == 0xF4 && record[59] == 0x01)?;
        must(zeros.into_iter().all(|range| all(&record[range], 0)))?;
        must(record[105..107] == [0x01, 0x00])?;
        let c = number(&record[62..64]);
        (self.h, self.d) = (number(&record[64..66]), number(&record[74..75]));
        must(c >= 1 && (1..=255).contains(&self.h) && self.d >= 1)?;
        let volume = self.sums.keep((Place::Volume, Step::Product), c * self.h)?;
        must(volume <= 65_535)?;
        self.tracks = Tracks::new(way, volume);

        self.s = self.track(Place::VtocFirst, &record[107..111])?;
        let last = self.track(Place::VtocLast, &record[111..115])?;
        let end = self.sums.keep((Place::Vtoc, Step::End), last + 1)?;
        let v = self.sums.keep((Place::Vtoc, Step::Difference), end - self.s)?;
        must(self.s >= 1 && v >= 1)?;
        let n = self.sums.keep((Place::Vtoc, Step::Product), v * self.d)?;
        must(n == self.records.len() as i64)?;
        self.tracks.vtoc(&mut self.sums, self.s, v)
    }

    /// The track of a CCHH.
    fn track(&mut self, place: Place, cchh: &[u8]) -> Option<i64> {
        let (cc, hh) = (number(&cchh[..2]), number(&cchh[2..4]));
        self.sums.rule((place, Step::Digit), hh < self.h)?;
        let product = self.sums.keep((place, Step::Product), cc * self.h)?;
        self.sums.keep((place, Step::Sum), product + hh)
    }

    /// The slot of a CCHHR. A slot of the table with an R of its track lies on the VTOC's tracks.
    fn slot(&mut self, place: Place, address: &[u8]) -> Option<usize> {
        let track = self.track(place, &address[..4])?;
        let tracks = self.sums.keep((place, Step::Difference), track - self.s)?;
        let r = number(&address[4..5]);
        self.sums.rule((place, Step::Record), (1..=self.d).contains(&r))?;
        let product = self.sums.keep((place, Step::SlotProduct), tracks * self.d)?;
        let slot = self.sums.keep((place, Step::SlotSum), product + r - 1)?;
        usize::try_from(slot).ok().filter(|&slot| slot < self.records.len())
    }

    /// The slots of the format 5s.
    fn chain(&mut self) -> Option<BTreeSet<usize>> {
        let (mut chain, mut slot, mut end) = (BTreeSet::new(), 1, -1);
        loop {
            let record = self.records[slot];
            must(all(&record[..4], 0x05) && record[44] == 0xF5 && chain.insert(slot))?;
            let filled = self.entries(record, &mut end)?;
            if all(&record[135..], 0) {
                must(filled > 0 || slot == 1)?;
                return Some(chain);
            }
            must(filled == ENTRIES)?;
            slot = self.slot(Place::Format5Link, &record[135..])?;
        }
    }

    /// The entries of a format 5, after free extents up to `end`; how many there are.
    fn entries(&mut self, record: &[u8], end: &mut i64) -> Option<usize> {
        let entry = |i| &record[entry_at(i)..entry_at(i) + 5];
        let filled = (0..ENTRIES).take_while(|&i| !all(entry(i), 0)).count();
        must((filled..ENTRIES).all(|i| all(entry(i), 0)))?;
        for i in 0..filled {
            let [start, cylinders, odd] = [0..2, 2..4, 4..5].map(|range| number(&entry(i)[range]));
            must((cylinders > 0 || odd > 0) && start > *end)?;
            self.sums.rule((Place::Entry, Step::Digit), odd < self.h)?;
            let product = self.sums.keep((Place::Entry, Step::Product), cylinders * self.h)?;
            let length = self.sums.keep((Place::Entry, Step::Sum), product + odd)?;
            *end = self.tracks.entry(&mut self.sums, start, length)?;
        }
        Some(filled)
    }

    /// All other slots; those of the format 1s.
    fn labels(&mut self, chain: &BTreeSet<usize>) -> Option<BTreeSet<usize>> {
        let (mut names, mut sets, mut threes) = (BTreeSet::new(), BTreeSet::new(), BTreeSet::new());
        for (slot, &record) in self.records.clone().iter().enumerate().skip(1) {
            match record[44] {
                0xF1 => {
                    must(is_name(&record[..44]) && names.insert(&record[..44]))?;
                    self.set(record)?;
                    sets.insert(slot);
                }
                0xF3 => must(threes.insert(slot))?,
                0xF5 => must(chain.contains(&slot))?,
                _ => must(all(record, 0))?,
            }
        }
        must(threes == self.named)?;
        Some(sets)
    }

    fn set(&mut self, label: &[u8]) -> Option<()> {
        let count = usize::from(label[59]);
        must((1..=16).contains(&count))?;
        must(matches!(label[94], 0x80 | 0xC0) || label[94] == 0 && all(&label[95..98], 0))?;
        let mut more: &[u8] = &[0; RECORD];
        if count > 3 {
            let slot = self.slot(Place::Format3Link, &label[135..])?;
            more = self.records[slot];
            must(all(&more[..4], 0x03) && more[44] == 0xF3 && all(&more[135..], 0))?;
            must(self.named.insert(slot))?;
        } else {
            must(all(&label[135..], 0))?;
        }
        for e in 0..16 {
            let extent = extent_part(label, more, e);
            if e < count {
                self.extent(extent, e)?;
            } else {
                must(all(extent, 0))?;
            }
        }
        Some(())
    }

    fn extent(&mut self, extent: &[u8], e: usize) -> Option<()> {
        let first = self.track(Place::ExtentFirst, &extent[2..6])?;
        let last = self.track(Place::ExtentLast, &extent[6..])?;
        let end = self.tracks.extent(&mut self.sums, first, last)?;
        let whole = first % self.h == 0 && end % self.h == 0;
        must(usize::from(extent[1]) == e)?;
        must(extent[0] == 0x01 || extent[0] == 0x81 && whole)
    }

    /// Bytes 45 to 51 of the format 4.
    fn totals(&mut self, sets: &BTreeSet<usize>) -> Option<()> {
        let record = self.records[0];
        match sets.last() {
            None => must(all(&record[45..50], 0))?,
            Some(&slot) => must(self.slot(Place::Highest, &record[45..50])? == slot)?,
        }
        let free = self.records.iter().filter(|record| record[44] == 0).count();
        must(number(&record[50..52]) == free as i64)
    }
}
