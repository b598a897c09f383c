//! A slow second opinion on tables, by another route than the reference's check: read what
//! the labels say, write the whole table anew from that, and compare all bytes. Free
//! extents are not read but follow from the data extents. And what an extend gives, worked out from
//! such a picture (`extend`).

pub mod dates;
pub mod extend;
mod render;

use std::collections::BTreeSet;

/// A data extent: its type, first and last track.
pub type Extent = (u8, u32, u32);

/// A data set as its labels show it.
#[derive(Clone, Debug, PartialEq, Eq)]
pub struct Set {
    pub slot: usize,
    pub format_3: Option<usize>,
    pub name: [u8; 44],
    pub extents: Vec<Extent>,
    /// Bytes 45–58 and 60–104: attributes, unit, secondary amount, TTR.
    free_fields: Vec<u8>,
}

/// Where bytes 56 to 58 stand in the free fields, and byte 94.
const EXPIRY: std::ops::Range<usize> = 56 - 45..59 - 45;
const UNIT: usize = 14 + 94 - 60;

impl Set {
    /// A set whose attributes and TTR are zeros.
    pub fn new(
        slot: usize, format_3: Option<usize>, name: [u8; 44], unit: u8, secondary: u32,
        extents: Vec<Extent>,
    ) -> Set {
        let mut free_fields = vec![0; 14 + 45];
        free_fields[UNIT] = unit;
        free_fields[UNIT + 1..UNIT + 4].copy_from_slice(&secondary.to_be_bytes()[1..]);
        Set { slot, format_3, name, extents, free_fields }
    }

    /// The same set with these bytes in the place of its expiry date.
    pub fn expiring(mut self, stored: [u8; 3]) -> Set {
        self.free_fields[EXPIRY].copy_from_slice(&stored);
        self
    }

    /// The bytes in the place of the expiry date.
    pub fn expiry(&self) -> &[u8] {
        &self.free_fields[EXPIRY]
    }

    pub fn unit(&self) -> u8 {
        self.free_fields[UNIT]
    }

    pub fn secondary(&self) -> u32 {
        number(&self.free_fields[UNIT + 1..UNIT + 4]) as u32
    }

    /// The set's tracks in order.
    pub fn tracks(&self) -> Vec<u32> {
        self.extents.iter().flat_map(|&(_, first, last)| first..=last).collect()
    }
}

/// All that a taken table says.
#[derive(Clone, Debug, PartialEq, Eq)]
pub struct Picture {
    pub c: u32,
    pub h: u32,
    pub d: u32,
    pub s: u32,
    pub v: u32,
    /// By slot.
    pub sets: Vec<Set>,
    /// Slots of the format 5s.
    pub chain: Vec<usize>,
    /// Start and length of the free extents.
    pub free: Vec<(u32, u32)>,
    pub format_0s: usize,
}

/// The picture of a table that is taken.
pub fn picture(table: &[u8]) -> Option<Picture> {
    let n = table.len() / 140;
    if !table.len().is_multiple_of(140) || !(3..=468).contains(&n) {
        return None;
    }
    let slots: Vec<&[u8]> = table.chunks(140).collect();
    let (c, h, d) = (number(&slots[0][62..64]), number(&slots[0][64..66]), slots[0][74].into());
    let s = number(&slots[0][107..109]) * h + number(&slots[0][109..111]);
    let last = number(&slots[0][111..113]) * h + number(&slots[0][113..115]);
    let v = (last + 1).checked_sub(s)?;
    let limits = c >= 1 && (1..=255).contains(&h) && (1..=255).contains(&d) && s >= 1 && v >= 1;
    if !limits || c * h > 65_535 || s + v > c * h || v * d != n as u64 {
        return None;
    }
    let [c, h, d, s, v] = [c, h, d, s, v].map(|x| x as u32);
    let mut picture =
        Picture { c, h, d, s, v, sets: vec![], chain: vec![], free: vec![], format_0s: 0 };
    picture.sets = (0..n)
        .filter(|&k| slots[k][44] == 0xF1)
        .map(|k| picture.read_set(&slots, k))
        .collect::<Option<_>>()?;
    picture.chain = picture.read_chain(&slots)?;
    picture.derive_free()?;
    picture.derive_roles()?;
    (picture.render() == table).then_some(picture)
}

/// The table of a volume, C, H, D, S, V, with these sets; its later format 5s are in the lowest slots
/// left. Nothing where slots are too few or the sets are not sound.
pub fn table_with([c, h, d, s, v]: [u32; 5], sets: Vec<Set>) -> Option<Vec<u8>> {
    Picture { c, h, d, s, v, sets, chain: vec![1], free: vec![], format_0s: 0 }.table()
}

fn number(bytes: &[u8]) -> u64 {
    bytes.iter().fold(0, |sum, &byte| sum * 256 + u64::from(byte))
}

/// Start and length of each run of neighbours in an ascending list.
fn runs(list: impl Iterator<Item = u32>) -> Vec<(u32, u32)> {
    let mut runs: Vec<(u32, u32)> = vec![];
    for at in list {
        match runs.last_mut() {
            Some((start, length)) if *start + *length == at => *length += 1,
            _ => runs.push((at, 1)),
        }
    }
    runs
}

/// Whether 44 bytes are a name, told by its parts.
pub fn is_name(bytes: &[u8]) -> bool {
    let national = |b: u8| [0x5B, 0x7B, 0x7C].contains(&b);
    let letter = |b: u8| matches!(b, 0xC1..=0xC9 | 0xD1..=0xD9 | 0xE2..=0xE9);
    let rest = |b: u8| letter(b) || national(b) || matches!(b, 0xF0..=0xF9 | 0x60);
    let length = bytes.iter().rposition(|&b| b != 0x40).map_or(0, |at| at + 1);
    bytes[..length].split(|&b| b == 0x4B).all(|part| {
        (1..=8).contains(&part.len())
            && (letter(part[0]) || national(part[0]))
            && part.iter().all(|&b| rest(b))
    })
}

impl Picture {
    /// The table of the sets that the picture has now, in the slots that they name; the chain loses its
    /// last format 5s, or gets more in the lowest slots left. Nothing where slots are too few or the sets
    /// are not sound.
    pub fn table(mut self) -> Option<Vec<u8>> {
        self.derive_free()?;
        let members = self.members();
        self.chain.truncate(members);
        let left = (2..(self.v * self.d) as usize).filter(|&k| self.is_format_0(k));
        let more: Vec<usize> = left.take(members - self.chain.len()).collect();
        self.chain.extend(more);
        self.derive_roles()?;
        Some(self.render())
    }

    pub fn is_format_0(&self, slot: usize) -> bool {
        let is_label = |set: &Set| set.slot == slot || set.format_3 == Some(slot);
        slot > 0 && !self.chain.contains(&slot) && !self.sets.iter().any(is_label)
    }

    fn address(&self, slot: usize) -> Vec<u8> {
        let track = self.s + slot as u32 / self.d;
        let mut bytes = self.cchh(track);
        bytes.push((slot as u32 % self.d + 1) as u8);
        bytes
    }

    fn cchh(&self, track: u32) -> Vec<u8> {
        [(track / self.h) as u16, (track % self.h) as u16]
            .into_iter()
            .flat_map(u16::to_be_bytes)
            .collect()
    }

    /// The slot with this address, found by trying all.
    fn slot(&self, address: &[u8]) -> Option<usize> {
        (0..(self.v * self.d) as usize).find(|&k| self.address(k) == address)
    }

    fn read_set(&self, slots: &[&[u8]], slot: usize) -> Option<Set> {
        let label = slots[slot];
        let count = usize::from(label[59]);
        let format_3 = if count > 3 { Some(self.slot(&label[135..140])?) } else { None };
        let mut bytes = label[105..135].to_vec();
        if let Some(k) = format_3 {
            bytes.extend(slots[k][4..44].iter().chain(&slots[k][45..135]));
        }
        let track = |at: &[u8]| number(&at[..2]) * u64::from(self.h) + number(&at[2..4]);
        let extent = |bytes: &[u8]| {
            let (first, last) = (track(&bytes[2..6]), track(&bytes[6..10]));
            (bytes[0], first as u32, last as u32)
        };
        let extents = bytes.chunks(10).take(count).map(extent).collect();
        let free_fields = [&label[45..59], &label[60..105]].concat();
        let sound = (1..=16).contains(&count)
            && is_name(&label[..44])
            && [0x80, 0xC0, 0x00].contains(&label[94])
            && (label[94] != 0 || label[95..98] == [0; 3]);
        let name = label[..44].try_into().ok()?;
        sound.then_some(Set { slot, format_3, name, extents, free_fields })
    }

    fn read_chain(&self, slots: &[&[u8]]) -> Option<Vec<usize>> {
        let mut chain = vec![1];
        while slots[*chain.last()?][135..140] != [0; 5] {
            chain.push(self.slot(&slots[*chain.last()?][135..140])?);
            if chain.len() > slots.len() {
                return None;
            }
        }
        Some(chain)
    }

    /// The free extents are the gaps that label, VTOC and data leave; nothing may overlap.
    fn derive_free(&mut self) -> Option<()> {
        let mut used = vec![false; (self.c * self.h) as usize];
        let mut lie = |first: u32, last: u32| {
            (first <= last && (last as usize) < used.len()).then_some(())?;
            let place = &mut used[first as usize..=last as usize];
            place.iter().all(|&u| !u).then(|| place.fill(true))
        };
        lie(0, 0)?;
        lie(self.s, self.s + self.v - 1)?;
        for &(kind, first, last) in self.sets.iter().flat_map(|set| &set.extents) {
            lie(first, last)?;
            let whole = first % self.h == 0 && (last + 1) % self.h == 0;
            (kind == 0x01 || kind == 0x81 && whole).then_some(())?;
        }
        self.free = runs((0..self.c * self.h).filter(|&t| !used[t as usize]));
        Some(())
    }

    /// The format 5s that the free extents need.
    fn members(&self) -> usize {
        self.free.len().div_ceil(26).max(1)
    }

    /// Each slot has one role, each name one set; the format 0s are what is left.
    fn derive_roles(&mut self) -> Option<()> {
        (self.chain.len() == self.members()).then_some(())?;
        let names: BTreeSet<_> = self.sets.iter().map(|set| set.name).collect();
        let format_3s = self.sets.iter().filter_map(|set| set.format_3);
        let sets = self.sets.iter().map(|set| set.slot);
        let all: Vec<_> = self.chain.iter().copied().chain(format_3s).chain(sets).collect();
        let distinct: BTreeSet<_> = all.iter().copied().collect();
        self.format_0s = (self.v * self.d) as usize - 1 - distinct.len();
        let one_role_each = distinct.len() == all.len() && !distinct.contains(&0);
        (one_role_each && names.len() == self.sets.len()).then_some(())
    }
}
