//! Damage to the format 5 chain and its entries.

use super::Patient;

/// Where entry `i` of a format 5 lies in the table.
fn entry_at(slot: usize, i: usize) -> usize {
    slot * 140 + 4 + 5 * i + usize::from(i >= 8)
}

impl Patient<'_> {
    /// The places of the entries in the order of their starts, used ones only.
    fn entries(&self) -> Vec<usize> {
        let mut places: Vec<usize> = self
            .glance
            .format_5s
            .iter()
            .flat_map(|&slot| (0..26).map(move |i| entry_at(slot, i)))
            .filter(|&at| self.table[at..at + 5] != [0; 5])
            .collect();
        places.sort_by_key(|&at| [self.table[at], self.table[at + 1]]);
        places
    }

    fn entry(&self, at: usize) -> (u32, u32) {
        let h = self.glance.geometry.heads;
        let byte = |i: usize| u32::from(self.table[at + i]);
        (byte(0) << 8 | byte(1), (byte(2) << 8 | byte(3)) * h + byte(4))
    }

    fn put_entry(&mut self, at: usize, start: u32, length: u32) {
        let h = self.glance.geometry.heads;
        self.table[at..at + 2].copy_from_slice(&(start as u16).to_be_bytes());
        self.table[at + 2..at + 4].copy_from_slice(&((length / h) as u16).to_be_bytes());
        self.table[at + 4] = (length % h) as u8;
    }

    /// The last format 5 of the chain.
    fn last_member(&self) -> Option<usize> {
        let ends = |slot: &&usize| self.table[*slot * 140 + 135..][..5] == [0; 5];
        self.glance.format_5s.iter().find(ends).copied()
    }
}

/// The last format 5 points back into the chain.
pub fn chain_loop(p: &mut Patient) -> Option<()> {
    let last = p.last_member()?;
    let to = *p.rng.pick(&p.glance.format_5s)?;
    let address = p.glance.geometry.address(to);
    p.record(last)[135..].copy_from_slice(&address);
    Some(())
}

/// A link to some other slot, to none, or with one byte wrong.
pub fn chain_link(p: &mut Patient) -> Option<()> {
    let from = *p.rng.pick(&p.glance.format_5s)?;
    let to = p.rng.below(p.slots());
    let mut address = p.glance.geometry.address(to);
    match p.rng.below(3) {
        0 => address = [0; 5],
        1 => address[p.rng.below(5)] = p.rng.byte(),
        _ => {}
    }
    p.record(from)[135..].copy_from_slice(&address);
    Some(())
}

/// One format 5 too many, with no entry or with the last entry of the one before.
pub fn too_long(p: &mut Patient) -> Option<()> {
    let last = p.last_member()?;
    let slot = *p.rng.pick(&p.glance.open)?;
    let record = p.record(slot);
    record[..4].fill(0x05);
    record[44] = 0xF5;
    let address = p.glance.geometry.address(slot);
    p.record(last)[135..].copy_from_slice(&address);
    p.adjust_format_0s(-1);
    if p.rng.chance(50) {
        let at = *p.entries().last()?;
        let entry: Vec<u8> = p.table[at..at + 5].to_vec();
        p.table[at..at + 5].fill(0);
        let to = entry_at(slot, 0);
        p.table[to..to + 5].copy_from_slice(&entry);
    }
    Some(())
}

/// The last entry cut in two that touch.
pub fn touching(p: &mut Patient) -> Option<()> {
    let places = p.entries();
    let last = *places.last()?;
    let (start, length) = p.entry(last);
    if length < 2 || places.len().is_multiple_of(26) {
        return None;
    }
    let cut = p.rng.range(1, length - 1);
    p.put_entry(last, start, cut);
    let slot = last / 140;
    let next = (0..26).map(|i| entry_at(slot, i)).find(|&at| at > last)?;
    p.put_entry(next, start + cut, length - cut);
    Some(())
}

/// Two entries change places.
pub fn unsorted(p: &mut Patient) -> Option<()> {
    let places = p.entries();
    let (a, b) = (*p.rng.pick(&places)?, *p.rng.pick(&places)?);
    let (first, second) = (p.entry(a), p.entry(b));
    p.put_entry(a, second.0, second.1);
    p.put_entry(b, first.0, first.1);
    (a != b).then_some(())
}

/// The last entry moves on and leaves an unused one before it.
pub fn entry_gap(p: &mut Patient) -> Option<()> {
    let last = *p.entries().last()?;
    let next =
        (0..26).map(|i| entry_at(last / 140, i)).filter(|&at| at > last).nth(p.rng.below(2))?;
    let (start, length) = p.entry(last);
    p.table[last..last + 5].fill(0);
    p.put_entry(next, start, length);
    Some(())
}

/// An entry of no track, after the others or instead of one.
pub fn empty_entry(p: &mut Patient) -> Option<()> {
    let places = p.entries();
    let last = p.last_member()?;
    let unused = (0..26).map(|i| entry_at(last, i)).find(|&at| p.table[at..at + 5] == [0; 5]);
    let at = if p.rng.chance(50) { unused? } else { *p.rng.pick(&places)? };
    let start = p.rng.range(0, p.glance.geometry.tracks());
    p.put_entry(at, start, 0);
    Some(())
}

/// An entry one track longer or shorter, or one track off.
pub fn entry_length(p: &mut Patient) -> Option<()> {
    let places = p.entries();
    let at = *p.rng.pick(&places)?;
    let (start, length) = p.entry(at);
    let (start, length) = match p.rng.below(5) {
        0 => (start, length + 1),
        1 => (start, length - 1),
        2 => (start - 1, length + 1),
        3 => (start + 1, length),
        _ => (start, p.glance.geometry.tracks() - start + 1),
    };
    p.put_entry(at, start, length);
    Some(())
}

/// A cylinder of an entry told as odd tracks: the sum is right, the digits are not.
pub fn odd_tracks(p: &mut Patient) -> Option<()> {
    let h = p.glance.geometry.heads;
    let places = p.entries();
    let at = *p.rng.pick(&places)?;
    let (cylinders, odd) = (p.entry(at).1 / h, p.entry(at).1 % h);
    if cylinders == 0 || odd + h > 255 {
        return None;
    }
    p.table[at + 2..at + 4].copy_from_slice(&((cylinders - 1) as u16).to_be_bytes());
    p.table[at + 4] = (odd + h) as u8;
    Some(())
}
