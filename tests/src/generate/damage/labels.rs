//! Damage to the labels of data sets.

use super::{extent_at, Patient};
use crate::generate::names;

impl Patient<'_> {
    /// Two different sets.
    fn two_sets(&mut self) -> Option<(usize, usize)> {
        let (a, b) = (self.a_set()?.slot, self.a_set()?.slot);
        (a != b).then_some((a, b))
    }

    fn put_extent(&mut self, at: usize, first: u32, last: u32) {
        let geometry = self.glance.geometry;
        self.table[at + 2..at + 6].copy_from_slice(&geometry.cchh(first));
        self.table[at + 6..at + 10].copy_from_slice(&geometry.cchh(last));
    }
}

pub fn duplicate_name(p: &mut Patient) -> Option<()> {
    let (a, b) = p.two_sets()?;
    p.table.copy_within(a * 140..a * 140 + 44, b * 140);
    Some(())
}

pub fn bad_name(p: &mut Patient) -> Option<()> {
    let slot = p.a_set()?.slot;
    let name = names::unlawful(p.rng);
    p.record(slot)[..44].copy_from_slice(&name);
    Some(())
}

/// Two sets name the same format 3; the other's, if it had one, is named by nobody.
pub fn format_3_twice(p: &mut Patient) -> Option<()> {
    let (from, _) = p.a_set_with_format_3()?;
    let to = p.a_set()?;
    let link = p.record(from.slot)[135..].to_vec();
    p.record(to.slot)[135..].copy_from_slice(&link);
    if to.extents.len() <= 3 && p.rng.chance(50) {
        p.record(to.slot)[59] = from.extents.len() as u8;
    }
    (from.slot != to.slot).then_some(())
}

/// A format 3 that no set names.
pub fn format_3_unnamed(p: &mut Patient) -> Option<()> {
    if p.rng.chance(50) {
        let slot = *p.rng.pick(&p.glance.open)?;
        let record = p.record(slot);
        record[..4].fill(0x03);
        record[44] = 0xF3;
        p.adjust_format_0s(-1);
        return Some(());
    }
    let (set, _) = p.a_set_with_format_3()?;
    p.record(set.slot)[135..].fill(0);
    if p.rng.chance(50) {
        p.record(set.slot)[59] = 3;
    }
    Some(())
}

/// The link of a set leads elsewhere.
pub fn format_3_link(p: &mut Patient) -> Option<()> {
    let set = p.a_set()?;
    let to = p.rng.below(p.slots());
    let mut address = p.glance.geometry.address(to);
    if p.rng.chance(30) {
        address[p.rng.below(5)] = p.rng.byte();
    }
    p.record(set.slot)[135..].copy_from_slice(&address);
    Some(())
}

pub fn extent_count(p: &mut Patient) -> Option<()> {
    let set = p.a_set()?;
    let count = set.extents.len() as u8;
    let wrong = *p.rng.pick(&[count + 1, count - 1, 0, 3, 4, 16, 17, 255])?;
    p.record(set.slot)[59] = wrong;
    Some(())
}

pub fn extent_number(p: &mut Patient) -> Option<()> {
    let (_, at, e) = p.an_extent()?;
    p.table[at + 1] = *p.rng.pick(&[e as u8 + 1, (e as u8).wrapping_sub(1), 0, 16, 255])?;
    Some(())
}

/// X'81' where it may not fit whole cylinders, X'01', or no type at all.
pub fn extent_type(p: &mut Patient) -> Option<()> {
    let (_, at, _) = p.an_extent()?;
    p.table[at] = *p.rng.pick(&[0x81, 0x81, 0x01, 0x80, 0x00, 0x02, 0xC1, 0xFF])?;
    Some(())
}

/// An extent reaches into its neighbour, or is another's.
pub fn overlap(p: &mut Patient) -> Option<()> {
    let (set, at, e) = p.an_extent()?;
    let (start, length) = set.extents[e];
    match p.rng.below(4) {
        0 => p.put_extent(at, start, start + length),
        1 => p.put_extent(at, start - 1, start + length - 1),
        2 => p.put_extent(at, start + 1, start + length),
        _ => {
            let (other, _, f) = p.an_extent()?;
            let (start, length) = other.extents[f];
            p.put_extent(at, start, start + length - 1);
        }
    }
    Some(())
}

/// An extent one track short: the track lies nowhere. Or first and last the wrong way round.
pub fn lost_track(p: &mut Patient) -> Option<()> {
    let (set, at, e) = p.an_extent()?;
    let (start, length) = set.extents[e];
    if length < 2 {
        return None;
    }
    match p.rng.below(3) {
        0 => p.put_extent(at, start + 1, start + length - 1),
        1 => p.put_extent(at, start, start + length - 2),
        _ => p.put_extent(at, start + length - 1, start),
    }
    Some(())
}

/// HH not below H: the same track by another CCHH.
pub fn wide_head(p: &mut Patient) -> Option<()> {
    let (_, at, _) = p.an_extent()?;
    let at = at + *p.rng.pick(&[2, 6])?;
    let word = |at: usize| u16::from_be_bytes([p.table[at], p.table[at + 1]]);
    let (cc, hh) = (word(at).checked_sub(1)?, word(at + 2) + p.glance.geometry.heads as u16);
    p.table[at..at + 2].copy_from_slice(&cc.to_be_bytes());
    p.table[at + 2..at + 4].copy_from_slice(&hh.to_be_bytes());
    Some(())
}

/// Another unit; X'00' goes with a secondary amount of 0 only.
pub fn unit(p: &mut Patient) -> Option<()> {
    let slot = p.a_set()?.slot;
    let wrong = *p.rng.pick(&[0x00, 0x00, 0x40, 0x80, 0xC0, 0x01, 0xFF])?;
    let secondary = *p.rng.pick(&[0, 1, 0x80, 0xFF])?;
    let at = 95 + p.rng.below(3);
    p.record(slot)[94] = wrong;
    p.record(slot)[at] = secondary;
    Some(())
}

/// Two extents of a set change places, with their numbers or without.
pub fn swap_extents(p: &mut Patient) -> Option<()> {
    let (set, a, e) = p.an_extent()?;
    let f = p.rng.below(set.extents.len());
    let b = extent_at(&set, f);
    let (one, two) = (p.table[a..a + 10].to_vec(), p.table[b..b + 10].to_vec());
    p.table[a..a + 10].copy_from_slice(&two);
    p.table[b..b + 10].copy_from_slice(&one);
    if p.rng.chance(50) {
        p.table[a + 1] = e as u8;
        p.table[b + 1] = f as u8;
    }
    (e != f).then_some(())
}

/// No damage: attributes and TTR may be anything, and so may the secondary amount where
/// the unit has one.
pub fn free_fields(p: &mut Patient) -> Option<()> {
    let set = p.a_set()?;
    let at = *p.rng.pick(&[45, 58, 60, 93, 98, 99, 100, 101, 104])?;
    let value = p.rng.byte();
    p.record(set.slot)[at] = value;
    if set.unit != 0 && p.rng.chance(30) {
        let at = 95 + p.rng.below(3);
        p.record(set.slot)[at] = value;
    }
    Some(())
}
