//! Writes a table from a picture of it, every byte.

use super::{Extent, Picture, Set};

impl Picture {
    pub(super) fn render(&self) -> Vec<u8> {
        let n = (self.v * self.d) as usize;
        let mut table = vec![0; n * 140];
        let mut put = |slot: usize, label: Vec<u8>| {
            debug_assert_eq!(label.len(), 140);
            table[slot * 140..][..140].copy_from_slice(&label);
        };
        put(0, self.format_4());
        for (i, &slot) in self.chain.iter().enumerate() {
            put(slot, self.format_5(i));
        }
        for set in &self.sets {
            put(set.slot, self.format_1(set));
            if let Some(slot) = set.format_3 {
                put(slot, self.format_3(set));
            }
        }
        table
    }

    /// An address, or zeros.
    fn link(&self, slot: Option<usize>) -> Vec<u8> {
        slot.map_or(vec![0; 5], |slot| self.address(slot))
    }

    fn format_4(&self) -> Vec<u8> {
        let highest = self.sets.iter().map(|set| set.slot).max();
        let mut label = vec![0x04; 44];
        label.push(0xF4);
        label.extend(self.link(highest));
        label.extend((self.format_0s as u16).to_be_bytes());
        label.resize(59, 0);
        label.push(0x01);
        label.resize(62, 0);
        label.extend((self.c as u16).to_be_bytes());
        label.extend((self.h as u16).to_be_bytes());
        label.resize(74, 0);
        label.push(self.d as u8);
        label.resize(105, 0);
        label.extend(self.extent(0, (0x01, self.s, self.s + self.v - 1)));
        label.resize(140, 0);
        label
    }

    fn format_5(&self, member: usize) -> Vec<u8> {
        let mut entries = vec![];
        for &(start, length) in self.free.iter().skip(26 * member).take(26) {
            entries.extend((start as u16).to_be_bytes());
            entries.extend(((length / self.h) as u16).to_be_bytes());
            entries.push((length % self.h) as u8);
        }
        self.around_byte_44(0x05, entries, self.chain.get(member + 1).copied())
    }

    fn format_1(&self, set: &Set) -> Vec<u8> {
        let mut label = set.name.to_vec();
        label.push(0xF1);
        label.extend(&set.free_fields[..14]);
        label.push(set.extents.len() as u8);
        label.extend(&set.free_fields[14..]);
        label.extend(self.extents(set, 0, 3));
        label.resize(135, 0);
        label.extend(self.link(set.format_3));
        label
    }

    fn format_3(&self, set: &Set) -> Vec<u8> {
        self.around_byte_44(0x03, self.extents(set, 3, 16), None)
    }

    /// Formats 3 and 5: four bytes of a mark, then fields with the format byte among them.
    fn around_byte_44(&self, mark: u8, mut fields: Vec<u8>, next: Option<usize>) -> Vec<u8> {
        fields.resize(130, 0);
        let mut label = vec![mark; 4];
        label.extend(&fields[..40]);
        label.push(0xF0 + mark);
        label.extend(&fields[40..]);
        label.extend(self.link(next));
        label
    }

    fn extents(&self, set: &Set, from: usize, to: usize) -> Vec<u8> {
        let numbered = set.extents.iter().enumerate().take(to).skip(from);
        numbered.flat_map(|(e, &extent)| self.extent(e, extent)).collect()
    }

    fn extent(&self, number: usize, (kind, first, last): Extent) -> Vec<u8> {
        [vec![kind, number as u8], self.cchh(first), self.cchh(last)].concat()
    }
}
