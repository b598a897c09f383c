//! Data set names: the rule, the printable characters, and an index by hash.

use super::layout::Record;

/// Bytes of a name with the blanks after it.
pub const NAME: usize = 44;
const BLANK: u8 = 0x40;
const PERIOD: u8 = 0x4B;

pub type Name = [u8; NAME];

/// What a byte may do in a name, one bit for each of four sets of characters; the bits are
/// 16 apart, so that the classes of 16 bytes fit into one word, each shifted by its place.
const CLASSES: [u64; 256] = {
    const LEADING: u64 = 1;
    const INNER: u64 = 1 << 16;
    const JOINT: u64 = 1 << 32;
    const BLANKS: u64 = 1 << 48;
    let mut classes = [0; 256];
    let mut b = 0;
    while b < 256 {
        classes[b] = match b as u8 {
            // Letters and nationals.
            0xC1..=0xC9 | 0xD1..=0xD9 | 0xE2..=0xE9 | 0x5B | 0x7B | 0x7C => LEADING | INNER,
            // Digits and the hyphen.
            0xF0..=0xF9 | 0x60 => INNER,
            PERIOD => JOINT,
            BLANK => BLANKS,
            _ => 0,
        };
        b += 1;
    }
    classes
};

/// The printable character of each label byte.
pub const PRINTABLE: [u8; 256] = {
    let mut table = [b'?'; 256];
    let mut b = 0;
    while b < 256 {
        let byte = b as u8;
        table[b] = match byte {
            0xC1..=0xC9 => b'A' + (byte - 0xC1),
            0xD1..=0xD9 => b'J' + (byte - 0xD1),
            0xE2..=0xE9 => b'S' + (byte - 0xE2),
            0xF0..=0xF9 => b'0' + (byte - 0xF0),
            0x5B => b'$',
            0x7B => b'#',
            0x7C => b'@',
            0x60 => b'-',
            PERIOD => b'.',
            _ => b'?',
        };
        b += 1;
    }
    table
};

/// Whether the 44 bytes are a name and blanks after it. Bit i of a mask stands for byte i.
pub fn obeys(name: &Name) -> bool {
    let (mut leading, mut inner, mut joint, mut blank) = (0u64, 0u64, 0u64, 0u64);
    for (group, bytes) in name.chunks(16).enumerate() {
        let mut classes = 0;
        for (at, &byte) in bytes.iter().enumerate() {
            classes |= CLASSES[usize::from(byte)] << at;
        }
        leading |= (classes & 0xFFFF) << (16 * group);
        inner |= (classes >> 16 & 0xFFFF) << (16 * group);
        joint |= (classes >> 32 & 0xFFFF) << (16 * group);
        blank |= (classes >> 48) << (16 * group);
    }
    let all = (1u64 << NAME) - 1;
    let length = blank.trailing_zeros().min(NAME as u32);
    let characters = (1u64 << length) - 1;
    // Eight inner characters in a row from bit i on, found by doubling.
    let two = inner & inner >> 1;
    let four = two & two >> 2;
    let eight = four & four >> 4;
    blank == all & !characters
        && inner | joint == characters
        // Where a part is due, at the start and after each period, there is its first
        // character: so no part is empty, nor the name, and no period ends it.
        && (joint << 1 | 1) & !leading == 0
        && eight & inner >> 8 == 0
}

/// The name's characters, without the blanks.
pub fn trimmed(name: &[u8]) -> &[u8] {
    let end = name.iter().position(|&byte| byte == BLANK).unwrap_or(name.len());
    &name[..end]
}

/// The name in a format 1.
pub fn name_of(record: &Record) -> &Name {
    record.first_chunk().expect("a record is longer than a name")
}

const CELLS: usize = 1024;

/// The format 1s by the hash of their names: open addressing, more than half of the
/// cells empty even for 466 names. A cell holds a slot; 0 (the format 4's) means empty.
pub struct NameIndex {
    cells: [u16; CELLS],
}

impl NameIndex {
    pub(super) fn new() -> NameIndex {
        NameIndex { cells: [0; CELLS] }
    }

    /// Enters the format 1 at `slot`; false if its name is in.
    pub fn insert(&mut self, records: &[Record], slot: usize) -> bool {
        let name = name_of(&records[slot]);
        let mut at = hash(name);
        while self.cells[at] != 0 {
            if name_of(&records[usize::from(self.cells[at])]) == name {
                return false;
            }
            at = (at + 1) % CELLS;
        }
        self.cells[at] = slot as u16;
        true
    }

    /// The slot of the format 1 with this name.
    pub fn find(&self, records: &[Record], name: &Name) -> Option<usize> {
        let mut at = hash(name);
        while self.cells[at] != 0 {
            let slot = usize::from(self.cells[at]);
            if name_of(&records[slot]) == name {
                return Some(slot);
            }
            at = (at + 1) % CELLS;
        }
        None
    }
}

/// A multiplicative hash over the name's words, folded to a cell.
fn hash(name: &Name) -> usize {
    const MIX: u64 = 0x9E37_79B9_7F4A_7C15;
    let (words, rest) = name.as_chunks::<8>();
    let mut sum = rest.iter().fold(0u64, |sum, &byte| sum << 8 | u64::from(byte));
    for word in words {
        sum = (sum.rotate_left(23) ^ u64::from_le_bytes(*word)).wrapping_mul(MIX);
    }
    (sum >> 54) as usize
}
