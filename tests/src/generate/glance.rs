//! A quick look at a sound table, so that calls can be aimed at what is there.

use crate::reference::geometry::Geometry;

/// A data set as the generator needs it.
#[derive(Clone, Debug)]
pub struct SetGlance {
    pub slot: usize,
    pub format_3: Option<usize>,
    pub name: Vec<u8>,
    /// First track and length of each extent.
    pub extents: Vec<(u32, u32)>,
    /// The type of each.
    pub kinds: Vec<u8>,
    pub unit: u8,
    pub secondary: u32,
    /// What stands in the place of its expiry date.
    pub expiry: [u8; 3],
}

impl SetGlance {
    pub fn tracks(&self) -> u32 {
        self.extents.iter().map(|&(_, length)| length).sum()
    }
}

#[derive(Clone, Debug)]
pub struct Glance {
    pub geometry: Geometry,
    /// Start and length, ascending.
    pub holes: Vec<(u32, u32)>,
    pub sets: Vec<SetGlance>,
    /// Slots of the format 5s and of the format 0s.
    pub format_5s: Vec<usize>,
    pub open: Vec<usize>,
}

/// The place of the expiry date in a format 1.
pub const EXPIRY: std::ops::Range<usize> = 56..59;

/// What the set with this name has there.
pub fn stored_date(table: &[u8], name: &[u8]) -> Option<[u8; 3]> {
    let mut labels = table.chunks_exact(140);
    let label = labels.find(|label| label[44] == 0xF1 && label[..44] == *name)?;
    label[EXPIRY].try_into().ok()
}

fn be(bytes: &[u8]) -> u32 {
    bytes.iter().fold(0, |sum, &byte| sum << 8 | u32::from(byte))
}

/// Looks at a table; the numbers mean something only where it is taken.
pub fn glance(table: &[u8]) -> Option<Glance> {
    let slots: Vec<&[u8]> = table.chunks_exact(140).collect();
    let first = slots.first()?;
    let (c, h, d) = (be(&first[62..64]), be(&first[64..66]), be(&first[74..75]));
    let track = |at: &[u8]| be(&at[..2]) * h + be(&at[2..4]);
    let (s, last) = (track(&first[107..111]), track(&first[111..115]));
    let geometry = Geometry::new(c, h, d, s, (last + 1).checked_sub(s)?)?;
    let of_format = |byte: u8| (1..slots.len()).filter(|&k| slots[k][44] == byte).collect();
    let format_5s: Vec<usize> = of_format(0xF5);
    let entries = format_5s.iter().flat_map(|&k| fields(slots[k], 5));
    let mut holes: Vec<(u32, u32)> = entries
        .map(|e| (be(&e[..2]), be(&e[2..4]) * h + be(&e[4..5])))
        .filter(|&(_, length)| length > 0)
        .collect();
    holes.sort_unstable();
    let set = |k: usize| {
        let label = slots[k];
        let format_3 = geometry.slot_at(label[135..140].try_into().ok()?);
        let more = format_3.map_or(vec![], |k| fields(slots[k], 10));
        let parts = label[105..135].chunks(10).chain(more).take(usize::from(label[59]));
        let (kinds, extents) = parts
            .map(|e| (e[0], (track(&e[2..6]), track(&e[6..10]))))
            .map(|(kind, (first, last))| (kind, (first, (last + 1).saturating_sub(first))))
            .unzip();
        let name = label[..44].to_vec();
        let (unit, secondary) = (label[94], be(&label[95..98]));
        let expiry = label[EXPIRY].try_into().ok()?;
        Some(SetGlance { slot: k, format_3, name, extents, kinds, unit, secondary, expiry })
    };
    let format_1s: Vec<usize> = of_format(0xF1);
    let sets = format_1s.into_iter().filter_map(set).collect();
    Some(Glance { geometry, holes, sets, format_5s, open: of_format(0) })
}

/// The fields of a format 3 or 5, which lie on both sides of byte 44.
fn fields(label: &[u8], width: usize) -> Vec<&[u8]> {
    label[4..44].chunks(width).chain(label[45..135].chunks(width)).collect()
}
