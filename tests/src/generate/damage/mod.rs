//! Damage to sound tables: one fault at a time, everything else kept consistent, so that
//! each rule of the check stands alone. Most faults must be refused; a few are none.

mod chain;
mod labels;
mod records;

use super::glance::{glance, Glance, SetGlance};
use super::rng::Rng;

macro_rules! damages {
    ($($name:ident => $function:path),* $(,)?) => {
        /// The kinds of damage.
        #[derive(Clone, Copy, Debug, PartialEq, Eq, PartialOrd, Ord)]
        pub enum Damage { $($name),* }

        pub const DAMAGES: &[Damage] = &[$(Damage::$name),*];

        impl Damage {
            fn function(self) -> fn(&mut Patient) -> Option<()> {
                match self { $(Damage::$name => $function),* }
            }
        }
    };
}

damages! {
    AnyByte => records::any_byte,
    FieldByte => records::field_byte,
    ZeroByte => records::zero_byte,
    SwapRecords => records::swap,
    CopyRecord => records::copy,
    EraseRecord => records::erase,
    FormatByte => records::format_byte,
    Format0Count => records::format_0_count,
    HighestFormat1 => records::highest_format_1,
    Geometry => records::geometry,
    VtocExtent => records::vtoc_extent,
    ChainLoop => chain::chain_loop,
    ChainLink => chain::chain_link,
    ChainTooLong => chain::too_long,
    TouchingEntries => chain::touching,
    UnsortedEntries => chain::unsorted,
    EntryGap => chain::entry_gap,
    EmptyEntry => chain::empty_entry,
    EntryLength => chain::entry_length,
    OddTracks => chain::odd_tracks,
    DuplicateName => labels::duplicate_name,
    BadName => labels::bad_name,
    Format3Twice => labels::format_3_twice,
    Format3Unnamed => labels::format_3_unnamed,
    Format3Link => labels::format_3_link,
    ExtentCount => labels::extent_count,
    ExtentNumber => labels::extent_number,
    ExtentType => labels::extent_type,
    Overlap => labels::overlap,
    LostTrack => labels::lost_track,
    WideHead => labels::wide_head,
    Unit => labels::unit,
    SwapExtents => labels::swap_extents,
    FreeFields => labels::free_fields,
}

/// A copy of `table` with one damage of this kind, where the table has room for it.
pub fn damage(rng: &mut Rng, table: &[u8], kind: Damage) -> Option<Vec<u8>> {
    let mut patient = Patient { glance: glance(table)?, table: table.to_vec(), rng };
    kind.function()(&mut patient)?;
    Some(patient.table)
}

/// A copy with some damage: of any kind that fits.
pub fn any_damage(rng: &mut Rng, table: &[u8]) -> Vec<u8> {
    for _ in 0..50 {
        let kind = *rng.pick(DAMAGES).expect("kinds");
        if let Some(damaged) = damage(rng, table, kind) {
            return damaged;
        }
    }
    table.to_vec()
}

struct Patient<'a> {
    rng: &'a mut Rng,
    table: Vec<u8>,
    glance: Glance,
}

impl Patient<'_> {
    fn record(&mut self, slot: usize) -> &mut [u8] {
        &mut self.table[slot * 140..(slot + 1) * 140]
    }

    fn slots(&self) -> usize {
        self.table.len() / 140
    }

    fn a_set(&mut self) -> Option<SetGlance> {
        self.rng.pick(&self.glance.sets).cloned()
    }

    fn a_set_with_format_3(&mut self) -> Option<(SetGlance, usize)> {
        let sets: Vec<_> = self.glance.sets.iter().filter(|set| set.format_3.is_some()).collect();
        let set = (*self.rng.pick(&sets)?).clone();
        let slot = set.format_3?;
        Some((set, slot))
    }

    /// A set and one of its extents: record, byte in the table, number.
    fn an_extent(&mut self) -> Option<(SetGlance, usize, usize)> {
        // A table that was damaged before may have a set without any.
        let set = self.a_set().filter(|set| !set.extents.is_empty())?;
        let e = self.rng.below(set.extents.len());
        let at = extent_at(&set, e);
        Some((set, at, e))
    }

    /// Adds to the number of format 0s, for faults that make or take records.
    fn adjust_format_0s(&mut self, by: i32) {
        let now = i32::from(self.table[50]) << 8 | i32::from(self.table[51]);
        self.table[50..52].copy_from_slice(&((now + by) as u16).to_be_bytes());
    }

    /// Some wrong value for a byte that is now `value`.
    fn other_byte(&mut self, value: u8) -> u8 {
        let near = [value.wrapping_add(1), value.wrapping_sub(1), value ^ 0x80, value ^ 0x40];
        let marked = [0x00, 0x01, 0x03, 0x05, 0x81, 0xC0, 0xF1, 0xF3, 0xF5, 0xFF];
        match self.rng.below(3) {
            0 => near[self.rng.below(4)],
            1 => marked[self.rng.below(10)],
            _ => self.rng.byte(),
        }
    }
}

/// Where extent `e` of a set lies in the table.
fn extent_at(set: &SetGlance, e: usize) -> usize {
    match set.format_3 {
        Some(slot) if e >= 3 => slot * 140 + 4 + 10 * (e - 3) + usize::from(e >= 7),
        _ => set.slot * 140 + 105 + 10 * e,
    }
}
