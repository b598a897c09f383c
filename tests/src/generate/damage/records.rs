//! Damage to whole records, to the format 4, and to bytes anywhere.

use super::Patient;

pub fn any_byte(p: &mut Patient) -> Option<()> {
    let at = p.rng.below(p.table.len());
    p.table[at] = p.rng.byte();
    Some(())
}

/// A byte of a field that means something.
pub fn field_byte(p: &mut Patient) -> Option<()> {
    let slot = p.rng.below(p.slots());
    let fields: &[usize] = match p.record(slot)[44] {
        0xF1 => &[0, 1, 8, 43, 44, 59, 94, 95, 97, 105, 106, 108, 110, 112, 114, 115, 125, 139],
        0xF3 => &[0, 3, 4, 5, 7, 9, 11, 13, 44, 45, 46, 125, 134, 135, 139],
        0xF4 => &[0, 43, 44, 48, 49, 50, 51, 59, 62, 63, 64, 65, 74, 105, 106, 108, 110, 112, 114],
        0xF5 => &[0, 3, 4, 5, 6, 7, 8, 9, 10, 44, 45, 49, 130, 134, 135, 138, 139],
        _ => &[0, 44, 59, 105, 139],
    };
    let at = slot * 140 + p.rng.pick(fields)?;
    p.table[at] = p.other_byte(p.table[at]);
    Some(())
}

/// A byte that must be zero: it belongs to no field, or to an unused one.
pub fn zero_byte(p: &mut Patient) -> Option<()> {
    let zeros: Vec<usize> = (0..p.table.len()).filter(|&at| p.table[at] == 0).collect();
    let at = *p.rng.pick(&zeros)?;
    p.table[at] = p.rng.range(1, 255) as u8;
    Some(())
}

pub fn swap(p: &mut Patient) -> Option<()> {
    let (a, b) = (p.rng.below(p.slots()), p.rng.below(p.slots()));
    let kept = p.record(a).to_vec();
    p.table.copy_within(b * 140..(b + 1) * 140, a * 140);
    p.record(b).copy_from_slice(&kept);
    Some(())
}

/// A record over another: two roles of the same kind, one of them not accounted for.
pub fn copy(p: &mut Patient) -> Option<()> {
    let (a, b) = (p.rng.below(p.slots()), p.rng.below(p.slots()));
    p.table.copy_within(a * 140..(a + 1) * 140, b * 140);
    Some(())
}

pub fn erase(p: &mut Patient) -> Option<()> {
    let slot = p.rng.below(p.slots());
    let was_free = p.record(slot).iter().all(|&b| b == 0);
    p.record(slot).fill(0);
    if p.rng.chance(50) {
        p.adjust_format_0s(i32::from(!was_free));
    }
    Some(())
}

pub fn format_byte(p: &mut Patient) -> Option<()> {
    let slot = p.rng.below(p.slots());
    let value = *p.rng.pick(&[0, 0xF0, 0xF1, 0xF2, 0xF3, 0xF4, 0xF5, 0xF6])?;
    p.record(slot)[44] = value;
    Some(())
}

pub fn format_0_count(p: &mut Patient) -> Option<()> {
    let by = *p.rng.pick(&[-1, 1, 256, -256, 2])?;
    p.adjust_format_0s(by);
    Some(())
}

/// The address of a slot, most often with another record than the highest format 1.
pub fn highest_format_1(p: &mut Patient) -> Option<()> {
    let slot = p.rng.below(p.slots());
    let address = if p.rng.chance(20) { [0; 5] } else { p.glance.geometry.address(slot) };
    p.table[45..50].copy_from_slice(&address);
    Some(())
}

/// C, H or D as of another volume.
pub fn geometry(p: &mut Patient) -> Option<()> {
    let at = *p.rng.pick(&[62, 63, 64, 65, 74])?;
    p.table[at] = p.other_byte(p.table[at]);
    if p.rng.chance(30) {
        let at = *p.rng.pick(&[63, 65, 74])?;
        p.table[at] = p.other_byte(p.table[at]);
    }
    Some(())
}

/// The VTOC one track off, longer, shorter, or of another type.
pub fn vtoc_extent(p: &mut Patient) -> Option<()> {
    let geometry = p.glance.geometry;
    let (first, last) = (geometry.vtoc_start, geometry.vtoc_end() - 1);
    let (first, last) = match p.rng.below(5) {
        0 => (first + 1, last + 1),
        1 => (first - 1, last - 1),
        2 => (first, last + 1),
        3 => (first, last.max(1) - 1),
        _ => {
            let at = 105 + p.rng.below(10);
            p.table[at] = p.other_byte(p.table[at]);
            return Some(());
        }
    };
    p.table[107..111].copy_from_slice(&geometry.cchh(first));
    p.table[111..115].copy_from_slice(&geometry.cchh(last));
    Some(())
}
