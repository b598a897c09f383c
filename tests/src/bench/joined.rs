//! Tables on which an extend joins, made from a volume's table.

use crate::audit::{picture, Extent};
use crate::reference::layout::{put24, IN_FORMAT_1, MAX_EXTENTS, SECONDARY, UNIT, UNIT_TRACKS};

/// The name of a set that has sixteen extents, if there is one, or of `other`.
pub fn with_sixteen(table: &[u8], other: &[u8]) -> Option<Vec<u8>> {
    let sets = picture(table)?.sets;
    let long = sets.iter().find(|set| set.extents.len() == MAX_EXTENTS);
    Some(long.map_or(other.to_vec(), |set| set.name.to_vec()))
}

/// The table in which the set of this name has so many extents, the last of them where the longest free
/// extent begins, and asks for more tracks than any other free extent has: the extend joins. Nothing
/// where there are too few tracks or slots for that.
pub fn table(table: &[u8], name: &[u8], extents: usize) -> Option<Vec<u8>> {
    let mut volume = picture(table)?;
    let &(start, length) = volume.free.iter().max_by_key(|&&(_, length)| length)?;
    let format_0 = (1..table.len() / 140).find(|&slot| volume.is_format_0(slot));
    let set = volume.sets.iter_mut().find(|set| set.name == *name)?;
    let earlier = extents - 1;
    if set.extents.len() == extents {
        set.extents.pop();
    } else {
        // From the end of that free extent, every other track.
        let end = start + length;
        let wide_enough = 4 * extents as u32 <= length;
        let track = |e: usize| (0x01, end - 2 * e as u32 - 2, end - 2 * e as u32 - 2);
        set.extents = wide_enough.then(|| (0..earlier).map(track).collect::<Vec<Extent>>())?;
    }
    set.extents.push((0x01, start, start));
    set.format_3 = match extents > IN_FORMAT_1 {
        true => Some(set.format_3.or(format_0)?),
        false => None,
    };
    let slot = set.slot;
    let mut made = volume.table()?;
    let lengths = picture(&made)?.free.into_iter().filter(|&(at, _)| at != start + 1);
    let amount = 1 + lengths.map(|(_, length)| length).max().unwrap_or(0);
    let label = (&mut made[140 * slot..][..140]).try_into().ok()?;
    ask(label, amount);
    let growth = picture(&made)?.extend(name).ok()?;
    (growth.extents.len() == extents).then_some(made)
}

/// Puts the unit and the secondary amount into a format 1.
fn ask(label: &mut [u8; 140], tracks: u32) {
    label[UNIT] = UNIT_TRACKS;
    put24(label, SECONDARY, tracks);
}
