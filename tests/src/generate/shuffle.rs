//! Another sound table for the same volume: records in other slots, types and units changed
//! where that is allowed.

use super::glance::glance;
use super::rng::Rng;

/// `table` with its format 0s, 1s, 3s and later format 5s moved about.
pub fn shuffled(rng: &mut Rng, table: &[u8]) -> Vec<u8> {
    let Some(glance) = glance(table) else { return table.to_vec() };
    let geometry = glance.geometry;
    let n = table.len() / 140;
    let mut to: Vec<usize> = (0..n).collect();
    // Slots 0 and 1 stay.
    for i in (3..n).rev() {
        to.swap(i, 2 + rng.below(i - 1));
    }
    let mut moved = vec![0; table.len()];
    for (from, label) in table.chunks_exact(140).enumerate() {
        let target = &mut moved[to[from] * 140..][..140];
        target.copy_from_slice(label);
        if let Some(slot) = label[135..].try_into().ok().and_then(|a| geometry.slot_at(a)) {
            target[135..].copy_from_slice(&geometry.address(to[slot]));
        }
    }
    if let Some(highest) = glance.sets.iter().map(|set| to[set.slot]).max() {
        moved[45..50].copy_from_slice(&geometry.address(highest));
    }
    for set in &glance.sets {
        let label = &mut moved[to[set.slot] * 140..][..140];
        if set.unit != 0 && rng.chance(30) {
            label[94] ^= 0x40;
        }
        let (start, length) = set.extents[0];
        if rng.chance(30) && start % geometry.heads == 0 && length % geometry.heads == 0 {
            label[105] ^= 0x80;
        }
    }
    moved
}
