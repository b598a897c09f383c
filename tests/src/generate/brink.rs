//! Volumes on the brink: 26, 27, 52 or 53 free extents and hardly a slot left, so that the
//! next call adds or drops a format 5, or finds the VTOC full.

use super::aim::scratch_of;
use super::names;
use super::rng::Rng;
use crate::call::{Buffers, Call, Reference, NO_DATE, NO_OPTION};
use crate::desk::attributes;
use crate::volumes::open_slots;

/// Tracks before the first free one: the label and a VTOC of one track.
const TAKEN: u32 = 2;

struct Plan {
    h: u32,
    c: u32,
    /// The widest gap between walls.
    gap: u32,
    /// Whether gaps begin after a cylinder's first track and hold just one whole cylinder:
    /// a grant of cylinders then leaves two holes for each it takes from.
    cut: bool,
    calls: Vec<Call>,
    /// The first track that the calls so far leave untouched.
    next: u32,
    holes: u32,
}

/// The table of such a volume.
pub fn table(rng: &mut Rng) -> Vec<u8> {
    let mut plan = Plan::new(rng);
    let target = [26, 27, 52, 53][rng.weighted(&[5, 3, 2, 1])];
    plan.stretch(rng);
    plan.walls(rng, target);
    // Once with room for all, to see how many slots it takes; then with hardly more.
    let used = 255 - open_slots(&plan.play(255)) as u32;
    let spare = rng.weighted(&[2, 2, 3, 5]) as u32;
    plan.play(used + spare)
}

impl Plan {
    fn new(rng: &mut Rng) -> Plan {
        let h = *rng.pick(&[1, 2, 2, 2, 3]).expect("heads");
        let gap = *rng.pick(&[1, 2, 2 * h, 2 * h + 1, 2 * h + 1]).expect("gaps");
        let cut = h > 1 && rng.chance(70);
        Plan { h, c: 1500 / h, gap, cut, calls: vec![], next: TAKEN, holes: 0 }
    }

    fn allocate(&mut self, rng: &mut Rng, kind: u32, start: u32, amount: u32, secondary: u32) {
        let name = names::lawful(rng, 5000);
        let attributes = attributes(rng.byte());
        let (option, expiry) = (NO_OPTION, NO_DATE.to_vec());
        self.calls.push(Call::Allocate {
            name,
            attributes,
            kind,
            start,
            amount,
            secondary,
            option,
            expiry,
        });
    }

    /// Two to four sets that grow side by side; one of them may go and leave its gaps.
    fn stretch(&mut self, rng: &mut Rng) {
        let sets = 2 + rng.below(3);
        for _ in 0..sets {
            // What they ask for later, when only gaps are left, comes in pieces.
            let kind = rng.range(0, 1);
            let secondary = rng.range(1, if kind == 0 { 5 * self.gap } else { 6 });
            self.allocate(rng, kind, 0, 1, secondary);
        }
        let names: Vec<Vec<u8>> = self.calls.iter().filter_map(name_of).collect();
        for _ in 0..rng.range(0, 14) {
            self.calls.extend(names.iter().map(|name| Call::Extend { name: name.clone() }));
        }
        if rng.chance(60) {
            self.calls.push(scratch_of(names[0].clone()));
        }
        let table = self.play(255);
        let glance = super::glance::glance(&table).expect("a sound table");
        self.holes = glance.holes.len() as u32 - 1;
        self.next = glance.holes.last().map_or(TAKEN, |hole| hole.0);
    }

    /// Short sets with short gaps between them, up to `target` free extents, and one that
    /// takes the rest of the volume.
    fn walls(&mut self, rng: &mut Rng, target: u32) {
        while self.holes < target {
            let (gap, wall) = match self.cut {
                true => {
                    let gap = if rng.chance(85) { 2 * self.h } else { 1 };
                    // So long that the next gap begins at HH = 1.
                    let aligned = |wall: &u32| (self.next + gap + wall) % self.h == 1;
                    (gap, (1..=self.h).find(aligned).unwrap_or(1))
                }
                false => (rng.range(1, self.gap), rng.range(1, 2)),
            };
            let last = self.holes + 1 == target;
            let rest = (self.c * self.h).saturating_sub(self.next + gap);
            if rest <= wall {
                break;
            }
            self.allocate(rng, 2, self.next + gap, if last { rest } else { wall }, 0);
            self.next += gap + wall;
            self.holes += 1;
        }
    }

    /// The table after the calls, with `n` records.
    fn play(&self, n: u32) -> Vec<u8> {
        let first = Call::Initialise { c: self.c, h: self.h, d: n.min(255), s: 1, v: 1 };
        let mut buffers = Buffers::new(vec![0; n.min(255) as usize * 140], 24, 280);
        for call in std::iter::once(&first).chain(&self.calls) {
            call.run(&Reference, &mut buffers);
        }
        buffers.table
    }
}

fn name_of(call: &Call) -> Option<Vec<u8>> {
    match call {
        Call::Allocate { name, .. } => Some(name.clone()),
        _ => None,
    }
}
