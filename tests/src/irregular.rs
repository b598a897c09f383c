//! Volumes as long use leaves them: names, slots, sizes and places at random, from fixed seeds.
//! Built by calls of the reference, then shuffled.

use std::collections::HashSet;

use crate::call::{NO_DATE, NO_OPTION};
use crate::generate::glance::glance;
use crate::generate::rng::Rng;
use crate::generate::shuffle::shuffled;
use crate::naming;
use crate::reference::{allocate, extend, release, taken};
use crate::volumes::{fresh, open_slots, scratch, ANSWER, ATTRIBUTES};

type Name = [u8; 44];

/// What a volume is to hold.
struct Plan {
    seed: u64,
    /// C, H, D, S, V.
    geometry: [u32; 5],
    /// Sets at absolute places.
    placed: usize,
    /// Sets that grow, and the extents of one of them.
    grown: usize,
    extents: fn(&mut Rng) -> usize,
    /// The most tracks of an extent, and by how much each round asks for more: holes that are too
    /// short for a later round stay.
    tracks: u32,
    rise: u32,
    /// Of 100 extents, those that get a neighbour which is scratched later and leaves a hole.
    neighbours: usize,
    /// Of 100 sets, those in cylinders, and those that are released in part at the end.
    cylinders: usize,
    released: usize,
}

/// 48 records, H = 15.
pub fn small() -> Vec<u8> {
    let plan = Plan {
        seed: 11,
        geometry: [200, 15, 16, 600, 3],
        placed: 4,
        grown: 20,
        extents: |rng| 1 + rng.below(16),
        tracks: 8,
        rise: 0,
        neighbours: 30,
        cylinders: 10,
        released: 20,
    };
    built(&plan)
}

/// A 3330 pack with 195 records, H = 19.
pub fn medium() -> Vec<u8> {
    let plan = Plan {
        seed: 12,
        geometry: [404, 19, 39, 3800, 5],
        placed: 20,
        grown: 96,
        extents: |rng| 1 + rng.below(16),
        tracks: 8,
        rise: 0,
        neighbours: 45,
        cylinders: 10,
        released: 20,
    };
    built(&plan)
}

/// 468 records, nearly all of them format 1s with random names.
pub fn random_names() -> Vec<u8> {
    let plan = Plan {
        seed: 13,
        geometry: [4369, 15, 52, 1, 9],
        placed: 120,
        grown: 326,
        extents: |rng| match rng.below(100) {
            0 => 4 + rng.below(13),
            1..=20 => 2 + rng.below(2),
            _ => 1,
        },
        tracks: 40,
        rise: 10,
        neighbours: 75,
        cylinders: 10,
        released: 10,
    };
    built(&plan)
}

/// 468 records, H = 255, most of them labels of sets with many extents.
pub fn many_extents() -> Vec<u8> {
    let plan = Plan {
        seed: 14,
        geometry: [257, 255, 39, 30_000, 12],
        placed: 60,
        grown: 218,
        extents: |rng| 1 + rng.below(16),
        tracks: 12,
        rise: 3,
        neighbours: 28,
        cylinders: 2,
        released: 20,
    };
    built(&plan)
}

/// The same with holes between most extents, and so many format 5s.
pub fn many_format_5s() -> Vec<u8> {
    let plan = Plan {
        seed: 15,
        geometry: [257, 255, 39, 30_000, 12],
        placed: 10,
        grown: 174,
        extents: |rng| 15 + rng.below(2),
        tracks: 6,
        rise: 7,
        neighbours: 100,
        cylinders: 0,
        released: 5,
    };
    built(&plan)
}

fn built(plan: &Plan) -> Vec<u8> {
    let [c, h, d, s, v] = plan.geometry;
    let (rng, table) = (Rng::new(plan.seed), fresh(c, h, d, s, v));
    let mut pack = Pack { rng, table, names: HashSet::new(), grew_last: None };
    pack.place(plan.placed, plan.tracks);
    let (mut grown, mut least) = (0, 0);
    while grown < plan.grown {
        // Walls cut the volume, so that what is granted between them lies in no order.
        let slots = open_slots(&pack.table);
        let walls = pack.place(slots / 3, 1);
        // Two slots for each set and two for a neighbour.
        let sets = (slots / 6).clamp(1, plan.grown - grown);
        pack.round(plan, sets, least);
        walls.iter().for_each(|name| pack.scratch(name));
        grown += sets;
        least += plan.rise;
    }
    pack.release_some(plan.released);
    let table = shuffled(&mut pack.rng, &pack.table);
    assert!(taken(&table), "the calls leave a sound table");
    table
}

/// A set that is to get so many extents more.
struct Grower {
    name: Name,
    kind: u32,
    amount: u32,
    wants: usize,
    begun: bool,
}

/// The extents of the set with this name.
fn extents(table: &[u8], name: &Name) -> u8 {
    let mut labels = table.chunks_exact(140);
    labels.find(|label| label[44] == 0xF1 && label[..44] == *name).map_or(0, |label| label[59])
}

struct Pack {
    rng: Rng,
    table: Vec<u8>,
    names: HashSet<Name>,
    grew_last: Option<Name>,
}

impl Pack {
    fn fresh_name(&mut self) -> Name {
        loop {
            let name = naming::random(&mut self.rng);
            if self.names.insert(name) {
                return name;
            }
        }
    }

    fn allocate(&mut self, name: &Name, kind: u32, start: u32, amount: u32) -> u32 {
        let secondary = if kind == 2 { 0 } else { amount };
        let attributes = ATTRIBUTES.map(|byte| byte ^ name[0]);
        let (table, option, expiry, answer) =
            (&mut self.table, NO_OPTION, &NO_DATE, &mut [0; ANSWER]);
        allocate(table, name, &attributes, kind, start, amount, secondary, option, expiry, answer)
    }

    /// `count` sets of up to `most` tracks, each at a random place in its share of the volume; none
    /// where that is not free.
    fn place(&mut self, count: usize, most: u32) -> Vec<Name> {
        let tracks = glance(&self.table).expect("sound").geometry.tracks();
        let share = tracks / count.max(1) as u32;
        let mut placed = vec![];
        for i in 0..count as u32 {
            let name = self.fresh_name();
            let (start, amount) = (i * share + self.rng.range(0, share), self.rng.range(1, most));
            if self.allocate(&name, 2, start, amount) == 0 {
                placed.push(name);
            }
        }
        placed
    }

    fn scratch(&mut self, name: &Name) {
        scratch(&mut self.table, name);
    }

    /// Sets that grow in turns, and between their extents those of neighbours that do not stay.
    fn round(&mut self, plan: &Plan, sets: usize, least: u32) {
        let mut staying: Vec<_> = (0..sets)
            .map(|_| {
                let wants = (plan.extents)(&mut self.rng);
                self.grower(plan, least, wants)
            })
            .collect();
        let (mut leaving, mut left) = (vec![], vec![]);
        while !staying.is_empty() {
            self.grow_one(&mut staying);
            if self.rng.chance(plan.neighbours) {
                if leaving.is_empty() {
                    leaving = (0..4).map(|_| self.grower(plan, least, 16)).collect();
                    left.extend(leaving.iter().map(|grower| grower.name));
                }
                self.grow_one(&mut leaving);
            }
        }
        left.iter().for_each(|name| self.scratch(name));
    }

    fn grower(&mut self, plan: &Plan, least: u32, wants: usize) -> Grower {
        let name = self.fresh_name();
        let kind = u32::from(self.rng.chance(plan.cylinders));
        let tracks = least + self.rng.range(1, plan.tracks);
        let amount = if kind == 1 { self.rng.range(1, 2) } else { tracks };
        Grower { name, kind, amount, wants, begun: false }
    }

    /// One of the growers gets an extent, or a longer one; it leaves the list when it has all, or can
    /// have no more. It is not the one that grew last, if there is another: what touches is joined.
    fn grow_one(&mut self, growers: &mut Vec<Grower>) {
        let mut at = self.rng.below(growers.len());
        if self.grew_last == Some(growers[at].name) {
            at = (at + 1) % growers.len();
        }
        let grower = &mut growers[at];
        self.grew_last = Some(grower.name);
        let before = extents(&self.table, &grower.name);
        let result = if grower.begun {
            extend(&mut self.table, &grower.name, &mut [0; ANSWER])
        } else {
            self.allocate(&grower.name, grower.kind, 0, grower.amount)
        };
        grower.begun = true;
        grower.wants -= usize::from(extents(&self.table, &grower.name) > before);
        if result != 0 || grower.wants == 0 {
            growers.swap_remove(at);
        }
    }

    /// Some sets keep only their first tracks.
    fn release_some(&mut self, percent: usize) {
        for set in glance(&self.table).expect("sound").sets {
            if self.rng.chance(percent) {
                let kept = self.rng.range(0, set.tracks() - 1);
                release(&mut self.table, &set.name, kept << 8 | 1, &mut [0; ANSWER]);
            }
        }
    }
}
