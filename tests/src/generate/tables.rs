//! Tables to judge, some 91,000: as calls leave them, with each kind of damage, with every byte of a
//! small volume or of a name changed, of every length, noise, volumes from elsewhere, and such as look
//! sound where sums wrap at 65,536.

use super::damage::{any_damage, damage, DAMAGES};
use super::rng::Rng;
use super::session::{Origin, Session};
use super::shapes::{Shape, SHAPES};
use super::wrapped::{self, Kind, Wrapped};
use crate::call::Reference;
use crate::irregular;
use crate::naming::random_of_length;
use crate::volumes::{
    fresh, many_extents, many_names, medium, place_name, small, survey_two_counters,
};

/// A table, where it comes from, and whether it was damaged.
pub struct Shown<'a> {
    pub table: &'a [u8],
    pub origin: &'a str,
    pub damaged: bool,
    /// Of a table that looks sound where sums wrap.
    pub wrapped: Option<Kind>,
}

/// Tables that look sound where sums wrap, of each kind for each sound one.
const WRAPPED: usize = 4;

/// Shows each table to `judge`.
pub fn every_table(judge: impl FnMut(Shown)) {
    let mut tables = Tables { judge, rng: Rng::new(1) };
    for seed in 0..300 {
        tables.life(seed, if Session::new(seed).shape == Shape::Large { 20 } else { 100 });
    }
    for &shape in &SHAPES[..5] {
        let session = Session::of_shape(9, shape);
        tables.show(session.table(), "shape");
        tables.every_damage(session.table(), &format!("{shape:?}"));
    }
    for (table, origin) in [
        (small(), "small"),
        (medium(), "medium"),
        (many_names(), "many names"),
        (many_extents(), "many extents"),
    ] {
        tables.show(&table, origin);
        (0..5).for_each(|_| tables.every_damage(&table, origin));
        tables.every_length(&table, origin);
    }
    tables.every_byte(&small(), "small");
    (0..100).for_each(|_| tables.noise());
    tables.every_name();
    for (table, origin) in [
        (survey_two_counters(), "survey"),
        (irregular::random_names(), "random names"),
        (irregular::small(), "irregular, small"),
        (irregular::medium(), "irregular, medium"),
        (irregular::many_extents(), "irregular, many extents"),
        (irregular::many_format_5s(), "irregular, many format 5s"),
    ] {
        tables.show(&table, origin);
        (0..5).for_each(|_| tables.every_damage(&table, origin));
    }
    for seed in 0..40 {
        tables.life_of(Session::elsewhere(seed), seed, 5);
    }
    tables.wrapped();
}

struct Tables<F> {
    judge: F,
    rng: Rng,
}

impl<F: FnMut(Shown)> Tables<F> {
    fn show(&mut self, table: &[u8], origin: &str) {
        (self.judge)(Shown { table, origin, damaged: false, wrapped: None });
    }

    fn show_damaged(&mut self, table: &[u8], origin: &str) {
        (self.judge)(Shown { table, origin, damaged: true, wrapped: None });
    }

    /// Document 02, [4]: sound tables, most of them of 65,535 tracks, and what looks like them.
    fn wrapped(&mut self) {
        wrapped::bases().iter().for_each(|table| self.show(table, "65,535 tracks, or near it"));
        wrapped::every(WRAPPED, |Wrapped { kind, table }| {
            let origin = &format!("{kind:?}");
            (self.judge)(Shown { table, origin, damaged: true, wrapped: Some(*kind) });
        });
    }

    /// Every byte of a table with other values.
    fn every_byte(&mut self, table: &[u8], origin: &str) {
        let mut table = table.to_vec();
        for at in 0..table.len() {
            let kept = table[at];
            for value in [kept.wrapping_add(1), kept.wrapping_sub(1), kept ^ 0x80, kept ^ 0x40] {
                table[at] = value;
                self.show_damaged(&table, &format!("{origin}, byte {at} {value:02X}"));
            }
            table[at] = kept;
        }
    }

    /// A name of each length, and each of its 44 bytes changed to characters of all kinds.
    fn every_name(&mut self) {
        for length in 1..=44 {
            let mut table = fresh(4, 5, 4, 1, 2);
            place_name(&mut table, &random_of_length(&mut self.rng, length), 0, 0, 4, 0);
            self.show(&table, "name");
            for at in 2 * 140..2 * 140 + 44 {
                let kept = table[at];
                for value in [0x40, 0x4B, 0x60, 0x7B, 0xC1, 0xCA, 0xE1, 0xF5] {
                    table[at] = value;
                    self.show_damaged(&table, &format!("name, byte {at} {value:02X}"));
                }
                table[at] = kept;
            }
        }
    }

    /// The table cut or padded to each number of records, and to one byte more and less.
    fn every_length(&mut self, table: &[u8], origin: &str) {
        for records in 0..=470_usize {
            for len in [140 * records, 140 * records + 1, (140 * records).saturating_sub(1)] {
                if len != table.len() {
                    let mut other = table.to_vec();
                    other.resize(len, 0);
                    self.show_damaged(&other, origin);
                }
            }
        }
    }

    /// Damage of each kind that the table has room for.
    fn every_damage(&mut self, table: &[u8], origin: &str) {
        for &kind in DAMAGES {
            if let Some(damaged) = damage(&mut self.rng, table, kind) {
                self.show_damaged(&damaged, &format!("{origin}, {kind:?}"));
            }
        }
    }

    /// A volume's life: each table that a call meets, and for most a damaged copy.
    fn life(&mut self, seed: u64, calls: usize) {
        self.life_of(Session::new(seed), seed, calls);
    }

    /// The same of a given volume.
    fn life_of(&mut self, mut session: Session, seed: u64, calls: usize) {
        let mut rng = Rng::new(!seed);
        let origin = format!("{:?}, session {seed}", session.shape);
        for _ in 0..calls {
            let trial = session.next_trial();
            let before = &trial.buffers.table;
            if trial.origin == Origin::Changed {
                self.show_damaged(before, &origin);
            } else {
                self.show(before, &origin);
                let mut damaged = any_damage(&mut rng, before);
                if rng.chance(10) {
                    damaged = any_damage(&mut rng, &damaged);
                }
                self.show_damaged(&damaged, &origin);
            }
            let mut buffers = trial.buffers.clone();
            trial.call.run(&Reference, &mut buffers);
            session.keep(&trial, buffers.table);
        }
    }

    /// Bytes that no call wrote.
    fn noise(&mut self) {
        let len = 140 * self.rng.range(3, 468) as usize;
        let table: Vec<u8> = (0..len).map(|_| self.rng.byte()).collect();
        self.show_damaged(&table, "random bytes");
        let same = vec![self.rng.byte(); len];
        self.show_damaged(&same, "one byte over and over");
    }
}
