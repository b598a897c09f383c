//! A volume's life: calls one after another, most of them kept, some on spoiled copies.

use super::aim::{scratch_of, Aim};
use super::brink;
use super::damage::any_damage;
use super::dates;
use super::elsewhere;
use super::glance::{glance, EXPIRY};
use super::hostile::spoil;
use super::rng::Rng;
use super::shapes::{beyond, geometry, Shape, SHAPES};
use super::shuffle::shuffled;
use super::touching;
use crate::call::{Buffers, Call, Reference, ALX, MXIG};

/// One call to make and the buffers to make it with.
#[derive(Clone, Debug)]
pub struct Trial {
    pub call: Call,
    pub buffers: Buffers,
    pub origin: Origin,
}

/// Where a trial's table comes from.
#[derive(Clone, Copy, Debug, PartialEq, Eq)]
pub enum Origin {
    /// The volume as it is; what the call leaves is its next state.
    Live,
    /// A copy of the volume; the call is made to see what it would do.
    Probe,
    /// A copy that was damaged, cut or padded.
    Changed,
}

/// What a volume mostly does for a while.
#[derive(Clone, Copy)]
enum Phase {
    Fill,
    Wear,
    Stretch,
    Drain,
    /// Calls that make and free records, on a volume on the brink.
    Tip,
    /// Releases, most of all.
    Cut,
    /// Extends, most of all.
    Join,
}

pub struct Session {
    rng: Rng,
    pub shape: Shape,
    phase: Phase,
    table: Vec<u8>,
    /// Whether the table may turn into another sound one without a call.
    shuffles: bool,
    /// The set that took the longest candidates whole with the last call.
    greedy: Option<Vec<u8>>,
    /// Draws the previews, where there are any: lives without them are as they were before request [3].
    previews: Option<Rng>,
    /// Draws the dates, alike: without them nothing has an expiry date, and no date is converted.
    dates: Option<Rng>,
    /// What comes after a preview, the last one first.
    next: Vec<Trial>,
}

/// Weights of tracks, cylinders, absolute, wall, extend, release, scratch, rename, obtain,
/// lspace, initialise.
fn weights(phase: Phase, shape: Shape) -> [usize; 11] {
    let cylinders = if shape == Shape::Cylinders { 4 } else { 1 };
    match phase {
        Phase::Fill => [40, 10 * cylinders, 10, 5, 20, 6, 6, 3, 3, 3, 1],
        Phase::Wear => [6, 6 * cylinders, 20, 60, 6, 6, 8, 2, 2, 2, 1],
        Phase::Stretch => [6, 2 * cylinders, 4, 4, 70, 10, 4, 2, 4, 2, 0],
        Phase::Drain => [10, 3 * cylinders, 5, 5, 5, 30, 30, 3, 3, 3, 1],
        Phase::Tip => [14, 30, 4, 3, 25, 25, 20, 1, 2, 1, 0],
        Phase::Cut => [4, 6, 3, 3, 12, 90, 4, 2, 3, 1, 0],
        Phase::Join => [3, 3, 2, 2, 90, 8, 4, 1, 4, 1, 0],
    }
}

impl Session {
    pub fn new(seed: u64) -> Session {
        let mut rng = Rng::new(seed);
        // Large ones are slow, and so are few.
        let shape = SHAPES[rng.weighted(&[4, 3, 2, 2, 5, 1])];
        Session::of_shape(rng.word(), shape)
    }

    /// A volume of the given shape, set up and worn in.
    pub fn of_shape(seed: u64, shape: Shape) -> Session {
        let mut rng = Rng::new(seed);
        if shape == Shape::Brink {
            let table = brink::table(&mut rng);
            return Session {
                phase: Phase::Tip,
                shuffles: true,
                ..Session::with(rng, table, shape)
            };
        }
        let g = geometry(&mut rng, shape);
        let call = Call::Initialise {
            c: g.cylinders,
            h: g.heads,
            d: g.per_track,
            s: g.vtoc_start,
            v: g.vtoc_tracks,
        };
        let mut buffers = Buffers::new(vec![0; g.table_len()], 24, 280);
        call.run(&Reference, &mut buffers);
        let mut session = Session { shuffles: true, ..Session::with(rng, buffers.table, shape) };
        if shape == Shape::Worn || (shape != Shape::Tiny && session.rng.chance(50)) {
            session.phase = Phase::Wear;
            for _ in 0..session.rng.below(g.slots().min(80)) {
                let call = session.honest_call();
                session.make(&call);
            }
        }
        session
    }

    /// A volume that comes from elsewhere, with sets to release.
    pub fn elsewhere(seed: u64) -> Session {
        let mut rng = Rng::new(seed);
        let table = elsewhere::table(&mut rng);
        let session = Session::with(rng, table, Shape::Elsewhere);
        Session { phase: Phase::Cut, shuffles: true, ..session }
    }

    /// A volume with free tracks behind sets that can be extended.
    pub fn touching(seed: u64) -> Session {
        let mut rng = Rng::new(seed);
        let table = touching::table(&mut rng);
        let session = Session::with(rng, table, Shape::Touching);
        Session { phase: Phase::Join, shuffles: true, ..session }
    }

    /// A life that goes on from a given sound table, by calls alone.
    pub fn on(seed: u64, table: &[u8], shape: Shape) -> Session {
        Session::with(Rng::new(seed), table.to_vec(), shape)
    }

    fn with(rng: Rng, table: Vec<u8>, shape: Shape) -> Session {
        let (phase, shuffles, greedy) = (Phase::Fill, false, None);
        let (previews, dates, next) = (None, None, vec![]);
        Session { rng, shape, phase, table, shuffles, greedy, previews, dates, next }
    }

    /// The same life with previews: before many calls their own, some of them twice, and now and then
    /// one of a call that is not made.
    pub fn with_previews(mut self) -> Session {
        self.previews = Some(Rng::new(self.rng.clone().word()));
        self
    }

    /// The same life with dates: sets that expire, days before and after, conversions; and, where the
    /// table may turn into another one without a call, any bytes where an expiry date is stored.
    pub fn with_dates(mut self) -> Session {
        let mut rng = Rng::new(!self.rng.clone().word());
        if self.shuffles {
            (0..8).for_each(|_| self.age(&mut rng));
        }
        self.dates = Some(rng);
        self
    }

    /// Some set gets bytes of earlier days.
    fn age(&mut self, rng: &mut Rng) {
        let sets = glance(&self.table).map_or(vec![], |glance| glance.sets);
        if let Some(set) = rng.pick(&sets) {
            let label = &mut self.table[140 * set.slot..][..140];
            label[EXPIRY].copy_from_slice(&dates::any_stored(rng));
        }
    }

    pub fn table(&self) -> &[u8] {
        &self.table
    }

    /// Makes a call with the reference and keeps its effect.
    fn make(&mut self, call: &Call) {
        if matches!(call, Call::Initialise { .. }) {
            return;
        }
        let mut buffers = Buffers::new(std::mem::take(&mut self.table), 24, 280);
        call.run(&Reference, &mut buffers);
        self.table = buffers.table;
    }

    /// The next call. Give its outcome to `keep`.
    pub fn next_trial(&mut self) -> Trial {
        if let Some(trial) = self.next.pop() {
            return trial;
        }
        let trial = self.dated_call();
        let (Some(rng), Some(call)) = (&mut self.previews, trial.call.preview()) else {
            return trial;
        };
        let preview = Trial { call, ..trial.clone() };
        match rng.below(10) {
            0 => preview,
            1 => {
                self.next = vec![trial, preview.clone()];
                preview
            }
            2..=4 => {
                self.next = vec![trial];
                preview
            }
            _ => trial,
        }
    }

    /// A call that is no preview, with its dates.
    fn dated_call(&mut self) -> Trial {
        let Some(mut rng) = self.dates.take() else {
            return self.call_alone();
        };
        if self.shuffles && rng.chance(3) {
            self.age(&mut rng);
        }
        let mut trial = self.call_alone();
        dates::dress(&mut rng, &mut trial.call, &trial.buffers.table);
        self.dates = Some(rng);
        trial
    }

    /// A call without dates that is no preview.
    fn call_alone(&mut self) -> Trial {
        // A few calls end what is special about such a volume; most of them are only tried there.
        let is_special = matches!(self.shape, Shape::Brink | Shape::Elsewhere | Shape::Touching);
        if self.rng.chance(4) && !is_special {
            self.phase =
                [Phase::Fill, Phase::Wear, Phase::Stretch, Phase::Drain][self.rng.below(4)];
        }
        if self.shuffles && self.rng.chance(1) {
            // As sound as before, but as no series of calls would leave it.
            self.table = shuffled(&mut self.rng, &self.table);
        }
        let mut call = self.honest_call();
        let mut buffers = Buffers::new(self.table.clone(), 24, 280);
        let stays = is_special && self.rng.chance(80);
        let mut origin = if stays { Origin::Probe } else { Origin::Live };
        match self.rng.below(100) {
            0..=7 => {
                spoil(&mut self.rng, &mut call, &mut buffers);
                if buffers.table.len() != self.table.len() {
                    origin = Origin::Changed;
                }
            }
            8..=24 => {
                buffers.table = any_damage(&mut self.rng, &self.table);
                origin = Origin::Changed;
            }
            _ => {}
        }
        Trial { call, buffers, origin }
    }

    /// Takes the table as the call left it.
    pub fn keep(&mut self, trial: &Trial, table: Vec<u8>) {
        if trial.origin == Origin::Live {
            self.greedy = match &trial.call {
                Call::Allocate { name, option: MXIG | ALX, .. } if self.table != table => {
                    Some(name.clone())
                }
                _ => None,
            };
            self.table = table;
        }
    }

    /// Most sets that took the longest candidates whole give them back, or all but a few tracks, or
    /// no free extent worth a call would be left.
    fn give_back(&mut self) -> Option<Call> {
        let name = self.greedy.take()?;
        match self.rng.below(8) {
            0 => None,
            1..=3 => Some(Call::Release { name, ttr: self.rng.range(0, 3) << 8 | 1 }),
            _ => Some(scratch_of(name)),
        }
    }

    fn honest_call(&mut self) -> Call {
        if let Some(call) = self.give_back() {
            return call;
        }
        let Some(glance) = glance(&self.table) else {
            return Call::Lspace;
        };
        let which = self.rng.weighted(&weights(self.phase, self.shape));
        let g = glance.geometry;
        let mut aim = Aim { rng: &mut self.rng, glance: &glance };
        match which {
            0 => aim.tracks(),
            1 => aim.cylinders(),
            2 => aim.absolute(),
            3 => aim.wall(),
            4 => aim.extend(),
            5 => aim.release(),
            6 => aim.scratch(),
            7 => aim.rename(),
            8 => aim.obtain(),
            9 => Call::Lspace,
            _ if self.rng.chance(50) => {
                let [c, h, d, s, v] = beyond(&mut self.rng);
                Call::Initialise { c, h, d, s, v }
            }
            _ => {
                let s = self.rng.range(1, g.tracks() - g.vtoc_tracks);
                let (c, h, d, v) = (g.cylinders, g.heads, g.per_track, g.vtoc_tracks);
                Call::Initialise { c, h, d, s, v }
            }
        }
    }
}

/// So many volumes, of all shapes but the largest, each looked at after every few of its 72 turns.
pub fn lives(volumes: u64, turns: usize, mut look: impl FnMut(&[u8])) {
    for (seed, &shape) in (0..volumes).zip(SHAPES[..5].iter().cycle()) {
        let mut session = Session::of_shape(seed, shape);
        for turn in 1..=72 {
            let trial = session.next_trial();
            let mut buffers = trial.buffers.clone();
            trial.call.run(&Reference, &mut buffers);
            session.keep(&trial, buffers.table);
            if turn % turns == 0 {
                look(session.table());
            }
        }
    }
}
