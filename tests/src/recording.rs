//! Recordings: the scripted sequences, and lives of volumes from a seed, with hostile calls and
//! damaged tables.

use crate::call::{Call, Reference, NO_DATE, NO_OPTION, TODAY};
use crate::cases::stories;
use crate::coverage::Coverage;
use crate::desk::Row;
use crate::generate::rng::Rng;
use crate::generate::session::{Origin, Session};
use crate::generate::shapes::Shape;
use crate::replay::{puts, record, Player, Record, RECORD};
use crate::short::{scratch, to_packed, to_stored};

/// The most records that may put a damage in, or take it out again.
const MOST_PUTS: usize = 3;

pub struct Recording {
    pub records: Vec<u8>,
    pub lines: Vec<u8>,
    pub coverage: Coverage,
    player: Player<'static, Reference>,
    /// The length of the volume's table, which every call lends unless it is a wrong one.
    table_len: usize,
}

impl Recording {
    fn new() -> Recording {
        Recording {
            records: vec![],
            lines: vec![],
            coverage: Coverage::default(),
            player: Player::new(&Reference),
            table_len: 0,
        }
    }

    pub fn calls(&self) -> usize {
        self.records.len() / RECORD
    }

    fn table(&self) -> &[u8] {
        &self.player.table[..self.table_len]
    }

    /// A copy of the table with these bytes.
    fn patched(&self, patches: &[(usize, u8)]) -> Vec<u8> {
        let mut copy = self.table().to_vec();
        patches.iter().for_each(|&(at, byte)| copy[at] = byte);
        copy
    }

    fn enter(&mut self, record: &Record) -> Vec<u8> {
        let line = self.player.play(record);
        self.records.extend(record);
        self.lines.extend(&line);
        line
    }

    /// Records a call and counts it.
    fn call(&mut self, call: &Call, record: &Record, origin: Origin) {
        let mut before = self.table().to_vec();
        let line = String::from_utf8(self.enter(record)).expect("ASCII");
        let result = line[3..5].parse().expect("a number");
        let digits = &line[6..54];
        let byte = |i: usize| u8::from_str_radix(&digits[2 * i..2 * i + 2], 16).expect("hex");
        let answer: Vec<u8> = (0..24).map(byte).collect();
        if let Call::Initialise { .. } = call {
            // What was there before need not be a table.
            before = self.table().to_vec();
        }
        let after = &self.player.table[..self.table_len];
        self.coverage.count(call, origin, result, &before, after, &answer);
    }

    /// A call with buffers of the right lengths.
    fn plain(&mut self, call: Call) {
        let record = record(&call, self.table_len, 24, 280).expect("right lengths fit");
        self.call(&call, &record, Origin::Live);
    }

    /// A call on a damaged copy of the table, which is put right again afterwards; nothing where
    /// that takes too many records.
    fn damaged(&mut self, damaged: &[u8], call: &Call, record: &Record) {
        let sound = self.table().to_vec();
        let damage = puts(&sound, damaged);
        if damage.len() > MOST_PUTS {
            return;
        }
        damage.iter().for_each(|record| drop(self.enter(record)));
        self.call(call, record, Origin::Changed);
        let repair = puts(self.table(), &sound);
        repair.iter().for_each(|record| drop(self.enter(record)));
    }

    /// The scripted sequences: Volume A, grants, refusals, chains, damaged tables.
    fn scripted(&mut self) {
        for row in stories().iter().flat_map(|sequence| &sequence.desk.rows) {
            match row {
                Row::Made { call, before, .. } => {
                    self.table_len = before.len();
                    self.plain(call.clone());
                }
                Row::Put { patches } => {
                    let other = self.patched(patches);
                    let records = puts(self.table(), &other);
                    records.iter().for_each(|record| drop(self.enter(record)));
                }
                Row::Hurt { patches, call, .. } => {
                    let damaged = self.patched(patches);
                    let record = record(call, self.table_len, 24, 280).expect("right lengths fit");
                    self.damaged(&damaged, call, &record);
                }
                Row::Sized { table, answer, labels, call, .. } => {
                    if let Some(record) = record(call, *table, *answer, *labels) {
                        self.call(call, &record, Origin::Probe);
                    }
                }
                Row::Listed { .. } | Row::Parts { .. } => {}
            }
        }
        // Initialise with a wrong length, which none of these has.
        let call = Call::Initialise { c: 4, h: 5, d: 4, s: 1, v: 2 };
        for (table, answer) in [(1119, 24), (1121, 24), (0, 24), (1120, 23), (1120, 25), (1120, 0)]
        {
            let record = record(&call, table, answer, 280).expect("these fit");
            self.call(&call, &record, Origin::Probe);
        }
    }

    /// Records that no recorder writes: operations that there are not, previews of calls that have none,
    /// lengths and places past the end of a buffer. What they leave is no table.
    fn hostile(&mut self) {
        let obtain = Call::Obtain { name: vec![0xC1; 44] };
        let allocate = Call::Allocate {
            name: vec![0xC1; 44],
            attributes: vec![0xFF; 52],
            kind: 0,
            start: 0,
            amount: 1,
            secondary: 0,
            option: NO_OPTION,
            expiry: NO_DATE.to_vec(),
        };
        for (at, bytes) in [
            (0, vec![0]),
            (0, vec![12]),
            (0, vec![0x81]),
            (0, vec![0x86]),
            (0, vec![0x89]),
            (0, vec![0x8A]),
            (0, vec![0x8B]),
            (0, vec![255]),
            (1, vec![47]),
            (1, vec![255]),
            (2, vec![55]),
            (2, vec![255]),
            (3, vec![33]),
            (3, vec![255]),
            (4, vec![1, 33]),
            (4, vec![255, 255]),
            (6, vec![255, 255]),
        ] {
            for call in [&obtain, &allocate] {
                let mut record = record(call, 1120, 24, 280).expect("right lengths fit");
                record[at..at + bytes.len()].copy_from_slice(&bytes);
                self.enter(&record);
            }
        }
        let dated = [to_stored(&TODAY), to_packed(&TODAY), scratch("A"), allocate];
        for (call, length) in dated.iter().flat_map(|call| [8, 255].map(|length| (call, length))) {
            let mut record = record(call, 1120, 24, 280).expect("right lengths fit");
            record[128] = length;
            self.enter(&record);
        }
        let mut put = [0x77; RECORD];
        put[0] = 9;
        for (at, length) in [(65_500_u32, 100), (65_535, 1), (65_536, 1), (u32::MAX, 100), (0, 255)]
        {
            put[1] = length;
            put[6..8].copy_from_slice(&[255, 255]);
            put[8..12].copy_from_slice(&at.to_be_bytes());
            self.enter(&put);
        }
    }

    /// A life on a fresh volume, of so many calls.
    fn life(&mut self, rng: &mut Rng, geometry: [u32; 5], shape: Shape, calls: usize) {
        let [c, h, d, s, v] = geometry;
        self.table_len = (d * v) as usize * 140;
        self.plain(Call::Initialise { c, h, d, s, v });
        let session = Session::on(rng.word(), self.table(), shape);
        let mut session = session.with_previews().with_dates();
        for _ in 0..calls {
            let trial = session.next_trial();
            let lent = &trial.buffers;
            let (answer, labels) = (lent.answer.len(), lent.labels.len());
            let Some(record) = record(&trial.call, lent.table.len(), answer, labels) else {
                continue;
            };
            if trial.origin != Origin::Changed || lent.table.len() != self.table_len {
                // Another length lends more or less of the same bytes.
                self.call(&trial.call, &record, trial.origin);
            } else {
                self.damaged(&lent.table, &trial.call, &record);
            }
            let table = self.table().to_vec();
            session.keep(&trial, table);
        }
    }
}

/// The scripted sequences and, for each of the lives, `calls` calls.
pub fn recording(seed: u64, calls: usize) -> Recording {
    let mut recording = Recording::new();
    let mut rng = Rng::new(seed);
    recording.scripted();
    recording.hostile();
    for (geometry, shape) in [
        ([10, 3, 3, 1, 2], Shape::Tiny),
        ([90, 2, 60, 1, 1], Shape::Worn),
        ([50, 4, 7, 11, 2], Shape::Stretched),
        ([40, 7, 15, 5, 2], Shape::Cylinders),
        ([70, 1, 29, 1, 1], Shape::Worn),
        ([65_535, 1, 36, 1, 1], Shape::Cylinders),
        ([257, 255, 20, 300, 1], Shape::Cylinders),
        ([1, 60, 1, 7, 8], Shape::Stretched),
    ] {
        recording.life(&mut rng, geometry, shape, calls);
    }
    recording
}
