//! A table with the calls in short form, for tests and scripted cases. Each call is kept as
//! a row, and each is watched: a refused one must not write a byte.

use crate::call::{Buffers, Call, Reference, NO_DATE, NO_OPTION};
use crate::reference::layout::extent_part;
use crate::reference::{listing, taken};
use crate::short;
use crate::volumes::name;

/// What came of a call.
#[derive(Clone, Debug, PartialEq, Eq)]
pub struct Outcome {
    pub result: u32,
    pub answer: Vec<u8>,
    pub labels: Vec<u8>,
}

/// A call made and what came of it.
#[derive(Clone, Debug)]
pub enum Row {
    /// On the desk's own table, which is given as it was left.
    Made { call: Call, outcome: Outcome, before: Vec<u8>, after: Vec<u8> },
    /// No call: these bytes of the table are changed, and it is as sound as before.
    Put { patches: Vec<(usize, u8)> },
    /// On a copy with these bytes changed.
    Hurt { patches: Vec<(usize, u8)>, call: Call, result: u32 },
    /// On a copy cut or zero-padded to a length, with output buffers of given lengths.
    Sized { table: usize, answer: usize, labels: usize, call: Call, result: u32 },
    /// The listing of a copy with these bytes changed, cut or zero-padded to a length.
    Listed { patches: Vec<(usize, u8)>, table: usize, text: Vec<u8> },
    /// The ten bytes of each extent number from 0 to 17 in records of these lengths, the number of
    /// bytes before each.
    Parts { format_1: usize, format_3: usize, parts: Vec<u8> },
}

#[derive(Clone, Debug, Default)]
pub struct Desk {
    pub table: Vec<u8>,
    pub rows: Vec<Row>,
}

/// The 52 attribute bytes made from `k`.
pub fn attributes(k: u8) -> Vec<u8> {
    attributes_of(52, k)
}

/// `len` attribute bytes made from `k`.
pub fn attributes_of(len: usize, k: u8) -> Vec<u8> {
    (1..=len).map(|i| (usize::from(k) * i) as u8).collect()
}

impl Desk {
    /// A desk with a table fresh from initialise.
    pub fn begin(c: u32, h: u32, d: u32, s: u32, v: u32) -> Desk {
        let mut desk = Desk::default();
        desk.initialise(c, h, d, s, v).accepted();
        desk
    }

    /// Initialise with a table of the right length; of none where the geometry is bad.
    pub fn initialise(&mut self, c: u32, h: u32, d: u32, s: u32, v: u32) -> Outcome {
        let good = crate::reference::geometry::Geometry::new(c, h, d, s, v);
        let kept = std::mem::replace(&mut self.table, vec![0; good.map_or(0, |g| g.table_len())]);
        let outcome = self.call(Call::Initialise { c, h, d, s, v });
        if outcome.result != 0 {
            self.table = kept;
        }
        outcome
    }

    /// Makes a call on the desk's table.
    #[track_caller]
    pub fn call(&mut self, call: Call) -> Outcome {
        let before = self.table.clone();
        let mut buffers = Buffers::new(std::mem::take(&mut self.table), 24, 280);
        let untouched = buffers.clone();
        let result = call.run(&Reference, &mut buffers);
        if result != 0 {
            assert_eq!(buffers, untouched, "refused with {result} but written: {call:?}");
        }
        let Buffers { table, answer, labels } = buffers;
        let outcome = Outcome { result, answer, labels };
        self.table = table;
        let after = self.table.clone();
        self.rows.push(Row::Made { call, outcome: outcome.clone(), before, after });
        outcome
    }

    /// Makes the preview of a call on the desk's table, which must not change.
    #[track_caller]
    pub fn preview(&mut self, call: &Call) -> Outcome {
        let before = self.table.clone();
        let outcome = self.call(call.preview().expect("a call that has a preview"));
        assert!(self.table == before, "written by a preview: {call:?}");
        outcome
    }

    /// Makes the preview of a call and then the call, which must have the same outcome.
    #[track_caller]
    pub fn seen_and_made(&mut self, call: Call) -> Outcome {
        let seen = self.preview(&call);
        assert_eq!(self.call(call), seen);
        seen
    }

    /// Takes another system's table of the same length in place of its own.
    #[track_caller]
    pub fn put(&mut self, changed: &[u8]) {
        assert!(taken(changed) && changed.len() == self.table.len(), "no table for this desk");
        self.rows.push(Row::Put { patches: self.patches(changed) });
        self.table = changed.to_vec();
    }

    /// Makes a call on a damaged copy of the table.
    pub fn hurt(&mut self, damaged: &[u8], call: Call) -> u32 {
        let patches = self.patches(damaged);
        let result = call.run(&Reference, &mut Buffers::new(damaged.to_vec(), 24, 280));
        self.rows.push(Row::Hurt { patches, call, result });
        result
    }

    /// Makes a call with buffers of other lengths.
    pub fn sized(&mut self, table: usize, answer: usize, labels: usize, call: Call) -> u32 {
        let mut bytes = self.table.clone();
        bytes.resize(table, 0);
        let result = call.run(&Reference, &mut Buffers::new(bytes, answer, labels));
        self.rows.push(Row::Sized { table, answer, labels, call, result });
        result
    }

    /// Lists a changed copy of the table, cut or zero-padded to a length.
    pub fn listed(&mut self, changed: &[u8], table: usize) -> String {
        let patches = self.patches(changed);
        let mut bytes = changed.to_vec();
        bytes.resize(table, 0);
        let text = listing(&bytes);
        self.rows.push(Row::Listed { patches, table, text: text.clone() });
        String::from_utf8(text).expect("a listing is ASCII")
    }

    /// Asks for all extents of two records of these lengths, made as attributes are.
    pub fn parts(&mut self, format_1: usize, format_3: usize) {
        let (one, three) = (attributes_of(format_1, 1), attributes_of(format_3, 3));
        let part = |e| extent_part(&one, &three, e);
        let parts = (0..18).flat_map(|e| [&[part(e).len() as u8], part(e)].concat()).collect();
        self.rows.push(Row::Parts { format_1, format_3, parts });
    }

    /// The places where the table is changed, with their new bytes.
    fn patches(&self, changed: &[u8]) -> Vec<(usize, u8)> {
        let pairs = self.table.iter().zip(changed).enumerate();
        pairs.filter(|(_, (a, b))| a != b).map(|(at, (_, &b))| (at, b)).collect()
    }

    #[track_caller]
    pub fn allocate(
        &mut self, text: &str, kind: u32, start: u32, amount: u32, secondary: u32,
    ) -> Outcome {
        self.allocate_by(NO_OPTION, text, kind, start, amount, secondary)
    }

    /// Allocate with an option.
    #[track_caller]
    pub fn allocate_by(
        &mut self, option: u32, text: &str, kind: u32, start: u32, amount: u32, secondary: u32,
    ) -> Outcome {
        let k = (self.rows.len() % 251) as u8;
        let (name, attributes, expiry) = (name(text).to_vec(), attributes(k), NO_DATE.to_vec());
        self.call(Call::Allocate {
            name,
            attributes,
            kind,
            start,
            amount,
            secondary,
            option,
            expiry,
        })
    }

    #[track_caller]
    pub fn tracks(&mut self, text: &str, amount: u32, secondary: u32) -> Outcome {
        self.allocate(text, 0, 0, amount, secondary)
    }

    #[track_caller]
    pub fn cylinders(&mut self, text: &str, amount: u32, secondary: u32) -> Outcome {
        self.allocate(text, 1, 0, amount, secondary)
    }

    /// Tracks by an option.
    #[track_caller]
    pub fn tracks_by(&mut self, option: u32, text: &str, amount: u32, secondary: u32) -> Outcome {
        self.allocate_by(option, text, 0, 0, amount, secondary)
    }

    /// Cylinders by an option.
    #[track_caller]
    pub fn cylinders_by(
        &mut self, option: u32, text: &str, amount: u32, secondary: u32,
    ) -> Outcome {
        self.allocate_by(option, text, 1, 0, amount, secondary)
    }

    #[track_caller]
    pub fn absolute(&mut self, text: &str, start: u32, count: u32) -> Outcome {
        self.allocate(text, 2, start, count, 0)
    }

    /// One-track sets W0, W1, ... that leave holes of these lengths from track 3 on.
    #[track_caller]
    pub fn walls(&mut self, lengths: &[u32]) {
        let mut at = 3;
        for (i, length) in lengths.iter().enumerate() {
            self.absolute(&format!("W{i}"), at + length, 1).accepted();
            at += length + 1;
        }
    }

    /// A set of so many one-track extents, the last of them at `first`, each before the one before it:
    /// none begins where the set ends, so that none is joined. They lie where a free extent begins that
    /// is the only one; PLACE holds the tracks until it is their turn, and is gone in the end.
    #[track_caller]
    pub fn downwards(&mut self, text: &str, first: u32, count: u32) {
        self.absolute("PLACE", first, count - 1).accepted();
        self.tracks(text, 1, 1).granted(&[(first + count - 1, 1)]);
        for left in (0..count - 1).rev() {
            match left {
                0 => self.scratch("PLACE").gave_back(1),
                _ => self.release("PLACE", left - 1, 1).gave_back(1),
            }
            self.extend(text).granted(&[(first + left, 1)]);
        }
    }

    #[track_caller]
    pub fn extend(&mut self, text: &str) -> Outcome {
        self.call(Call::Extend { name: name(text).to_vec() })
    }

    /// Release at TT, R.
    #[track_caller]
    pub fn release(&mut self, text: &str, tt: u32, r: u32) -> Outcome {
        self.call(Call::Release { name: name(text).to_vec(), ttr: tt << 8 | r })
    }

    #[track_caller]
    pub fn scratch(&mut self, text: &str) -> Outcome {
        self.call(short::scratch(text))
    }

    #[track_caller]
    pub fn rename(&mut self, old: &str, new: &str) -> Outcome {
        self.call(Call::Rename { old: name(old).to_vec(), new: name(new).to_vec() })
    }

    #[track_caller]
    pub fn obtain(&mut self, text: &str) -> Outcome {
        self.call(Call::Obtain { name: name(text).to_vec() })
    }

    #[track_caller]
    pub fn lspace(&mut self) -> Outcome {
        self.call(Call::Lspace)
    }

    /// The record in a slot.
    pub fn slot(&self, k: usize) -> &[u8] {
        &self.table[k * 140..(k + 1) * 140]
    }
}

impl Outcome {
    /// Two bytes of the answer.
    pub fn word(&self, at: usize) -> u32 {
        u32::from(self.answer[at]) << 8 | u32::from(self.answer[at + 1])
    }

    pub fn pieces(&self) -> Vec<(u32, u32)> {
        let count = usize::from(self.answer[2]);
        (0..count).map(|i| (self.word(3 + 4 * i), self.word(5 + 4 * i))).collect()
    }

    #[track_caller]
    pub fn accepted(&self) {
        assert_eq!(self.result, 0, "refused");
    }

    #[track_caller]
    pub fn refused(&self, refusal: u32) {
        assert_eq!(self.result, refusal);
    }

    /// Accepted with exactly these pieces, and nothing else in the answer.
    #[track_caller]
    pub fn granted(&self, pieces: &[(u32, u32)]) {
        self.accepted();
        assert_eq!(self.pieces(), pieces);
        let tracks: u32 = pieces.iter().map(|&(_, count)| count).sum();
        assert_eq!(self.word(0), tracks);
        assert!(self.answer[3 + 4 * pieces.len()..].iter().all(|&b| b == 0));
    }

    /// Accepted with this many tracks given back, and nothing else in the answer.
    #[track_caller]
    pub fn gave_back(&self, tracks: u32) {
        self.accepted();
        assert_eq!(self.word(0), tracks);
        assert!(self.answer[2..].iter().all(|&b| b == 0));
    }

    /// Accepted with this date first in the answer, zeros after.
    #[track_caller]
    pub fn converted(&self, date: &[u8]) {
        self.accepted();
        let (first, rest) = self.answer.split_at(date.len());
        assert_eq!((first, rest), (date, &[0; 24][date.len()..]));
    }

    /// Accepted with an answer of zeros.
    #[track_caller]
    pub fn without_numbers(&self) {
        self.accepted();
        assert_eq!(self.answer, [0; 24]);
    }
}
