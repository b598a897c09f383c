//! Recorded calls, as docs/REPLAY.md lays them down: 136 bytes in, a line of 73 bytes out.

use crate::call::{Call, Manager};

pub const RECORD: usize = 136;
pub const LINE: usize = 73;

/// The most bytes of each buffer that a record can lend.
pub const TABLE: usize = 65_536;
pub const NAME: usize = 46;
pub const SECOND: usize = 54;
pub const DATE: usize = 7;
pub const ANSWER: usize = 32;
pub const LABELS: usize = 288;
/// The most bytes that one record puts into the table.
pub const PUT: usize = 100;

/// The operation that is no call, those of the date conversions, what a preview's is above that of its
/// call, and the result of one that there is not.
const PUTTING: u8 = 9;
const TO_STORED: u8 = 10;
const TO_PACKED: u8 = 11;
const PREVIEW: u8 = 128;
const UNKNOWN: u32 = 99;

const NUMBERS_AT: usize = 8;
const NAME_AT: usize = 28;
const SECOND_AT: usize = NAME_AT + NAME;
/// The length of the date stands before it.
const DATE_AT: usize = SECOND_AT + SECOND + 1;

pub type Record = [u8; RECORD];

/// The record of a call with these lengths of the lent buffers; nothing where one does not fit.
pub fn record(call: &Call, table: usize, answer: usize, labels: usize) -> Option<Record> {
    let (numbers, [name, second, date]) = arguments(call);
    let most = [NAME, SECOND, DATE, ANSWER, LABELS, 65_535];
    let lengths = [name.len(), second.len(), date.len(), answer, labels, table];
    if lengths.iter().zip(most).any(|(&length, most)| length > most) {
        return None;
    }
    let mut record = [0; RECORD];
    record[0] = operation(call);
    record[1] = name.len() as u8;
    record[2] = second.len() as u8;
    record[3] = answer as u8;
    record[4..6].copy_from_slice(&(labels as u16).to_be_bytes());
    record[6..8].copy_from_slice(&(table as u16).to_be_bytes());
    for (i, number) in numbers.into_iter().enumerate() {
        record[NUMBERS_AT + 4 * i..][..4].copy_from_slice(&number.to_be_bytes());
    }
    record[NAME_AT..][..name.len()].copy_from_slice(name);
    record[SECOND_AT..][..second.len()].copy_from_slice(second);
    record[DATE_AT - 1] = date.len() as u8;
    record[DATE_AT..][..date.len()].copy_from_slice(date);
    Some(record)
}

fn operation(call: &Call) -> u8 {
    match call {
        Call::Preview(call) => PREVIEW + operation(call),
        Call::DateToStored { .. } => TO_STORED,
        Call::DateToPacked { .. } => TO_PACKED,
        _ => call.index() as u8 + 1,
    }
}

/// The numbers of a call; its name, its second name or attributes, and its date.
fn arguments(call: &Call) -> ([u32; 5], [&[u8]; 3]) {
    match call {
        &Call::Initialise { c, h, d, s, v } => ([c, h, d, s, v], [&[]; 3]),
        Call::Allocate { name, attributes, kind, start, amount, secondary, option, expiry } => {
            ([*kind, *start, *amount, *secondary, *option], [name, attributes, expiry])
        }
        Call::Release { name, ttr } => ([*ttr, 0, 0, 0, 0], [name, &[], &[]]),
        Call::Scratch { name, today, overriding } => {
            ([*overriding, 0, 0, 0, 0], [name, &[], today])
        }
        Call::Extend { name } | Call::Obtain { name } => ([0; 5], [name, &[], &[]]),
        Call::Rename { old, new } => ([0; 5], [old, new, &[]]),
        Call::Lspace => ([0; 5], [&[]; 3]),
        Call::Preview(call) => arguments(call),
        Call::DateToStored { packed: date } | Call::DateToPacked { stored: date } => {
            ([0; 5], [&[], &[], date])
        }
    }
}

/// Records that put `to` where `from` is, both tables of one length.
pub fn puts(from: &[u8], to: &[u8]) -> Vec<Record> {
    let mut records = vec![];
    let mut at = 0;
    while let Some(next) = (at..to.len()).find(|&i| from[i] != to[i]) {
        let most = to.len().min(next + PUT);
        let last = (next..most).rfind(|&i| from[i] != to[i]).expect("the one found");
        let bytes = &to[next..=last];
        let mut record = [0; RECORD];
        record[0] = PUTTING;
        record[1] = bytes.len() as u8;
        record[6..8].copy_from_slice(&(to.len() as u16).to_be_bytes());
        record[NUMBERS_AT..][..4].copy_from_slice(&(next as u32).to_be_bytes());
        record[NAME_AT..][..bytes.len()].copy_from_slice(bytes);
        records.push(record);
        at = last + 1;
    }
    records
}

/// Plays records: the table is kept from one to the next.
pub struct Player<'a, M> {
    manager: &'a M,
    pub table: Vec<u8>,
}

impl<'a, M: Manager> Player<'a, M> {
    pub fn new(manager: &'a M) -> Player<'a, M> {
        Player { manager, table: vec![0; TABLE] }
    }

    /// The line for a record.
    pub fn play(&mut self, record: &Record) -> Vec<u8> {
        let half = |at: usize| usize::from(record[at]) << 8 | usize::from(record[at + 1]);
        let number = |i: usize| {
            let at = NUMBERS_AT + 4 * i;
            u32::from_be_bytes(record[at..at + 4].try_into().expect("four bytes"))
        };
        let length = |at: usize, most: usize| usize::from(record[at]).min(most);
        let (mut answer, mut labels) = ([0xA5; ANSWER], [0x5A; LABELS]);
        let lent_answer = &mut answer[..length(3, ANSWER)];
        let labels_len = half(4).min(LABELS);
        let table_len = half(6);
        let table = &mut self.table[..table_len];
        let name = &record[NAME_AT..][..length(1, NAME)];
        let second = &record[SECOND_AT..][..length(2, SECOND)];
        let date = &record[DATE_AT..][..length(DATE_AT - 1, DATE)];
        let [a, b, c, d, e] = [0, 1, 2, 3, 4].map(number);
        let result = match record[0] {
            1 => self.manager.initialise(table, a, b, c, d, e, lent_answer),
            2 => self.manager.allocate(table, name, second, a, b, c, d, e, date, lent_answer),
            3 => self.manager.extend(table, name, lent_answer),
            4 => self.manager.release(table, name, a, lent_answer),
            5 => self.manager.scratch(table, name, date, a, lent_answer),
            6 => self.manager.rename(table, name, second, lent_answer),
            7 => self.manager.obtain(table, name, &mut labels[..labels_len], lent_answer),
            8 => self.manager.lspace(table, lent_answer),
            0x82 => {
                self.manager.preview_allocate(table, name, second, a, b, c, d, e, date, lent_answer)
            }
            0x83 => self.manager.preview_extend(table, name, lent_answer),
            0x84 => self.manager.preview_release(table, name, a, lent_answer),
            0x85 => self.manager.preview_scratch(table, name, date, a, lent_answer),
            TO_STORED => self.manager.date_to_stored(date, lent_answer),
            TO_PACKED => self.manager.date_to_packed(date, lent_answer),
            PUTTING => {
                let bytes = &record[NAME_AT..][..length(1, PUT)];
                for (i, &byte) in bytes.iter().enumerate() {
                    if let Some(place) = self.table.get_mut(a as usize + i) {
                        *place = byte;
                    }
                }
                0
            }
            _ => UNKNOWN,
        };
        let answer: String = answer[..24].iter().map(|byte| format!("{byte:02X}")).collect();
        let (table, labels) = (adler(&self.table[..table_len]), adler(&labels[..labels_len]));
        format!("{:02X} {result:02} {answer} {table:08X} {labels:08X}\n", record[0]).into_bytes()
    }

    /// The lines for a whole recording; a record cut short ends it.
    pub fn play_all(&mut self, recording: &[u8]) -> Vec<u8> {
        let (records, _) = recording.as_chunks::<RECORD>();
        records.iter().flat_map(|record| self.play(record)).collect()
    }
}

/// Adler-32.
pub fn adler(bytes: &[u8]) -> u32 {
    let (mut sum, mut sums) = (1, 0);
    for &byte in bytes {
        sum = (sum + u32::from(byte)) % 65_521;
        sums = (sums + sum) % 65_521;
    }
    sums << 16 | sum
}
