//! A call made of the reference and of another manager, side by side, with watch kept over
//! every lent byte, over bytes beside the lent ones, and over reads past them. Beside a preview of
//! the other stands the reference's call on a copy of the table.

use std::hint::black_box;

use crate::call::{Buffers, Call, Manager, Reference};

/// Bytes beside a lent buffer that nobody may write.
const GUARD: usize = 48;
const PAGE: usize = 4096;
/// Room for a table longer than any that a call may take.
const TABLE_ROOM: usize = 20 * PAGE;

extern "C" {
    fn mmap(at: *mut u8, len: usize, access: i32, flags: i32, file: i32, from: i64) -> *mut u8;
    fn mprotect(at: *mut u8, len: usize, access: i32) -> i32;
}

/// Memory to lend a buffer from, between two pages that nobody can read or write. A buffer lies
/// right at one of them: what reads or writes past it there ends the program.
struct Room {
    at: *mut u8,
    size: usize,
    from: usize,
    to: usize,
}

fn guard(at: usize) -> u8 {
    (at as u8).wrapping_mul(37) ^ 0xD3
}

impl Room {
    fn new(size: usize) -> Room {
        const READ_AND_WRITE: i32 = 3;
        const PRIVATE_AND_ANONYMOUS: i32 = 0x22;
        let null = std::ptr::null_mut();
        // SAFETY: a fresh mapping, of which the inner pages are opened.
        let at = unsafe { mmap(null, size + 2 * PAGE, 0, PRIVATE_AND_ANONYMOUS, -1, 0) };
        assert!(at as isize != -1, "no memory");
        let at = unsafe { at.add(PAGE) };
        assert_eq!(unsafe { mprotect(at, size, READ_AND_WRITE) }, 0, "no memory");
        Room { at, size, from: 0, to: 0 }
    }

    fn bytes(&mut self) -> &mut [u8] {
        // SAFETY: `size` bytes that are this room's alone.
        unsafe { std::slice::from_raw_parts_mut(self.at, self.size) }
    }

    /// Puts a buffer at the end of the room, or at its start, and guard bytes on the open side.
    fn lend(&mut self, content: &[u8], at_end: bool) {
        let from = if at_end { self.size - content.len() } else { 0 };
        let to = from + content.len();
        (self.from, self.to) = (from, to);
        let guards = self.guards();
        let bytes = self.bytes();
        bytes[from..to].copy_from_slice(content);
        guards.for_each(|at| bytes[at] = guard(at));
    }

    fn guards(&self) -> impl Iterator<Item = usize> {
        let after = self.to..self.size.min(self.to + GUARD);
        (self.from.saturating_sub(GUARD)..self.from).chain(after)
    }

    fn part(&mut self) -> &mut [u8] {
        let (from, to) = (self.from, self.to);
        &mut self.bytes()[from..to]
    }

    /// Holds exactly `expected`, and nothing beside it was written.
    fn compare(&mut self, what: &str, expected: &[u8]) -> Result<(), String> {
        let (from, len) = (self.from as isize, self.part().len());
        let mut guards = self.guards();
        let bytes = self.bytes();
        if let Some(at) = guards.find(|&at| bytes[at] != guard(at)) {
            return Err(format!("{what}: byte {} was written, of {len}", at as isize - from));
        }
        let part = self.part();
        if let Some(at) = part.iter().zip(expected).position(|(a, b)| a != b) {
            let (is, must) = (part[at], expected[at]);
            let place = match what {
                "table" => format!(" (slot {}, byte {})", at / 140, at % 140),
                _ => String::new(),
            };
            return Err(format!("{what}: byte {at}{place} is {is:02X}, not {must:02X}"));
        }
        Ok(())
    }
}

/// Rooms for the six buffers that a call may be lent.
pub struct Rooms {
    table: Room,
    answer: Room,
    labels: Room,
    name: Room,
    second: Room,
    date: Room,
}

impl Rooms {
    #[allow(clippy::new_without_default)]
    pub fn new() -> Rooms {
        let small = || Room::new(PAGE);
        Rooms {
            table: Room::new(TABLE_ROOM),
            answer: small(),
            labels: small(),
            name: small(),
            second: small(),
            date: small(),
        }
    }
}

/// What the reference answered, and what it left in the buffers.
pub struct Answered {
    pub result: u32,
    pub buffers: Buffers,
}

/// Makes the call of both, each with its own copy of the buffers. An error says where they
/// differ, or which byte was written that a call may not write. The bits of `sides` say at which
/// end of its room each buffer lies.
pub fn both(
    manager: &impl Manager, call: &Call, buffers: &Buffers, rooms: &mut Rooms, sides: u64,
) -> Result<Answered, String> {
    let mut after = buffers.clone();
    let expected = expect(call, &mut after);

    let at_end = |bit: u32| sides >> bit & 1 == 1;
    let [first, second, date] = read_only(call);
    rooms.table.lend(&buffers.table, at_end(0));
    rooms.answer.lend(&buffers.answer, at_end(1));
    rooms.labels.lend(&buffers.labels, at_end(2));
    rooms.name.lend(first, at_end(3));
    rooms.second.lend(second, at_end(4));
    rooms.date.lend(date, at_end(5));
    let result = {
        let (table, answer, labels) =
            (rooms.table.part(), rooms.answer.part(), rooms.labels.part());
        let (name, other, date) = (rooms.name.part(), rooms.second.part(), rooms.date.part());
        match *call {
            Call::Initialise { c, h, d, s, v } => manager.initialise(table, c, h, d, s, v, answer),
            Call::Allocate { kind, start, amount, secondary, option, .. } => manager
                .allocate(table, name, other, kind, start, amount, secondary, option, date, answer),
            Call::Extend { .. } => manager.extend(table, name, answer),
            Call::Release { ttr, .. } => manager.release(table, name, ttr, answer),
            Call::Scratch { overriding, .. } => {
                manager.scratch(table, name, date, overriding, answer)
            }
            Call::Rename { .. } => manager.rename(table, name, other, answer),
            Call::Obtain { .. } => manager.obtain(table, name, labels, answer),
            Call::Lspace => manager.lspace(table, answer),
            Call::Preview(ref call) => preview(manager, call, [table, name, other, date], answer),
            Call::DateToStored { .. } => manager.date_to_stored(date, answer),
            Call::DateToPacked { .. } => manager.date_to_packed(date, answer),
        }
    };
    // The other side may have written anything: nothing of it is known.
    let rooms = black_box(rooms);
    if result != expected {
        return Err(format!("result {result}, not {expected}"));
    }
    rooms.table.compare("table", &after.table)?;
    rooms.answer.compare("answer", &after.answer)?;
    rooms.labels.compare("labels", &after.labels)?;
    rooms.name.compare("name", first)?;
    rooms.second.compare("second name or attributes", second)?;
    rooms.date.compare("date", date)?;
    if expected != 0 && after != *buffers {
        return Err(format!("refused with {expected}, but both have written"));
    }
    Ok(Answered { result, buffers: after })
}

/// The result that a call must have, with what it must leave in the buffers: the reference's, and of
/// a preview the answer of its call "made on a copy of the table" (document 02).
fn expect(call: &Call, buffers: &mut Buffers) -> u32 {
    let Call::Preview(call) = call else {
        return call.run(&Reference, buffers);
    };
    let table = buffers.table.clone();
    let result = call.run(&Reference, buffers);
    buffers.table = table;
    result
}

/// The preview of a call, with the table, the name, the attributes and the date that are lent.
fn preview(
    manager: &impl Manager, call: &Call, [table, name, other, date]: [&[u8]; 4], answer: &mut [u8],
) -> u32 {
    match *call {
        Call::Allocate { kind, start, amount, secondary, option, .. } => manager.preview_allocate(
            table, name, other, kind, start, amount, secondary, option, date, answer,
        ),
        Call::Extend { .. } => manager.preview_extend(table, name, answer),
        Call::Release { ttr, .. } => manager.preview_release(table, name, ttr, answer),
        Call::Scratch { overriding, .. } => {
            manager.preview_scratch(table, name, date, overriding, answer)
        }
        _ => unreachable!("no preview of {call:?}"),
    }
}

/// The buffers that a call only reads, the table aside: names or attributes, and a date.
fn read_only(call: &Call) -> [&[u8]; 3] {
    match call {
        Call::Allocate { name, attributes, expiry, .. } => [name, attributes, expiry],
        Call::Scratch { name, today, .. } => [name, &[], today],
        Call::Extend { name } | Call::Release { name, .. } | Call::Obtain { name } => {
            [name, &[], &[]]
        }
        Call::Rename { old, new } => [old, new, &[]],
        Call::Initialise { .. } | Call::Lspace => [&[], &[], &[]],
        Call::Preview(call) => read_only(call),
        Call::DateToStored { packed: date } | Call::DateToPacked { stored: date } => {
            [&[], &[], date]
        }
    }
}
