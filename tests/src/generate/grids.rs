//! Calls by the row: each length of each buffer, each byte in each place of a name, numbers at and
//! around their limits, and previews of such calls.

use super::elsewhere;
use super::glance::glance;
use super::rng::Rng;
use super::touching;
use crate::call::{Buffers, Call, ALX, CONTIG, MXIG, NO_OPTION, TODAY};
use crate::reference::{extend, release};
use crate::short::{self, allocation, to_packed, to_stored};
use crate::volumes::{fresh, name, open_slots, place, scattered, scratch, small};

/// The volumes from elsewhere, and those on which extends may join.
const ELSEWHERE: usize = 60;
const TOUCHING: usize = 2_000;

/// A call and the buffers to make it with.
pub type Row = (Call, Buffers);

pub fn row(call: Call, table: &[u8]) -> Row {
    (call, Buffers::new(table.to_vec(), 24, 280))
}

/// Each call with arguments that Volume A's end accepts.
fn accepted() -> Vec<Call> {
    let a = || name("FLT.A").to_vec();
    let mut calls = vec![
        Call::Initialise { c: 4, h: 5, d: 4, s: 1, v: 2 },
        allocation("FLT.NEW", 0, 0, 3, 1, NO_OPTION),
        Call::Extend { name: name("FLT.B").to_vec() },
        Call::Release { name: a(), ttr: 1 },
        short::scratch("FLT.A"),
        Call::Rename { old: a(), new: name("FLT.NEW").to_vec() },
        Call::Obtain { name: a() },
        Call::Lspace,
        to_stored(&TODAY),
        to_packed(&[80, 1, 109]),
    ];
    let previews: Vec<Call> = calls.iter().filter_map(Call::preview).collect();
    calls.extend(previews);
    calls
}

/// Volume A's end with one more set, which can be extended.
fn base() -> Vec<u8> {
    let mut table = small();
    place(&mut table, "FLT.B", 0, 0, 1, 1);
    table
}

/// Each buffer with each length around its own; the others right.
pub fn lengths() -> Vec<Row> {
    let table = base();
    let mut rows = vec![];
    let edges = [3, 4, 7, 8, 9, 467, 468, 469].into_iter().flat_map(|n| 140 * n - 1..=140 * n + 1);
    let lengths: Vec<usize> = (0..3).chain(138..142).chain(278..282).chain(edges).collect();
    for call in accepted() {
        rows.push(row(call.clone(), &table));
        for &len in &lengths {
            let (call, mut buffers) = row(call.clone(), &table);
            buffers.table.resize(len, 0);
            rows.push((call, buffers));
        }
        for len in 0..=50 {
            rows.push((call.clone(), Buffers::new(table.clone(), len, 280)));
        }
        for len in 0..=90 {
            rows.extend(with_lengths(&call, len).into_iter().map(|call| row(call, &table)));
        }
    }
    let call = Call::Obtain { name: name("FLT.A").to_vec() };
    rows.extend((0..=420).map(|len| (call.clone(), Buffers::new(table.clone(), 24, len))));
    rows
}

/// The call with each of its names, its attributes and its date of another length.
fn with_lengths(call: &Call, len: usize) -> Vec<Call> {
    (0..lent(&mut call.clone()).len())
        .map(|which| {
            let mut call = call.clone();
            lent(&mut call)[which].resize(len, 0x40);
            call
        })
        .collect()
}

/// The buffers of a call that are only read, the table aside.
fn lent(call: &mut Call) -> Vec<&mut Vec<u8>> {
    match call {
        Call::Allocate { name, attributes, expiry, .. } => vec![name, attributes, expiry],
        Call::Scratch { name, today, .. } => vec![name, today],
        Call::Extend { name } | Call::Release { name, .. } | Call::Obtain { name } => vec![name],
        Call::Rename { old, new } => vec![old, new],
        Call::DateToStored { packed: date } | Call::DateToPacked { stored: date } => vec![date],
        Call::Preview(call) => lent(call),
        Call::Initialise { .. } | Call::Lspace => vec![],
    }
}

/// Every byte in every place of a few names.
pub fn name_bytes() -> Vec<Row> {
    let table = base();
    let mut rows = vec![];
    for (i, text) in ["A", "FLT.A", "ABCDEFGH.I", "A-9.@$#.B.C"].into_iter().enumerate() {
        for at in (0..16).chain([42, 43]) {
            for byte in 0..=255 {
                let mut bytes = name(text).to_vec();
                bytes[at] = byte;
                let (old, new) = (name("FLT.A").to_vec(), bytes.clone());
                let call = match (i + at + usize::from(byte)) % 4 {
                    0 => Call::Extend { name: bytes },
                    1 => Call::Obtain { name: bytes },
                    2 => Call::Rename { old, new },
                    _ => Call::Rename { old: new, new: old },
                };
                rows.push(row(call, &table));
            }
        }
    }
    rows
}

/// Allocate with every combination of numbers at the limits.
pub fn amounts() -> Vec<Row> {
    let table = base();
    let top = u32::MAX;
    let starts = [0, 7, top, 1, 3, 8, 9, 14, 15, 19, 20, 21, 65_535];
    let mut rows = vec![];
    for option in [NO_OPTION, CONTIG, MXIG, ALX, 4, top] {
        for kind in [0, 1, 2, 3, 4, 255, 256, 1 << 31, top] {
            // A start counts for absolute requests only, which option 0 shows for every kind.
            let few = option != NO_OPTION && kind != 2;
            for &start in if few { &starts[..3] } else { &starts[..] } {
                for amount in [0, 1, 2, 6, 7, 8, 9, 12, 20, 21, 65_535, 65_536, 1 << 31, top] {
                    for secondary in [0, 1, 65_536, 16_777_215, 16_777_216, top] {
                        let call = allocation("FLT.NEW", kind, start, amount, secondary, option);
                        rows.push(row(call, &table));
                    }
                }
            }
        }
    }
    rows
}

/// Every amount by every option, in tracks and in cylinders, where several candidates serve.
pub fn options() -> Vec<Row> {
    let mut rows = vec![];
    for table in several_candidates() {
        for option in [NO_OPTION, CONTIG, MXIG, ALX, 4, u32::MAX] {
            for kind in [0, 1] {
                for amount in 0..=18 {
                    rows.push(row(allocation("NEW", kind, 0, amount, 1, option), &table));
                }
            }
        }
    }
    rows
}

/// H = 1 to 4; seven holes, some of them alike, with none to three slots for new records.
fn several_candidates() -> Vec<Vec<u8>> {
    let mut tables = vec![];
    for (h, lengths) in [
        (1, [1, 2, 3, 4, 5, 6, 7]),
        (1, [4, 4, 2, 4, 4, 4, 4]),
        (2, [7, 6, 5, 7, 9, 8, 6]),
        (3, [9, 12, 11, 16, 10, 9, 13]),
        (4, [11, 8, 9, 11, 7, 13, 12]),
    ] {
        for spare in 0..4 {
            tables.push(with_holes(h, &lengths, spare));
        }
    }
    tables
}

/// A table with holes of these lengths, each with a one-track set after it, and so many free slots.
fn with_holes(h: u32, lengths: &[u32], spare: u32) -> Vec<u8> {
    let total: u32 = lengths.iter().map(|length| length + 1).sum();
    let c = (2 + total).div_ceil(h);
    let mut table = fresh(c, h, 2 + lengths.len() as u32 + spare, 1, 1);
    let mut at = 2;
    for (i, length) in lengths.iter().enumerate() {
        // The last one takes the rest of the volume.
        let wall = if i + 1 < lengths.len() { 1 } else { c * h - at - length };
        place(&mut table, &format!("WALL.N{i}"), 2, at + length, wall, 0);
        at += length + wall;
    }
    table
}

/// Release at every track of every set of a few volumes, and past it.
pub fn ttrs() -> Vec<Row> {
    let tables = [base(), scattered(100, 4, 20, 1, 2, 26), sixteen(), tight()];
    releases(&tables, |tracks| {
        let tts = (0..=tracks + 2).chain([65_534, 65_535]);
        let ttrs = tts.flat_map(|tt| [0, 1, 2, 255].map(|r| tt << 8 | r));
        let wide = [1 << 24, (1 << 24) + 1, 1 << 31, u32::MAX - 255, u32::MAX];
        ttrs.chain(wide).collect()
    })
}

/// The same on volumes from elsewhere, where cylinder files have extents of all kinds.
pub fn elsewhere() -> Vec<Row> {
    let rng = &mut Rng::new(2);
    let tables: Vec<_> = (0..ELSEWHERE).map(|_| elsewhere::table(rng)).collect();
    releases(&tables, |tracks| (0..=tracks).map(|tt| tt << 8 | 1).collect())
}

/// Release of every set of these tables, with the TTRs that `ttrs` has for its number of tracks.
fn releases(tables: &[Vec<u8>], ttrs: impl Fn(u32) -> Vec<u32>) -> Vec<Row> {
    let mut rows = vec![];
    for table in tables {
        for set in glance(table).expect("sound").sets {
            for ttr in ttrs(set.tracks()) {
                rows.push(row(Call::Release { name: set.name.clone(), ttr }, table));
            }
        }
    }
    rows
}

/// Extend of every set that has a secondary amount, on volumes made so that many of them join.
pub fn joins() -> Vec<Row> {
    let rng = &mut Rng::new(3);
    let mut rows = vec![];
    for _ in 0..TOUCHING {
        let table = touching::table(rng);
        let sets = glance(&table).expect("sound").sets.into_iter();
        let growing = sets.filter(|set| set.secondary > 0);
        rows.extend(growing.map(|set| row(Call::Extend { name: set.name }, &table)));
    }
    rows
}

/// Previews of the calls in the grids, where they have one; of the many amounts every fifth.
pub fn previews() -> Vec<Row> {
    let amounts = amounts().into_iter().step_by(5);
    let others = [name_bytes(), options(), ttrs(), elsewhere(), joins()].into_iter().flatten();
    let preview = |(call, buffers): Row| Some((call.preview()?, buffers));
    amounts.chain(others).filter_map(preview).collect()
}

/// Sets of 16, 9 and 4 extents between others, more than 26 free extents, and a full VTOC.
pub fn sixteen() -> Vec<u8> {
    let mut table = fresh(90, 4, 42, 1, 1);
    let mut answer = [0; 24];
    // Three sets grow side by side to 16, 9 and 4 extents; no two extents of one touch.
    let growing = [("SIXTEEN", 2, 16), ("NINE", 3, 9), ("FOUR", 1, 4), ("WALL", 1, 16)];
    for (text, tracks, _) in growing {
        place(&mut table, text, 0, 0, tracks, tracks);
    }
    for turn in 1..16 {
        for (text, _, extents) in growing {
            if turn < extents {
                assert_eq!(extend(&mut table, &name(text), &mut answer), 0, "{text}");
            }
        }
    }
    // Walls with a hole after each: more than one format 5. The rest of the volume goes to one.
    for i in 0..25 {
        place(&mut table, &format!("WALL.N{i}"), 2, 160 + 2 * i, 1, 0);
    }
    place(&mut table, "REST", 2, 211, 149, 0);
    assert_eq!(release(&mut table, &name("REST"), 0x1001, &mut answer), 0);
    assert_eq!(scratch(&mut table, &name("WALL")), 0);
    while open_slots(&table) > 0 {
        let k = open_slots(&table);
        place(&mut table, &format!("FILL.N{k}"), 0, 0, 1, 0);
    }
    table
}

/// A full VTOC and 26 free extents: one more needs a format 5 for which there is no slot. Four sets
/// of three tracks stand side by side at the end of the volume.
pub fn tight() -> Vec<u8> {
    let mut table = scattered(100, 2, 31, 1, 1, 25);
    for i in 0..4 {
        place(&mut table, &format!("BIG.N{i}"), 2, 188 + 3 * i, 3, 0);
    }
    assert_eq!((open_slots(&table), glance(&table).expect("sound").holes.len()), (0, 26));
    table
}

/// Initialise with every combination of numbers at the limits; the table has the length that
/// they ask for where that is a possible one.
pub fn geometries() -> Vec<Row> {
    let top = u32::MAX;
    let mut rows = vec![];
    for c in [0, 1, 2, 257, 4369, 65_535, 65_536, top] {
        for h in [0, 1, 2, 15, 255, 256, top] {
            for d in [0, 1, 2, 3, 52, 234, 255, 256] {
                for v in [0, 1, 2, 3, 9, 468, 469] {
                    let edge = c.wrapping_mul(h).wrapping_sub(v);
                    for s in [0, 1, edge, edge.wrapping_add(1), top] {
                        let records = u64::from(v) * u64::from(d);
                        let records = if records <= 470 { records as usize } else { 3 };
                        let call = Call::Initialise { c, h, d, s, v };
                        rows.push(row(call, &vec![0xEE; 140 * records]));
                    }
                }
            }
        }
    }
    rows
}
