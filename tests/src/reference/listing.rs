//! What `vtlist` prints.

use std::io::Write;

use super::data_set::DataSet;
use super::layout::Record;
use super::name::{name_of, trimmed, PRINTABLE};
use super::volume::Volume;
use super::{check, records, Refusal};

/// The lines for a table read from standard input, a newline after each.
pub fn listing(input: &[u8]) -> Vec<u8> {
    let outcome = records(input)
        .and_then(|records| Ok((records, check::volume(records).ok_or(Refusal::Unsound)?)));
    match outcome {
        Ok((records, volume)) => lines(records, &volume),
        Err(refusal) => format!("E {}\n", refusal as u32).into_bytes(),
    }
}

fn lines(records: &[Record], volume: &Volume) -> Vec<u8> {
    let mut out = Vec::new();
    let geometry = volume.geometry;
    line(&mut out, "V", &[geometry.cylinders, geometry.heads, geometry.tracks()]);
    for slot in (0..records.len()).filter(|&slot| volume.sets.contains(slot)) {
        let set = DataSet::read(volume, records, slot);
        out.extend(b"D ");
        out.extend(trimmed(name_of(&records[slot])).iter().map(|&b| PRINTABLE[usize::from(b)]));
        line(&mut out, "", &[set.tracks(), set.extents().len() as u32]);
    }
    for hole in volume.free.holes() {
        line(&mut out, "F", &[hole.start, hole.length]);
    }
    line(&mut out, "S", &[volume.open.len() as u32]);
    out
}

/// The rest of a line: `text`, a blank before each number, a newline.
fn line(out: &mut Vec<u8>, text: &str, numbers: &[u32]) {
    out.extend(text.bytes());
    for number in numbers {
        write!(out, " {number}").expect("a Vec takes all that is written");
    }
    out.push(b'\n');
}
