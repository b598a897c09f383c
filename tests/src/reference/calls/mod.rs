//! The calls, and what they share.

pub mod dates;
pub mod grants;
pub mod initialise;
pub mod reading;
pub mod rename;
pub mod returns;

use super::grant::Grant;
use super::layout::{put16, Record};
use super::name::{obeys, Name};
use super::volume::Volume;
use super::{check, Refusal};

/// The bytes of an answer: tracks (2), pieces (1), five times start and count (2 each), a
/// zero.
pub type Answer = [u8; 24];
pub const NO_NUMBERS: Answer = [0; 24];

/// Runs `call` where the answer buffer has its length; writes the answer only if accepted.
/// The length may be judged apart from the other lengths: all of them are refusal 2.
fn answered(answer: &mut [u8], call: impl FnOnce() -> Result<Answer, Refusal>) -> u32 {
    let Ok(buffer) = <&mut Answer>::try_from(answer) else {
        return Refusal::Length as u32;
    };
    match call() {
        Ok(bytes) => {
            *buffer = bytes;
            0
        }
        Err(refusal) => refusal as u32,
    }
}

/// A lent buffer of a fixed length.
fn sized<const LEN: usize>(bytes: &[u8]) -> Result<&[u8; LEN], Refusal> {
    bytes.try_into().map_err(|_| Refusal::Length)
}

/// The volume of a table that is taken.
fn sound(records: &[Record]) -> Result<Volume, Refusal> {
    check::volume(records).ok_or(Refusal::Unsound)
}

fn lawful(name: &Name) -> Result<(), Refusal> {
    if obeys(name) {
        Ok(())
    } else {
        Err(Refusal::Name)
    }
}

/// The slot of the set with this name.
fn lookup(volume: &Volume, records: &[Record], name: &Name) -> Result<usize, Refusal> {
    volume.names.find(records, name).ok_or(Refusal::NotFound)
}

/// The answer of allocate and extend.
fn granted(grant: &Grant) -> Answer {
    let mut answer = tracks(grant.tracks());
    answer[2] = grant.pieces().len() as u8;
    for (i, piece) in grant.pieces().iter().enumerate() {
        put16(&mut answer, 3 + 4 * i, piece.start);
        put16(&mut answer, 5 + 4 * i, piece.length);
    }
    answer
}

/// The answer of release and scratch.
fn tracks(count: u32) -> Answer {
    let mut answer = NO_NUMBERS;
    put16(&mut answer, 0, count);
    answer
}
