//! What an extend with a planted fault leaves: document 02, [6].

use super::Fault;
use crate::audit::{picture, Extent, Picture, Set};
use crate::reference::layout::{format_1_extent_at, format_3_extent_at, put16, IN_FORMAT_1};

/// A right extend: the set before, and what it got.
struct Extended {
    set: Set,
    pieces: Vec<(u32, u32)>,
    extents: Vec<Extent>,
    after: Picture,
}

impl Extended {
    fn new(before: &[u8], name: &[u8], after: &[u8]) -> Option<Extended> {
        let before = picture(before)?;
        let growth = before.extend(name).ok()?;
        let set = before.sets.into_iter().find(|set| set.name == *name)?;
        let (pieces, extents) = (growth.pieces, growth.extents);
        Some(Extended { set, pieces, extents, after: picture(after)? })
    }

    fn joins(&self) -> bool {
        self.extents.len() < self.set.extents.len() + self.pieces.len()
    }

    /// The type of the pieces.
    fn kind(&self) -> u8 {
        if self.set.unit() == 0xC0 {
            0x81
        } else {
            0x01
        }
    }

    /// The extents with one piece joined to an extent, where there is such a pair, and the other pieces
    /// behind them.
    fn with_joined(&self, pair: Option<(usize, usize)>) -> Vec<Extent> {
        let mut extents = self.set.extents.clone();
        for (i, &(start, count)) in self.pieces.iter().enumerate() {
            let end = start + count - 1;
            match pair {
                Some((e, piece)) if piece == i => {
                    let (kind, first, last) = extents[e];
                    extents[e] = (kind.min(self.kind()), first.min(start), last.max(end));
                }
                _ => extents.push((self.kind(), start, end)),
            }
        }
        extents
    }

    /// The extents by the fault, if it is one of those that join otherwise.
    fn wrong_extents(&self, fault: Fault) -> Option<Vec<Extent>> {
        let own = &self.set.extents;
        let e = own.len() - 1;
        let ((_, first, last), (start, count)) = (own[e], self.pieces[0]);
        let right = self.joins().then_some((e, 0));
        let pair = match fault {
            Fault::NeverJoins => None,
            Fault::JoinsInFormat1Only => right.filter(|_| own.len() <= IN_FORMAT_1),
            Fault::JoinsTheHighest => {
                let highest = (0..own.len()).max_by_key(|&e| own[e].2)?;
                (own[highest].2 + 1 == start).then_some((highest, 0))
            }
            Fault::JoinsALaterPiece => {
                self.pieces.iter().position(|&(start, _)| start == last + 1).map(|i| (e, i))
            }
            Fault::JoinsBackwards => right.or((start + count == first).then_some((e, 0))),
            _ => return None,
        };
        Some(self.with_joined(pair)).filter(|wrong| *wrong != self.extents)
    }

    /// The table with these extents, or the refusal that they lead to.
    fn table_with(mut self, extents: Vec<Extent>) -> Result<Vec<u8>, u32> {
        if extents.len() > 16 {
            return Err(10);
        }
        let slot = (1..).find(|&k| self.after.is_format_0(k)).filter(|_| self.after.format_0s > 0);
        let set = self.after.sets.iter_mut().find(|set| set.name == self.set.name);
        let set = set.expect("it was extended");
        if extents.len() > IN_FORMAT_1 && set.format_3.is_none() {
            set.format_3 = Some(slot.ok_or(11u32)?);
        }
        set.format_3 = set.format_3.filter(|_| extents.len() > IN_FORMAT_1);
        set.extents = extents;
        Ok(self.after.table().expect("as sound as before"))
    }

    /// The refusal where extents are counted before joining.
    fn refusal_before_joining(&self) -> Option<u32> {
        let count = self.set.extents.len() + self.pieces.len();
        let wants_format_3 = self.extents.len() <= IN_FORMAT_1 && count > IN_FORMAT_1;
        match count {
            17.. if self.joins() => Some(10),
            _ if wants_format_3 && self.after.format_0s == 0 => Some(11),
            _ => None,
        }
    }

    /// The type by the fault, if it is one of those, and where it stands in the table.
    fn wrong_type(&self, fault: Fault) -> Option<(usize, u8)> {
        let e = self.set.extents.len() - 1;
        let wrong = match (fault, self.set.extents[e].0, self.kind()) {
            _ if !self.joins() => return None,
            (Fault::X81KeptBeforeX01, 0x81, 0x01) => 0x81,
            (Fault::X81Lost, 0x81, 0x81) => 0x01,
            (Fault::X01MadeX81, 0x01, 0x81) => 0x81,
            _ => return None,
        };
        let place = match self.set.format_3.filter(|_| e >= IN_FORMAT_1) {
            Some(slot) => 140 * slot + format_3_extent_at(e),
            None => 140 * self.set.slot + format_1_extent_at(e),
        };
        Some((place, wrong))
    }

    fn spoil_answer(&self, fault: Fault, answer: &mut [u8]) {
        match fault {
            _ if !self.joins() => {}
            Fault::JoinedPieceNotNamed => {
                answer[2] -= 1;
                answer.copy_within(7.., 3);
                answer[19..].fill(0);
            }
            Fault::WholeExtentNamed => {
                let (_, first, last) = self.extents[self.set.extents.len() - 1];
                put16(answer, 3, first);
                put16(answer, 5, last + 1 - first);
            }
            _ => {}
        }
    }
}

/// Spoils an extend that was accepted; a refusal where the fault makes one.
pub fn spoil(
    fault: Fault, before: &[u8], name: &[u8], table: &mut [u8], answer: &mut [u8],
) -> Result<(), u32> {
    let Some(right) = Extended::new(before, name, table) else { return Ok(()) };
    match (fault, right.refusal_before_joining()) {
        (Fault::TenBeforeJoining, Some(10)) => return Err(10),
        (Fault::ElevenBeforeJoining, Some(11)) => return Err(11),
        _ => {}
    }
    if let Some((place, wrong)) = right.wrong_type(fault) {
        table[place] = wrong;
    }
    right.spoil_answer(fault, answer);
    if let Some(extents) = right.wrong_extents(fault) {
        table.copy_from_slice(&right.table_with(extents)?);
    }
    Ok(())
}

/// The refusal that the preview of an accepted extend gives where it forgets that the call joins.
pub fn preview_refusal(before: &[u8], name: &[u8], after: &[u8]) -> Option<u32> {
    Extended::new(before, name, after)?.refusal_before_joining()
}
