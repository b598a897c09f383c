//! Random calls on small volumes, to meet what no script thought of.

use super::{sequence, Sequence};
use crate::call::Call;
use crate::desk::Desk;
use crate::generate::session::{Origin, Session};
use crate::generate::shapes::Shape;

/// Damage that changes more bytes than this is left out: the rows would be long.
const MOST_PATCHES: usize = 20;

pub fn sequences() -> Vec<Sequence> {
    vec![
        sequence("Random calls, H = 3", |desk| play(desk, [9, 3, 3, 1, 3], 11, 12)),
        sequence("Random calls, H = 5", |desk| play(desk, [11, 5, 12, 20, 1], 14, 12)),
    ]
}

/// `rows` random calls on a volume of this geometry.
fn play(desk: &mut Desk, [c, h, d, s, v]: [u32; 5], seed: u64, rows: usize) {
    desk.initialise(c, h, d, s, v).without_numbers();
    let mut session = Session::on(seed, &desk.table, Shape::Cylinders);
    while desk.rows.len() <= rows {
        let trial = session.next_trial();
        let buffers = &trial.buffers;
        let lengths = (buffers.table.len(), buffers.answer.len(), buffers.labels.len());
        let usual = lengths == (desk.table.len(), 24, 280);
        match (&trial.call, usual, trial.origin) {
            // Only `begin` makes a table, and it makes its own.
            (Call::Initialise { .. }, _, _) => {}
            (call, true, Origin::Live | Origin::Probe) => drop(desk.call(call.clone())),
            (call, true, Origin::Changed) => {
                let changed = desk.table.iter().zip(&buffers.table).filter(|(a, b)| a != b);
                if (1..=MOST_PATCHES).contains(&changed.count()) {
                    desk.hurt(&buffers.table, call.clone());
                }
            }
            (call, false, _) => {
                let (table, answer, labels) = lengths;
                // Tables of a lawful but great length would only cost time.
                if table <= 2 * desk.table.len() {
                    desk.sized(table, answer, labels, call.clone());
                }
            }
        }
        session.keep(&trial, desk.table.clone());
    }
}
