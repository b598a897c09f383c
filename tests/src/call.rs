//! A call as a value, so that it can be made of any manager, compared and printed.

use crate::reference;

/// One call and its arguments, the lent output buffers aside.
#[derive(Clone, Debug, PartialEq, Eq)]
pub enum Call {
    Initialise {
        c: u32,
        h: u32,
        d: u32,
        s: u32,
        v: u32,
    },
    Allocate {
        name: Vec<u8>,
        attributes: Vec<u8>,
        kind: u32,
        start: u32,
        amount: u32,
        secondary: u32,
        option: u32,
        expiry: Vec<u8>,
    },
    Extend {
        name: Vec<u8>,
    },
    Release {
        name: Vec<u8>,
        ttr: u32,
    },
    Scratch {
        name: Vec<u8>,
        today: Vec<u8>,
        overriding: u32,
    },
    Rename {
        old: Vec<u8>,
        new: Vec<u8>,
    },
    Obtain {
        name: Vec<u8>,
    },
    Lspace,
    /// The preview of an allocate, extend, release or scratch; there is none of another call.
    Preview(Box<Call>),
    /// The conversions of dates have no table.
    DateToStored {
        packed: Vec<u8>,
    },
    DateToPacked {
        stored: Vec<u8>,
    },
}

/// Document 02's numbers of the space options.
pub const NO_OPTION: u32 = 0;
pub const CONTIG: u32 = 1;
pub const MXIG: u32 = 2;
pub const ALX: u32 = 3;

/// No expiry date; and the date of a scratch where any will do: day 365 of 1980.
pub const NO_DATE: [u8; 4] = [0; 4];
pub const TODAY: [u8; 4] = [0x00, 0x80, 0x36, 0x5F];

pub const CALL_NAMES: [&str; 14] = [
    "initialise",
    "allocate",
    "extend",
    "release",
    "scratch",
    "rename",
    "obtain",
    "lspace",
    "preview_allocate",
    "preview_extend",
    "preview_release",
    "preview_scratch",
    "date_to_stored",
    "date_to_packed",
];

/// Anything that answers the fourteen calls: the reference, or the library it is compared with.
pub trait Manager {
    #[allow(clippy::too_many_arguments)]
    fn initialise(
        &self, table: &mut [u8], c: u32, h: u32, d: u32, s: u32, v: u32, answer: &mut [u8],
    ) -> u32;
    #[allow(clippy::too_many_arguments)]
    fn allocate(
        &self, table: &mut [u8], name: &[u8], attributes: &[u8], kind: u32, start: u32,
        amount: u32, secondary: u32, option: u32, expiry: &[u8], answer: &mut [u8],
    ) -> u32;
    fn extend(&self, table: &mut [u8], name: &[u8], answer: &mut [u8]) -> u32;
    fn release(&self, table: &mut [u8], name: &[u8], ttr: u32, answer: &mut [u8]) -> u32;
    fn scratch(
        &self, table: &mut [u8], name: &[u8], today: &[u8], overriding: u32, answer: &mut [u8],
    ) -> u32;
    fn rename(&self, table: &mut [u8], old: &[u8], new: &[u8], answer: &mut [u8]) -> u32;
    fn obtain(&self, table: &[u8], name: &[u8], labels: &mut [u8], answer: &mut [u8]) -> u32;
    fn lspace(&self, table: &[u8], answer: &mut [u8]) -> u32;
    #[allow(clippy::too_many_arguments)]
    fn preview_allocate(
        &self, table: &[u8], name: &[u8], attributes: &[u8], kind: u32, start: u32, amount: u32,
        secondary: u32, option: u32, expiry: &[u8], answer: &mut [u8],
    ) -> u32;
    fn preview_extend(&self, table: &[u8], name: &[u8], answer: &mut [u8]) -> u32;
    fn preview_release(&self, table: &[u8], name: &[u8], ttr: u32, answer: &mut [u8]) -> u32;
    fn preview_scratch(
        &self, table: &[u8], name: &[u8], today: &[u8], overriding: u32, answer: &mut [u8],
    ) -> u32;
    fn date_to_stored(&self, packed: &[u8], answer: &mut [u8]) -> u32;
    fn date_to_packed(&self, stored: &[u8], answer: &mut [u8]) -> u32;
}

/// The reference as a manager.
pub struct Reference;

impl Manager for Reference {
    fn initialise(
        &self, table: &mut [u8], c: u32, h: u32, d: u32, s: u32, v: u32, answer: &mut [u8],
    ) -> u32 {
        reference::initialise(table, c, h, d, s, v, answer)
    }
    fn allocate(
        &self, table: &mut [u8], name: &[u8], attributes: &[u8], kind: u32, start: u32,
        amount: u32, secondary: u32, option: u32, expiry: &[u8], answer: &mut [u8],
    ) -> u32 {
        reference::allocate(
            table, name, attributes, kind, start, amount, secondary, option, expiry, answer,
        )
    }
    fn extend(&self, table: &mut [u8], name: &[u8], answer: &mut [u8]) -> u32 {
        reference::extend(table, name, answer)
    }
    fn release(&self, table: &mut [u8], name: &[u8], ttr: u32, answer: &mut [u8]) -> u32 {
        reference::release(table, name, ttr, answer)
    }
    fn scratch(
        &self, table: &mut [u8], name: &[u8], today: &[u8], overriding: u32, answer: &mut [u8],
    ) -> u32 {
        reference::scratch(table, name, today, overriding, answer)
    }
    fn rename(&self, table: &mut [u8], old: &[u8], new: &[u8], answer: &mut [u8]) -> u32 {
        reference::rename(table, old, new, answer)
    }
    fn obtain(&self, table: &[u8], name: &[u8], labels: &mut [u8], answer: &mut [u8]) -> u32 {
        reference::obtain(table, name, labels, answer)
    }
    fn lspace(&self, table: &[u8], answer: &mut [u8]) -> u32 {
        reference::lspace(table, answer)
    }
    fn preview_allocate(
        &self, table: &[u8], name: &[u8], attributes: &[u8], kind: u32, start: u32, amount: u32,
        secondary: u32, option: u32, expiry: &[u8], answer: &mut [u8],
    ) -> u32 {
        reference::preview_allocate(
            table, name, attributes, kind, start, amount, secondary, option, expiry, answer,
        )
    }
    fn preview_extend(&self, table: &[u8], name: &[u8], answer: &mut [u8]) -> u32 {
        reference::preview_extend(table, name, answer)
    }
    fn preview_release(&self, table: &[u8], name: &[u8], ttr: u32, answer: &mut [u8]) -> u32 {
        reference::preview_release(table, name, ttr, answer)
    }
    fn preview_scratch(
        &self, table: &[u8], name: &[u8], today: &[u8], overriding: u32, answer: &mut [u8],
    ) -> u32 {
        reference::preview_scratch(table, name, today, overriding, answer)
    }
    fn date_to_stored(&self, packed: &[u8], answer: &mut [u8]) -> u32 {
        reference::date_to_stored(packed, answer)
    }
    fn date_to_packed(&self, stored: &[u8], answer: &mut [u8]) -> u32 {
        reference::date_to_packed(stored, answer)
    }
}

/// The lent buffers that a call may write.
#[derive(Clone, Debug, PartialEq, Eq)]
pub struct Buffers {
    pub table: Vec<u8>,
    pub answer: Vec<u8>,
    pub labels: Vec<u8>,
}

impl Buffers {
    /// Output buffers of the given lengths, full of bytes that no call answers with by
    /// chance: what is left of them was not written.
    pub fn new(table: Vec<u8>, answer_len: usize, labels_len: usize) -> Buffers {
        Buffers { table, answer: vec![0xA5; answer_len], labels: vec![0x5A; labels_len] }
    }
}

impl Call {
    /// Makes the call of `manager`; the result is 0 or the refusal.
    pub fn run(&self, manager: &impl Manager, buffers: &mut Buffers) -> u32 {
        let Buffers { table, answer, labels } = buffers;
        self.run_on(manager, table, answer, labels)
    }

    /// The same on buffers that are lent one by one.
    pub fn run_on(
        &self, manager: &impl Manager, table: &mut [u8], answer: &mut [u8], labels: &mut [u8],
    ) -> u32 {
        match self {
            &Call::Initialise { c, h, d, s, v } => manager.initialise(table, c, h, d, s, v, answer),
            &Call::Allocate {
                ref name,
                ref attributes,
                kind,
                start,
                amount,
                secondary,
                option,
                ref expiry,
            } => manager.allocate(
                table, name, attributes, kind, start, amount, secondary, option, expiry, answer,
            ),
            Call::Extend { name } => manager.extend(table, name, answer),
            Call::Release { name, ttr } => manager.release(table, name, *ttr, answer),
            Call::Scratch { name, today, overriding } => {
                manager.scratch(table, name, today, *overriding, answer)
            }
            Call::Rename { old, new } => manager.rename(table, old, new, answer),
            Call::Obtain { name } => manager.obtain(table, name, labels, answer),
            Call::Lspace => manager.lspace(table, answer),
            Call::Preview(call) => call.preview_on(manager, table, answer),
            Call::DateToStored { packed } => manager.date_to_stored(packed, answer),
            Call::DateToPacked { stored } => manager.date_to_packed(stored, answer),
        }
    }

    /// Makes the preview of the call.
    fn preview_on(&self, manager: &impl Manager, table: &[u8], answer: &mut [u8]) -> u32 {
        match self {
            &Call::Allocate {
                ref name,
                ref attributes,
                kind,
                start,
                amount,
                secondary,
                option,
                ref expiry,
            } => manager.preview_allocate(
                table, name, attributes, kind, start, amount, secondary, option, expiry, answer,
            ),
            Call::Extend { name } => manager.preview_extend(table, name, answer),
            Call::Release { name, ttr } => manager.preview_release(table, name, *ttr, answer),
            Call::Scratch { name, today, overriding } => {
                manager.preview_scratch(table, name, today, *overriding, answer)
            }
            _ => unreachable!("no preview of {self:?}"),
        }
    }

    /// The preview of the call, where there is one.
    pub fn preview(&self) -> Option<Call> {
        match self {
            Call::Allocate { .. }
            | Call::Extend { .. }
            | Call::Release { .. }
            | Call::Scratch { .. } => Some(Call::Preview(Box::new(self.clone()))),
            _ => None,
        }
    }

    /// The call's place in `CALL_NAMES`.
    pub fn index(&self) -> usize {
        match self {
            Call::Initialise { .. } => 0,
            Call::Allocate { .. } => 1,
            Call::Extend { .. } => 2,
            Call::Release { .. } => 3,
            Call::Scratch { .. } => 4,
            Call::Rename { .. } => 5,
            Call::Obtain { .. } => 6,
            Call::Lspace => 7,
            Call::Preview(call) => FIRST_PREVIEW + call.index() - 1,
            Call::DateToStored { .. } => 12,
            Call::DateToPacked { .. } => 13,
        }
    }
}

/// The place in `CALL_NAMES` of the preview of allocate, which stands at 1; the others follow alike.
const FIRST_PREVIEW: usize = 8;

/// The refusals each call can give, in the order it checks them (0: accepted).
pub const RESULTS: [&[u32]; 14] = [
    &[0, 1, 2],
    ALLOCATE,
    EXTEND,
    RELEASE,
    SCRATCH,
    &[0, 2, 3, 4, 5, 6],
    &[0, 2, 3, 4, 5],
    &[0, 2, 3],
    ALLOCATE,
    EXTEND,
    RELEASE,
    SCRATCH,
    &[0, 2, 14],
    &[0, 2, 14],
];
const ALLOCATE: &[u32] = &[0, 2, 3, 4, 14, 7, 6, 9, 11];
const EXTEND: &[u32] = &[0, 2, 3, 4, 5, 8, 9, 10, 11];
const RELEASE: &[u32] = &[0, 2, 3, 4, 5, 12, 11];
const SCRATCH: &[u32] = &[0, 2, 3, 4, 14, 5, 13];
