//! The benchmark of the fourteen calls: the library beside the reference, both in one run.

pub mod dates;
pub mod growth;
mod joined;
pub mod page;
pub mod row;
pub mod volume;
