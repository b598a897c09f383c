//! Random and hostile calls and damaged tables, all from one seed.

pub mod aim;
pub mod around;
mod brink;
pub mod damage;
pub mod date_rows;
pub mod dates;
pub mod elsewhere;
pub mod glance;
pub mod grids;
mod hostile;
pub mod last_track;
pub mod names;
pub mod rng;
pub mod session;
pub mod shapes;
pub mod shuffle;
pub mod tables;
pub mod touching;
pub mod wrapped;
