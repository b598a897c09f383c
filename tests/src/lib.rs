//! An implementation of the VTOC space manager unrelated to the proved one, and what is
//! needed to test the one against the other. See README.md.

pub mod agreement;
pub mod audit;
#[cfg(feature = "library")]
pub mod bench;
pub mod beside;
pub mod call;
pub mod cases;
pub mod coverage;
pub mod desk;
pub mod every_date;
#[cfg(feature = "stand-in")]
pub mod exported;
pub mod faulty;
#[cfg(feature = "floor")]
pub mod floor;
pub mod generate;
pub mod irregular;
pub mod ledger;
#[cfg(feature = "library")]
pub mod library;
pub mod naming;
#[cfg(feature = "proved")]
pub mod proved;
pub mod recording;
pub mod reference;
pub mod replay;
pub mod short;
pub mod stops;
pub mod timing;
pub mod volumes;
