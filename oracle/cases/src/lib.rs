//! Seeded generators: cells, strips and pages. The same seed gives the same case.

pub mod cells;
pub mod damage;
pub mod drawings;
pub mod floats;
pub mod limits;
pub mod neighbours;
pub mod pages;
pub mod points;
mod rng;
pub mod sizes;
pub mod spots;
pub mod timed;
pub mod walks;
pub mod writing;

pub use rng::Rng;
