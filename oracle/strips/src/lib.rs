//! Strips (document 01's word form of a cell) and a judge of its own, written from
//! document 01: which refusal, and where, a call of the writer or reader must answer.
//! What an accepted call gives is the Rust's answer.

mod guard;
mod layout;
mod leaf;
mod messages;
mod obj;
mod picking;
mod points;
mod pushed;
mod reach;
mod read;
mod reread;
mod seams;
mod strip;
mod write;

pub use guard::{caught, claimed_bytes, rust_read, rust_write, RustRead, RustWrite, CLAIM_LIMIT};
pub use layout::laid_out;
pub use leaf::{areas, back, place, quarter_ceil, quarter_floor, short, AreaTable, PAGE_SIZE};
pub use messages::{refuses_reading, refuses_writing};
pub use obj::obj;
pub use picking::{outlines, pick, spot};
pub use points::{leaves_of_points, point_counts, PointCounts};
pub use pushed::{coordinate_pushed, pushed};
pub use reach::{reach, reachable};
pub use read::{derive, derived_words, expected_read, Derived, ReadAnswer};
pub use reread::reread;
pub use seams::seams;
pub use strip::{counts, encode, scan, Counts};
pub use write::{expected_write, judge_write, leaf_boxes, WriteAnswer};

/// A refusal: its number in document 01 and its place.
#[derive(Debug, Clone, Copy, PartialEq, Eq)]
pub struct Refusal {
    pub number: u32,
    pub place: usize,
}

impl Refusal {
    pub fn new(number: u32, place: usize) -> Refusal {
        Refusal { number, place }
    }
}
