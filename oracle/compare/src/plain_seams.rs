//! The seam count as plain Rust, which the library is timed against, since the Rust source has
//! none: one pass over the strip that checks it, then the halves of each polygon. Nothing is
//! allocated. Whether areas touch is asked in two ways, as document 02 (No. 5) has it, and by the
//! numbers that touch the cell's, which are found before the halves are gone through.

use crate::plain::{check, counts, CELL_WORDS};
use strips::Refusal;

const CELLS: u32 = 10_000;

fn touch(own: u32, area: u32) -> bool {
    let apart = own.abs_diff(area);
    own < CELLS && area < CELLS && (apart == 100 || apart == 1 && own / 100 == area / 100)
}

/// The halves whose area passes the test.
fn halves(strip: &[u32], test: impl Fn(u32) -> bool) -> Result<u64, Refusal> {
    check(strip).map_err(|place| Refusal::new(3, place))?;
    let (mut at, mut count) = (CELL_WORDS, 0);
    while strip[at] >> 28 == 2 {
        let (vertices, edges, links) = counts(strip[at]);
        let first = at + 4 + links + 3 * vertices;
        at = first + 6 * edges;
        count += strip[first..at].chunks_exact(3).filter(|half| test(half[0])).count();
    }
    Ok(count as u64)
}

pub fn seams(strip: &[u32]) -> Result<u64, Refusal> {
    let own = strip.get(2).copied().unwrap_or(0);
    halves(strip, |area| touch(own, area))
}

pub fn seams_by_neighbours(strip: &[u32]) -> Result<u64, Refusal> {
    let own = strip.get(2).copied().unwrap_or(0);
    let beside = [own.wrapping_sub(100), own.wrapping_sub(1), own.wrapping_add(1), own.wrapping_add(100)];
    let mut near = beside.into_iter().filter(|&area| touch(own, area));
    let Some(first) = near.next() else {
        return halves(strip, |_| false);
    };
    let four = [first, near.next().unwrap_or(first), near.next().unwrap_or(first), near.next().unwrap_or(first)];
    halves(strip, |area| four.contains(&area))
}
