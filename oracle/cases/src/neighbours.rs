//! Strips for the seam count: areas in and beside the cell's row and column, wherever the cell is.

use strips::encode;

use crate::damage::small;
use crate::Rng;

/// How far apart areas are tried, both ways and wrapping.
const APART: [u32; 12] = [0, 1, 1, 1, 2, 10, 99, 100, 100, 101, 16_383, 1 << 31];

/// Own areas at the ends of rows, in the first and the last row, and where the grid ends; NONE's
/// and its neighbours by number.
const OWN: [u32; 22] = [
    0, 1, 98, 99, 100, 101, 199, 200, 4_099, 4_100, 9_899, 9_900, 9_901, 9_998, 9_999, 10_000, 10_001, 10_099, 10_100,
    16_283, 16_382, 16_383,
];

/// A well-formed strip whose halves lie in and beside the cell's row and column.
pub fn strip(rng: &mut Rng) -> Vec<u32> {
    let mut cell = small(rng);
    match rng.below(5) {
        0 => cell.area_id = rng.pick(&OWN),
        1 => cell.area_id = rng.below(100) as u32 * 100 + rng.pick(&[0, 1, 98, 99]),
        2 => cell.area_id = rng.below(10_200) as u32,
        3 => cell.area_id = u32::MAX - rng.pick(&[0, 1, 99, 100]),
        _ => (),
    }
    let own = cell.area_id;
    for edge in cell.polys.iter_mut().flat_map(|poly| &mut poly.edges) {
        for half in [&mut edge.a, &mut edge.b] {
            if !rng.once_in(8) {
                let apart = rng.pick(&APART);
                half.area_id = if rng.once_in(2) { own.wrapping_add(apart) } else { own.wrapping_sub(apart) };
            }
        }
    }
    encode(&cell)
}
