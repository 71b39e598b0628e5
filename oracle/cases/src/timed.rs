//! The cells and pages that are timed and counted, by name.

use rage::ynv::Ynv;

use crate::cells::empty_vehicle;
use crate::pages::Pages;
use crate::sizes::{
    about, divided, leaping, repeated, scattered, squares, wide, with_edges, with_empty_parts, with_points,
};
use crate::Rng;

pub struct Named<T> {
    pub name: &'static str,
    pub make: fn() -> T,
}

const fn named<T>(name: &'static str, make: fn() -> T) -> Named<T> {
    Named { name, make }
}

pub fn largest() -> Ynv {
    squares(16_383, 65_536)
}

/// Cells by size.
pub const SIZES: [Named<Ynv>; 8] = [
    named("the empty vehicle cell", empty_vehicle),
    named("the empty grid cell", || squares(0, 0)),
    named("500 polygons, 2,000 vertices", || squares(500, 2000)),
    named("1,000 polygons, 4,000 vertices", || squares(1000, 4000)),
    named("2,000 polygons, 8,000 vertices", || squares(2000, 8000)),
    named("5,000 polygons, 20,000 vertices", || squares(5000, 20_000)),
    named("10,000 polygons, 40,000 vertices", || squares(10_000, 40_000)),
    named("the largest: 16,383 polygons, 65,536 vertices", largest),
];

/// Where a point lies so that each of the 16 leaves gets as many as any other.
fn in_leaf(n: usize) -> (f32, f32) {
    (37.5 * (n % 4) as f32 + 1.0, 37.5 * (n / 4 % 4) as f32 + 1.0)
}

/// Cells that cost the writer more than their size says.
pub const COSTLY: [Named<Ynv>; 4] = [
    named("16,383 polygons, vertices at random", || scattered(16_383)),
    named("8,192 polygons in each of 16 leaves", || wide(8192)),
    named("2,048 points in each of 16 leaves", || with_points(16 * 2048, in_leaf)),
    named("100,000 points in no leaf", || with_points(100_000, |_| (-900.0, 0.0))),
];

/// A cell in the grid's middle, with areas about its own.
fn of_edges(polys: usize, edges: fn(&mut Rng) -> usize) -> Ynv {
    with_edges(polys, 4040, edges, about(4040))
}

fn three_to_six(rng: &mut Rng) -> usize {
    3 + rng.below(4) as usize
}

/// Cells for the seam count, by how many edges their polygons have.
pub const EDGES: [Named<Ynv>; 10] = [
    named("5,000 polygons of 4 edges", || of_edges(5000, |_| 4)),
    named("the same, all areas NONE", || with_edges(5000, 4040, |_| 4, |_| 16_383)),
    named("the same, in cell 4099", || with_edges(5000, 4099, |_| 4, about(4099))),
    named("the same, in a vehicle's cell", || with_edges(5000, 10_000, |_| 4, about(10_000))),
    named("5,000 polygons of 3 edges", || of_edges(5000, |_| 3)),
    named("5,000 polygons of 6 edges", || of_edges(5000, |_| 6)),
    named("5,000 polygons of 3 to 6 edges", || of_edges(5000, three_to_six)),
    named("50 polygons of 400 edges", || of_edges(50, |_| 400)),
    named("16,383 polygons of 4 edges", || of_edges(16_383, |_| 4)),
    named("16,383 polygons of 3 to 6 edges", || of_edges(16_383, three_to_six)),
];

fn cell() -> Pages {
    Pages::written(&squares(5000, 20_000))
}

fn in_parts(most: u32) -> Pages {
    divided(cell(), &[1, 2, 3, 4], most)
}

fn leaps_in_parts(most: u32) -> Pages {
    divided(leaping(cell()), &[1], most)
}

/// The reader's greatest vectors on the other side.
pub fn vertices_repeated() -> Pages {
    repeated(cell(), 1, 100)
}

/// The pages of 5,000 polygons and 20,000 vertices with other part tables.
pub const PART_TABLES: [Named<Pages>; 11] = [
    named("as written", cell),
    named("every list in parts of 64", || in_parts(64)),
    named("every list in parts of 8", || in_parts(8)),
    named("every list in parts of 1", || in_parts(1)),
    named("indices leap from the first vertex to the last", || leaping(cell())),
    named("the same, vertices in parts of 64", || leaps_in_parts(64)),
    named("the same, vertices in parts of 8", || leaps_in_parts(8)),
    named("the same, vertices in parts of 1", || leaps_in_parts(1)),
    named("the same, 10,000 empty vertex parts between", || with_empty_parts(leaping(cell()), 10_000)),
    named("vertex parts named 100 times over", vertices_repeated),
    named("polygon parts named 10 times over", || repeated(cell(), 4, 10)),
];
