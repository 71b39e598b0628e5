//! Strips for the drawing as OBJ text: shorts and numbers of all lengths, polygons of few and of
//! many vertices, several faults at once, and what other calls are tried with; and fixed ones.

use rage::math::Vec3;
use rage::ynv::{NavEdge, NavPoly, Ynv};
use strips::encode;

use crate::cells::{self, vec3};
use crate::timed::largest;
use crate::writing::{self, Shape};
use crate::{damage, floats, spots, Rng};

pub const SHAPES: [Shape; 7] = [
    ("shorts of all lengths", |rng| encode(&drawn(rng))),
    ("numbers of all lengths", numbers),
    ("few vertices", few),
    ("many vertices", many),
    ("several faults", several_faults),
    ("as for writing", writing::any),
    ("as for picking", spots::strip),
];

/// A short of any length, often the first or last of its length.
fn short(rng: &mut Rng) -> u16 {
    match rng.below(4) {
        0 => rng.pick(&[0, 1, 9, 10, 11, 99, 100, 101, 999, 1000, 9999, 10_000, 10_001, 65_534, 65_535]),
        1 => rng.u32() as u16,
        _ => {
            let end = rng.pick(&[10, 100, 1000, 10_000]);
            rng.below(end) as u16
        }
    }
}

fn polygon(vertices: Vec<Vec3>) -> NavPoly {
    NavPoly { vertices, edges: Vec::new(), flags0: 0, flags1: 0, flags2: 0, portal_links: Vec::new() }
}

/// An empty cell whose box has a short to the unit on each axis.
fn unit_steps() -> Ynv {
    cells::empty(1, 4040, vec3(0.0, 0.0, 0.0), vec3(65535.0, 65535.0, 65535.0))
}

fn vertex(rng: &mut Rng) -> Vec3 {
    vec3(short(rng).into(), short(rng).into(), short(rng).into())
}

/// A polygon of so many vertices anywhere; now and then they are all the same.
fn anywhere(rng: &mut Rng, count: usize) -> NavPoly {
    let first = vertex(rng);
    let same = rng.once_in(8);
    polygon((0..count).map(|_| if same { first } else { vertex(rng) }).collect())
}

/// The axes of a box, none of them like another: extents of either sign, none at all, halves.
fn odd_box(rng: &mut Rng, cell: &mut Ynv) {
    let finite = |side: f32, or: f32| if side.is_finite() { side } else { or };
    let axis = |rng: &mut Rng| {
        let (lo, extent) = floats::axis(rng);
        (finite(lo, 0.0), finite(extent, 150.0))
    };
    let (x, y, z) = (axis(rng), axis(rng), axis(rng));
    (cell.bb_min, cell.bb_size) = (vec3(x.0, y.0, z.0), vec3(x.1, y.1, z.1));
    for v in cell.polys.iter_mut().flat_map(|poly| &mut poly.vertices) {
        let mut on = |(lo, extent): (f32, f32)| floats::on_axis(rng, lo, extent);
        *v = vec3(on(x), on(y), on(z));
    }
}

/// Flags, links and edges, missing and surplus ones, which the drawing leaves behind.
fn filled(rng: &mut Rng, cell: &mut Ynv) {
    for poly in &mut cell.polys {
        (poly.flags0, poly.flags1, poly.flags2) = (rng.u32() as u16, rng.u32(), rng.u32());
        poly.portal_links = (0..rng.pick(&[0, 0, 1, 7, 8, 15])).map(|_| rng.u32() as u16).collect();
        let count = poly.vertices.len();
        let edges = rng.pick(&[0, count, count, count + 1, count + 5]).min(4095);
        let end = cells::edge_end(rng.u32(), rng.u32());
        poly.edges = vec![NavEdge { a: end, b: end }; edges];
    }
    let other = damage::small(rng);
    (cell.portals, cell.points) = (other.portals, other.points);
}

/// A cell of a few polygons that is accepted; some have none.
fn drawn(rng: &mut Rng) -> Ynv {
    let mut cell = unit_steps();
    cell.polys = (0..rng.below(7))
        .map(|_| {
            let count = 3 + rng.below(6);
            anywhere(rng, count)
        })
        .collect();
    if rng.once_in(3) {
        odd_box(rng, &mut cell);
    }
    filled(rng, &mut cell);
    cell
}

/// Polygons that together have one vertex more than another, from a length of numbers to the next.
fn numbers(rng: &mut Rng) -> Vec<u32> {
    let long = if rng.once_in(20) { 10_000 } else { 1000 };
    let about = rng.pick(&[10, 10, 10, 10, 10, 10, 100, 100, 100, long]);
    let mut left = about - 3 + rng.below(7);
    let mut cell = unit_steps();
    let most = if about < 1000 { 12 } else { 400 };
    while left > 0 {
        // What is left for the next polygon is nothing, or enough.
        let count = (3 + rng.below(most)).min(left);
        let count = if left - count < 3 { left } else { count };
        cell.polys.push(anywhere(rng, count));
        left -= count;
    }
    filled(rng, &mut cell);
    encode(&cell)
}

/// One or two polygons with fewer than 3 vertices, anywhere among others.
fn with_few(rng: &mut Rng) -> Ynv {
    let mut cell = drawn(rng);
    for _ in 0..1 + rng.below(2) {
        let at = rng.below(cell.polys.len() + 1);
        let few = rng.below(3);
        cell.polys.insert(at, anywhere(rng, few));
    }
    cell
}

fn few(rng: &mut Rng) -> Vec<u32> {
    let mut cell = with_few(rng);
    if rng.once_in(2) {
        filled(rng, &mut cell);
    }
    encode(&cell)
}

/// A polygon with as many vertices as saving takes, or more than that.
fn many(rng: &mut Rng) -> Vec<u32> {
    let mut cell = drawn(rng);
    let count = if rng.once_in(4) { rng.pick(&[2046, 2047, 2048, 2049, 4094, 4095]) } else { 3 + rng.below(150) };
    let at = rng.below(cell.polys.len() + 1);
    cell.polys.insert(at, anywhere(rng, count));
    if rng.once_in(2) {
        filled(rng, &mut cell);
    }
    encode(&cell)
}

/// A number of the box that isn't finite, too few vertices and a damaged strip, some of them.
fn several_faults(rng: &mut Rng) -> Vec<u32> {
    let mut cell = if rng.once_in(3) { drawn(rng) } else { with_few(rng) };
    if !rng.once_in(3) {
        let v = [&mut cell.bb_min, &mut cell.bb_max, &mut cell.bb_size].into_iter().nth(rng.below(3)).unwrap();
        let side = [&mut v.x, &mut v.y, &mut v.z].into_iter().nth(rng.below(3)).unwrap();
        *side = rng.pick(&[f32::NAN, f32::INFINITY, f32::NEG_INFINITY]);
    }
    let mut words = encode(&cell);
    match rng.below(4) {
        0 => words.truncate(rng.below(words.len())),
        1 => {
            let n = rng.below(words.len());
            words[n] ^= 1 << rng.below(32);
        }
        _ => {}
    }
    words
}

/// So many polygons of so many vertices, no two vertices alike in a polygon.
pub fn runs(polys: usize, vertices: usize) -> Ynv {
    let corner = |n: usize, k: usize| vec3(k as f32, (n % 65_536) as f32, 65_535.0 - k as f32);
    let run = |n: usize| polygon((0..vertices).map(|k| corner(n, k)).collect());
    Ynv { polys: (0..polys).map(run).collect(), ..unit_steps() }
}

/// So many polygons of 4,095 vertices, every short 65535: the most text that so many words can have.
pub fn densest(polys: usize) -> Ynv {
    Ynv { polys: vec![polygon(vec![vec3(65535.0, 65535.0, 65535.0); 4095]); polys], ..unit_steps() }
}

fn with_short_last(mut cell: Ynv) -> Ynv {
    cell.polys.last_mut().expect("a polygon").vertices.truncate(2);
    cell
}

fn with_links(count: usize) -> Ynv {
    let mut cell = runs(2, 3);
    cell.polys[1].portal_links = vec![65_535; count];
    cell
}

/// The triangle of document 02 (No. 3).
pub fn triangle() -> Ynv {
    let corners = [(0.0, 0.0), (65535.0, 0.0), (0.0, 65535.0)];
    Ynv { polys: vec![polygon(corners.iter().map(|&(x, y)| vec3(x, y, 0.0)).collect())], ..unit_steps() }
}

/// A cell and its name.
pub type Fixed = (&'static str, fn() -> Ynv);

/// Small ones, then what saving would refuse.
pub const FIXED: [Fixed; 13] = [
    ("the triangle of document 02", triangle),
    ("no polygons", unit_steps),
    ("a polygon without vertices", || runs(1, 0)),
    ("2 vertices", || runs(1, 2)),
    ("8 links", || with_links(8)),
    ("15 links", || with_links(15)),
    ("2,047 vertices", || runs(2, 2047)),
    ("2,048 vertices", || runs(2, 2048)),
    ("4,095 vertices", || runs(3, 4095)),
    ("4,095 vertices, every short 65535", || densest(3)),
    ("16,384 polygons", || runs(16_384, 3)),
    ("2 vertices in polygon 69,999", || with_short_last(runs(70_000, 3))),
    ("the largest cell, 65,536 vertices", largest),
];

/// Long ones: numbers of six and seven digits.
pub const LONG: [Fixed; 2] =
    [("102,375 vertices", || runs(25, 4095)), ("1,003,275 vertices, every short 65535", || densest(245))];
