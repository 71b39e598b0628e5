//! Strips for the writer: cells of all shapes, odd floats and edges, cells beside each
//! limit, several faults at once, damaged strips, points about the leaves, positions about the
//! border.

use rage::math::Vec3;
use rage::ynv::{NavEdge, NavPoint, NavPoly, NavPortal, Ynv};
use strips::encode;

use crate::cells::{self, edge_end, empty_grid, empty_vehicle, vec3};
use crate::{damage, floats, points, Rng};

/// A generator and its name.
pub type Shape = (&'static str, fn(&mut Rng) -> Vec<u32>);

pub const SHAPES: [Shape; 10] = [
    ("cells", |rng| encode(&cells::valid(rng))),
    ("wild cells", |rng| encode(&cells::wild(rng))),
    ("small cells", |rng| encode(&cells::small_vehicle(rng))),
    ("odd floats", odd_floats),
    ("odd edges", odd_edges),
    ("beside a limit", beside_a_limit),
    ("several faults", several_faults),
    ("damaged strips", damage::strip),
    ("points about leaves", points::about_leaves),
    ("about the border", about_the_border),
];

/// A strip of any shape but the two that make long ones.
pub fn any(rng: &mut Rng) -> Vec<u32> {
    let (_, shape) = SHAPES[rng.pick(&[0, 1, 2, 3, 4, 7, 8])];
    shape(rng)
}

fn axes(v: &mut Vec3) -> [&mut f32; 3] {
    [&mut v.x, &mut v.y, &mut v.z]
}

/// Every position of a cell.
fn positions(cell: &mut Ynv) -> Vec<&mut Vec3> {
    let polys = cell.polys.iter_mut().flat_map(|p| &mut p.vertices);
    let portals = cell.portals.iter_mut().flat_map(|p| [&mut p.from, &mut p.to]);
    polys.chain(portals).chain(cell.points.iter_mut().map(|p| &mut p.position)).collect()
}

/// An axis on which it counts whether a coordinate is outside: of the map, mirrored, so long
/// that a step below lo is lost, an extent about 2^-23 and none, far out.
fn border_axis(rng: &mut Rng) -> (f32, f32) {
    let least = f32::EPSILON;
    match rng.below(12) {
        0 => (0.0, rng.pick(&[1.0, 2.0, 4096.0, 1e10, f32::MAX])),
        1 => (-0.0, rng.pick(&[150.0, -150.0])),
        2 => (rng.pick(&[0.0, 1.0, -3.0]), rng.pick(&[least, -least, least / 2.0, -least / 2.0, 0.0, -0.0])),
        3 => (rng.pick(&[0.0, 7.0]), f32::from_bits(least.to_bits() + rng.below(3) as u32 - 1)),
        4 => (-6000.0 + 150.0 * rng.below(80) as f32, -150.0),
        5 => (f32::from_bits(0xC649_DFDF), f32::from_bits(0x4562_C837)),
        6 => rng.pick(&[(f32::MIN, f32::MAX), (-3e38, 3e38), (3e38, 3e38)]),
        _ => (-6000.0 + 150.0 * rng.below(80) as f32, rng.pick(&[150.0, 128.0, 4096.0])),
    }
}

/// A coordinate at an end of its axis, up to three floats beside it, the least below it, what
/// reading makes of the last short, NaN, infinite, or anywhere.
fn border_coordinate(rng: &mut Rng, (lo, extent): (f32, f32)) -> f32 {
    let beside = |x: f32, by: u32| f32::from_bits(x.to_bits().wrapping_add(by).wrapping_sub(3));
    let end = rng.pick(&[lo, lo + extent]);
    match rng.below(12) {
        0..=2 => end,
        3 | 4 => beside(end, rng.below(7) as u32),
        5 => lo - f32::from_bits(1 + rng.below(4) as u32),
        6 => strips::back(65535, lo, extent),
        7 => rng.pick(&[f32::NAN, f32::INFINITY, f32::NEG_INFINITY, -0.0, 0.0]),
        8 => end + (rng.unit() - 0.5) * 20.0,
        9 => floats::any(rng),
        _ => lo + rng.unit() * extent,
    }
}

/// A small cell whose positions lie about the border of its box, some of them again.
fn about_the_border(rng: &mut Rng) -> Vec<u32> {
    let mut cell = damage::small(rng);
    let on = [(); 3].map(|_| border_axis(rng));
    let sides = axes(&mut cell.bb_min).into_iter().zip(axes(&mut cell.bb_size)).zip(axes(&mut cell.bb_max));
    for (((lo, size), hi), (new_lo, new_size)) in sides.zip(on) {
        (*lo, *size, *hi) = (new_lo, new_size, new_lo + new_size);
        if !hi.is_finite() {
            *hi = f32::MAX;
        }
    }
    let mut last = vec3(0.0, 0.0, 0.0);
    for position in positions(&mut cell) {
        if !rng.once_in(5) {
            last = vec3(border_coordinate(rng, on[0]), border_coordinate(rng, on[1]), border_coordinate(rng, on[2]));
        }
        *position = last;
    }
    encode(&cell)
}

/// A small cell whose box and positions are any floats: mostly a finite box, positions in
/// it, at its ends, beside half steps, NaN, infinite, -0 and huge.
fn odd_floats(rng: &mut Rng) -> Vec<u32> {
    let mut cell = damage::small(rng);
    let on = [(); 3].map(|_| floats::axis(rng));
    let lo = axes(&mut cell.bb_min).into_iter().zip(axes(&mut cell.bb_size));
    for ((lo, size), (new_lo, new_size)) in lo.zip(on) {
        (*lo, *size) = (new_lo, new_size);
    }
    for (hi, (lo, size)) in axes(&mut cell.bb_max).into_iter().zip(on) {
        *hi = if rng.once_in(4) { floats::any(rng) } else { lo + size };
    }
    if !rng.once_in(8) {
        for v in [&mut cell.bb_min, &mut cell.bb_max, &mut cell.bb_size] {
            axes(v).into_iter().filter(|side| !side.is_finite()).for_each(|side| *side = 1.0);
        }
    }
    let (lo, size) = (cell.bb_min, cell.bb_size);
    for v in positions(&mut cell) {
        *v = vec3(
            floats::on_axis(rng, lo.x, size.x),
            floats::on_axis(rng, lo.y, size.y),
            floats::on_axis(rng, lo.z, size.z),
        );
    }
    encode(&cell)
}

/// Edges that are missing or surplus, and areas up to and past the 32nd.
fn odd_edges(rng: &mut Rng) -> Vec<u32> {
    let mut cell = cells::valid(rng);
    cell.polys.truncate(30);
    let own = cell.area_id;
    let areas = rng.pick(&[1, 20, 25, 26, 27, 28, 60]);
    let mut next = 0;
    for p in &mut cell.polys {
        let count = match rng.below(4) {
            0 => p.vertices.len(),
            1 => 0,
            2 => rng.below(p.vertices.len()),
            _ => p.vertices.len() + 1 + rng.below(9),
        };
        let mut end = |rng: &mut Rng| {
            let mut end = edge_end(own.wrapping_add(1000 + 3 * (next % areas)), rng.u32());
            match rng.below(4) {
                0 => end.area_id = own.wrapping_add(rng.pick(&[0, 1, 100, u32::MAX, u32::MAX - 99])),
                1 => end.area_id = 16383,
                _ => next += 1,
            }
            (end.unk2, end.unk3) = (rng.u32() as u8, rng.u32() as u16);
            end
        };
        p.edges = (0..count).map(|_| NavEdge { a: end(rng), b: end(rng) }).collect();
    }
    encode(&cell)
}

fn polygon(count: usize, at: Vec3) -> NavPoly {
    NavPoly { vertices: vec![at; count], edges: Vec::new(), flags0: 0, flags1: 0, flags2: 0, portal_links: Vec::new() }
}

fn portals(rng: &mut Rng, count: usize) -> Vec<NavPortal> {
    let at = vec3(rng.unit() * 150.0, rng.unit() * 150.0, 1.0);
    let portal = |n: usize| NavPortal {
        kind: n as u8,
        angle: 3,
        flags_unk: n as u16,
        from: at,
        to: vec3(n as f32 / 8.0, 1.0, 2.0),
        poly_from: n as u16,
        poly_to: 1,
        area_from: rng.u32() as u16,
        area_to: n as u16,
        area_unk: n as u8,
    };
    (0..count).map(portal).collect()
}

/// Points in one place, one of the corners where leaves meet or the middle of a leaf.
fn crowd(rng: &mut Rng, count: usize) -> Vec<NavPoint> {
    let side = |rng: &mut Rng| rng.pick(&[0.0, 20.0, 37.5, 75.0, 80.0, 112.5, 150.0]);
    let position = vec3(side(rng), side(rng), 1.0);
    vec![NavPoint { position, angle: rng.u32() as u8, kind: 7 }; count]
}

/// Links on triangles in place, six or seven to each.
fn links(rng: &mut Rng, count: usize, at: Vec3) -> Vec<NavPoly> {
    let (mut polys, mut left) = (Vec::new(), count);
    while left > 0 {
        let some = left.min(7 - rng.once_in(50) as usize);
        polys.push(NavPoly { portal_links: vec![left as u16; some], ..polygon(3, at) });
        left -= some;
    }
    polys
}

/// Polygons with `total` vertices in all, the `n`th of them at a place of its own as long
/// as n is below `distinct`.
fn runs(rng: &mut Rng, total: usize, distinct: usize) -> Vec<NavPoly> {
    let (mut polys, mut n) = (Vec::new(), 0);
    while n < total {
        let count = (total - n).min(2047 - rng.below(3));
        let vertex = |k: usize| vec3((k % 256) as f32, (k / 256) as f32, 0.0);
        let vertices = (n..n + count).map(|k| vertex(k.min(distinct - 1))).collect();
        polys.push(NavPoly { vertices, ..polygon(0, vec3(0.0, 0.0, 0.0)) });
        n += count;
    }
    polys
}

/// A cell whose count of something is at a limit, or a few below or above it.
fn beside_a_limit(rng: &mut Rng) -> Vec<u32> {
    let mut cell = if rng.once_in(2) { empty_grid() } else { empty_vehicle() };
    let beside = |rng: &mut Rng, limit: usize| limit + 3 - rng.below(6);
    let at = vec3(rng.pick(&[1.0, 37.5, 140.0, -900.0]), rng.pick(&[1.0, 75.0, 140.0]), 1.0);
    match if rng.once_in(60) { 5 + rng.below(4) } else { rng.below(5) } {
        0 => {
            let count = beside(rng, 585);
            cell.portals = portals(rng, count);
        }
        1 => {
            let count = beside(rng, 2048);
            cell.points = crowd(rng, count);
        }
        2 => {
            let counts = [3, beside(rng, 2047), rng.below(5), 3];
            cell.polys = counts.map(|count| polygon(count, at)).to_vec();
        }
        3 => {
            cell.polys = vec![polygon(3, at); 1 + rng.below(4)];
            let n = rng.below(cell.polys.len());
            cell.polys[n].portal_links = vec![9; beside(rng, 7)];
        }
        4 => {
            let count = beside(rng, 8192);
            cell.polys = links(rng, count, vec3(-900.0, -900.0, 0.0));
        }
        5 => cell.polys = vec![polygon(3, at); beside(rng, 8192)],
        6 => cell.polys = vec![polygon(3, vec3(-900.0, 1.0, 1.0)); beside(rng, 16383)],
        7 => {
            let total = beside(rng, 65535);
            cell.polys = runs(rng, total, 300);
            cell.polys.push(polygon(3, at));
        }
        _ => {
            (cell.bb_size, cell.bb_min) = (vec3(65535.0, 65535.0, 65535.0), vec3(0.0, 0.0, 0.0));
            let distinct = beside(rng, 65536);
            cell.polys = runs(rng, 65535, distinct);
            let last = |n: usize| vec3(((65535 + n) % 256) as f32, ((65535 + n) / 256) as f32, 0.0);
            let vertices = (0..4).map(|n| if 65535 + n < distinct { last(n) } else { last(0) }).collect();
            cell.polys.push(NavPoly { vertices, ..polygon(0, at) });
        }
    }
    encode(&cell)
}

/// One to four faults in a small cell: the first of them in document 01's order counts.
fn several_faults(rng: &mut Rng) -> Vec<u32> {
    let mut cell = if rng.once_in(2) { empty_grid() } else { empty_vehicle() };
    cell.polys = (0..3 + rng.below(4)).map(|_| polygon(3 + rng.below(3), vec3(1.0, 1.0, 1.0))).collect();
    for _ in 0..1 + rng.below(4) {
        let n = rng.below(cell.polys.len());
        let bad = rng.pick(&[f32::NAN, f32::INFINITY, f32::NEG_INFINITY]);
        match rng.below(12) {
            0 => *axes(&mut cell.bb_min).into_iter().nth(rng.below(3)).unwrap() = bad,
            1 => *axes(&mut cell.bb_size).into_iter().nth(rng.below(3)).unwrap() = bad,
            2..=3 => cell.polys[n].vertices.truncate(2),
            4..=6 => {
                let from = rng.u32();
                let halves = |i: u32| NavEdge { a: edge_end(from + 2 * i, 0), b: edge_end(from + 2 * i + 1, 0) };
                cell.polys[n].edges = (0..rng.pick(&[2, 3, 20])).map(halves).collect();
                let count = rng.pick(&[3, 13, 14, 15, 20]);
                cell.polys[n].vertices.resize(count, vec3(2.0, 2.0, 2.0));
            }
            7..=8 => cell.polys[n].portal_links = vec![1; 8 + rng.below(8)],
            9 => {
                let count = 2049 + rng.below(2);
                cell.points = crowd(rng, count);
            }
            10 => cell.portals = portals(rng, 586),
            _ => cell.polys.extend(links(rng, 8193, vec3(-900.0, -900.0, 0.0))),
        }
    }
    encode(&cell)
}
