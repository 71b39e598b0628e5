//! Strips for the polygons that a walker can get to: yards with every kind of step and of what is
//! none, chains in any order, drawn cells with walls; and the orders that cost most.

use rage::ynv::{NavEdge, NavEdgeEnd, NavPoly, NavPortal, Ynv};
use strips::encode;

use crate::cells::{self, edge_end, empty_grid, vec3};
use crate::{damage, Rng};

/// The number for no polygon.
const NONE: u32 = 16383;

fn polygon(vertices: usize, edges: Vec<NavEdge>) -> NavPoly {
    let corner = |n: usize| vec3(n as f32, (n * n) as f32, 1.0);
    NavPoly {
        vertices: (0..vertices).map(corner).collect(),
        edges,
        flags0: 0,
        flags1: 0,
        flags2: 0,
        portal_links: Vec::new(),
    }
}

pub fn portal(areas: [u16; 2], polys: [u16; 2]) -> NavPortal {
    let ([area_from, area_to], [poly_from, poly_to]) = (areas, polys);
    let at = vec3(1.0, 1.0, 1.0);
    NavPortal { kind: 1, angle: 0, flags_unk: 0, from: at, to: at, poly_from, poly_to, area_from, area_to, area_unk: 0 }
}

/// A cell of so many polygons of so many vertices without edges.
pub fn yards(area_id: u32, polys: usize, vertices: usize) -> Ynv {
    Ynv { area_id, polys: vec![polygon(vertices, Vec::new()); polys], ..empty_grid() }
}

/// A polygon's number as an edge may have it: in the strip, about its end, none, with bits above the 14.
fn target(rng: &mut Rng, count: usize) -> u32 {
    let number = match rng.below(8) {
        0 => NONE,
        1 => NONE - 1,
        2 => count as u32 + rng.below(3) as u32,
        3 => (count as u32).wrapping_sub(1),
        4 => rng.u32(),
        _ => rng.below(count.max(1)) as u32,
    };
    if rng.once_in(4) {
        number & 0x3FFF | rng.u32() << 14
    } else {
        number
    }
}

fn half(rng: &mut Rng, own: u32, count: usize) -> NavEdgeEnd {
    match rng.below(6) {
        0 => NavEdgeEnd::NONE,
        1 => edge_end(own ^ 1 << rng.below(32), target(rng, count)),
        _ => edge_end(own, target(rng, count)),
    }
}

/// The areas of a portal: both the own one, one of them, neither; of a wide id the low half.
fn areas(rng: &mut Rng, own: u32) -> [u16; 2] {
    let own = own as u16;
    match rng.below(6) {
        0 => [own, own ^ 1],
        1 => [own.wrapping_add(1), own],
        2 => [rng.u32() as u16, rng.u32() as u16],
        _ => [own, own],
    }
}

fn portals(rng: &mut Rng, own: u32, count: usize, most: usize) -> Vec<NavPortal> {
    (0..rng.below(most + 1))
        .map(|_| {
            let mut number = || match rng.below(8) {
                0 => rng.u32() as u16,
                1 => count as u16,
                _ => rng.below(count.max(1)) as u16,
            };
            let polys = [number(), number()];
            portal(areas(rng, own), polys)
        })
        .collect()
}

fn own_id(rng: &mut Rng) -> u32 {
    match rng.below(8) {
        0 => NONE,
        1 => 65_535,
        2 => 65_536 + rng.below(65_536) as u32,
        3 => rng.u32(),
        4 => 0,
        _ => 4040,
    }
}

/// A few polygons with every kind of half and portal; edges missing and surplus.
fn mixed(rng: &mut Rng) -> Vec<u32> {
    let (own, count) = (own_id(rng), rng.below(14));
    let mut cell = Ynv { area_id: own, ..empty_grid() };
    for _ in 0..count {
        let (vertices, edges) = (rng.below(6), rng.below(7));
        let edges = (0..edges).map(|_| NavEdge { a: half(rng, own, count), b: half(rng, own, count) }).collect();
        let mut poly = polygon(vertices, edges);
        poly.portal_links = vec![0; rng.pick(&[0, 0, 0, 1, 15])];
        cell.polys.push(poly);
    }
    cell.portals = portals(rng, own, count, 8);
    encode(&cell)
}

fn shuffled(rng: &mut Rng, count: usize) -> Vec<usize> {
    let mut order: Vec<usize> = (0..count).collect();
    (1..count).rev().for_each(|n| order.swap(n, rng.below(n + 1)));
    order
}

/// Steps from one polygon to the next in an order, by a half or by a portal, and a few others.
fn chain(rng: &mut Rng) -> Vec<u32> {
    let (own, count) = (own_id(rng) & 0xFFFF, 2 + rng.below(60));
    let order = if rng.once_in(3) { (0..count).rev().collect() } else { shuffled(rng, count) };
    let mut cell = yards(own, count, 3);
    let by = rng.below(4);
    for pair in order.windows(2) {
        let none = NavEdgeEnd::NONE;
        let to = edge_end(own, pair[1] as u32);
        let edge = match if by == 3 { rng.below(3) } else { by } {
            0 => NavEdge { a: to, b: none },
            1 => NavEdge { a: none, b: to },
            _ => {
                cell.portals.push(portal([own as u16; 2], [pair[0] as u16, pair[1] as u16]));
                continue;
            }
        };
        let edges = &mut cell.polys[pair[0]].edges;
        edges.extend(vec![NavEdge::NONE; rng.below(4)]);
        edges.push(edge);
    }
    let order = shuffled(rng, cell.portals.len());
    cell.portals = order.iter().map(|&n| cell.portals[n].clone()).collect();
    encode(&cell)
}

/// A grid of polygons that lead to their neighbours, numbered by an order, but for walls: a
/// side is shut where `walls` says so.
fn grid_by(order: &[usize], walls: &mut impl FnMut() -> bool) -> Ynv {
    let count = order.len();
    let across = (count as f64).sqrt().ceil() as usize;
    let mut cell = yards(4040, count, 4);
    for n in 0..count {
        let (x, y) = (n % across, n / across);
        let sides =
            [(x > 0, n.wrapping_sub(1)), (x + 1 < across, n + 1), (y > 0, n.wrapping_sub(across)), (true, n + across)];
        let mut edge = |(inside, to): (bool, usize)| {
            let open = inside && to < count && !walls();
            let end = edge_end(4040, if open { order[to] as u32 } else { NONE });
            NavEdge { a: end, b: end }
        };
        cell.polys[order[n]].edges = sides.map(&mut edge).to_vec();
    }
    cell
}

fn walled(rng: &mut Rng) -> Vec<u32> {
    let count = 1 + rng.below(150);
    let order = if rng.once_in(2) { (0..count).collect() } else { shuffled(rng, count) };
    let one_in = rng.pick(&[2, 2, 3, 10]);
    let mut dice = rng.clone();
    let mut cell = grid_by(&order, &mut || dice.once_in(one_in));
    cell.portals = portals(rng, 4040, count, 6);
    encode(&cell)
}

/// Other strips: a bit of a mixed one flipped, wild cells, damaged strips.
fn damaged(rng: &mut Rng) -> Vec<u32> {
    match rng.below(3) {
        0 => {
            let mut words = mixed(rng);
            let n = rng.below(words.len());
            words[n] ^= 1 << rng.below(32);
            words
        }
        1 => encode(&cells::wild(rng)),
        _ => damage::strip(rng),
    }
}

/// Makes a strip.
pub type Shape = (&'static str, fn(&mut Rng) -> Vec<u32>);

pub const SHAPES: [Shape; 6] = [
    ("mixed steps", mixed),
    ("mixed steps", mixed),
    ("chains", chain),
    ("grids with walls", walled),
    ("wild and damaged", damaged),
    ("mixed steps", mixed),
];

/// A drawn cell of so many polygons, each with a way to its neighbours on all sides.
pub fn drawn(count: usize) -> Ynv {
    grid_by(&(0..count).collect::<Vec<_>>(), &mut || false)
}

/// The same with polygons numbered at random.
pub fn drawn_shuffled(count: usize) -> Ynv {
    grid_by(&shuffled(&mut Rng::new(7), count), &mut || false)
}

/// A chain through all polygons in an order, by the last of four edges.
pub fn edge_chain(order: &[usize]) -> Ynv {
    let mut cell = yards(4040, order.len(), 4);
    for pair in order.windows(2) {
        let none = edge_end(4040, NONE);
        let mut edges = vec![NavEdge { a: none, b: none }; 3];
        edges.push(NavEdge { a: none, b: edge_end(4040, pair[1] as u32) });
        cell.polys[pair[0]].edges = edges;
    }
    cell
}

/// A chain through all polygons in an order, by portals that stand in another order.
pub fn portal_chain(order: &[usize], portals: &[usize]) -> Ynv {
    let mut cell = yards(4040, order.len(), 4);
    cell.portals = portals.iter().map(|&n| portal([4040; 2], [order[n] as u16, order[n + 1] as u16])).collect();
    cell
}

/// Portals down through all polygons, behind so many that lead from the last to itself.
pub fn behind_idle(polys: usize, idle: usize) -> Ynv {
    let mut cell = portal_chain(&down(polys), &down(polys - 1));
    let last = (polys - 1) as u16;
    cell.portals = [vec![portal([4040; 2], [last; 2]); idle], cell.portals].concat();
    cell
}

pub fn down(count: usize) -> Vec<usize> {
    (0..count).rev().collect()
}

pub fn at_random(count: usize) -> Vec<usize> {
    shuffled(&mut Rng::new(11), count)
}

/// A cell, and a polygon to start from.
pub type Fixed = (&'static str, fn() -> (Ynv, usize));

pub const FIXED: [Fixed; 17] = [
    ("no polygons", || (empty_grid(), 0)),
    ("one polygon that leads nowhere", || (edge_chain(&[0]), 0)),
    ("a chain down through 16,383 polygons", || (edge_chain(&down(16_383)), 16_382)),
    ("a chain up through 16,383 polygons", || (edge_chain(&(0..16_383).collect::<Vec<_>>()), 0)),
    ("a chain at random through 16,383 polygons", || {
        let order = at_random(16_383);
        (edge_chain(&order), order[0])
    }),
    ("portals down through 16,383 polygons", || (portal_chain(&down(16_383), &down(16_382)), 16_382)),
    ("portals down, in order", || (portal_chain(&down(16_383), &(0..16_382).collect::<Vec<_>>()), 16_382)),
    ("portals at random through 16,383 polygons", || {
        let order = at_random(16_383);
        (portal_chain(&order, &shuffled(&mut Rng::new(3), 16_382)), order[0])
    }),
    ("portals down through 20,000 polygons", || (portal_chain(&down(20_000), &down(19_999)), 19_999)),
    ("40 portals behind 70,000 others", || (behind_idle(40, 70_000), 39)),
    ("16,384 polygons", || (drawn(16_384), 5)),
    ("16,385 polygons", || (drawn(16_385), 16_384)),
    ("40,000 polygons, from the last on by portals", || {
        (portal_chain(&down(40_000), &(0..400).collect::<Vec<_>>()), 39_999)
    }),
    ("70,000 polygons, from the last", || (drawn(70_000), 69_999)),
    ("16,383 polygons drawn", || (drawn(16_383), 8000)),
    ("16,383 polygons drawn, numbered at random", || (drawn_shuffled(16_383), 8000)),
    ("two polygons about 65,535 by portals", || {
        let mut cell = yards(4040, 65_537, 0);
        cell.portals =
            vec![portal([4040; 2], [0, 65_535]), portal([4040; 2], [65_535, 16_383]), portal([4040; 2], [16_383, 3])];
        (cell, 0)
    }),
];
