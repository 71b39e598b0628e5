//! Cells at each limit of document 01 and one past it, with the refusal they must meet.

use rage::math::Vec3;
use rage::ynv::{NavEdge, NavPoint, NavPoly, NavPortal, Ynv};

use crate::cells::{edge_end, empty, empty_grid, empty_vehicle, vec3};

pub struct Limit {
    pub name: &'static str,
    pub cell: Ynv,
    /// Number and place of the refusal, `None` where the cell is accepted.
    pub refused: Option<(u32, usize)>,
}

/// A polygon of `count` vertices at one place, with edges that name nothing.
fn polygon(count: usize, at: Vec3) -> NavPoly {
    NavPoly { vertices: vec![at; count], edges: Vec::new(), flags0: 0, flags1: 0, flags2: 0, portal_links: Vec::new() }
}

const INSIDE: Vec3 = Vec3 { x: 1.0, y: 1.0, z: 1.0 };
const OUTSIDE: Vec3 = Vec3 { x: -900.0, y: -900.0, z: 0.0 };

fn with_polys(cell: Ynv, polys: Vec<NavPoly>) -> Ynv {
    Ynv { polys, ..cell }
}

/// Polygons of 2,047 vertices and one of the rest, `total` vertices in all.
fn runs(total: usize, at: Vec3) -> Vec<NavPoly> {
    let mut polys = vec![polygon(2047, at); total / 2047];
    if total % 2047 != 0 {
        polys.push(polygon(total % 2047, at));
    }
    polys
}

/// The cell whose box has one short step to the unit.
fn unit_steps() -> Ynv {
    empty(4, 7, vec3(0.0, 0.0, 0.0), vec3(65535.0, 65535.0, 65535.0))
}

/// The `n`th vertex on a plane of 256 by 256 short triples and beyond.
fn nth_vertex(n: usize) -> Vec3 {
    vec3((n % 256) as f32, (n / 256) as f32, 0.0)
}

/// Vertices all different: 65,535 of them, then a polygon of three with `more` new ones.
fn distinct(more: usize) -> Vec<NavPoly> {
    let mut polys = runs(65535, INSIDE);
    polys.push(polygon(3, INSIDE));
    let mut n = 0;
    for p in &mut polys {
        for v in &mut p.vertices {
            *v = nth_vertex(n.min(65534 + more));
            n += 1;
        }
    }
    polys
}

/// A polygon whose edges name `areas` ids besides the seeds of cell 7, half by half.
fn naming(areas: usize, surplus: bool) -> NavPoly {
    let id = |n: usize| if n < areas { 1000 + n as u32 } else { 16383 };
    let count = areas.div_ceil(2).max(3);
    let edges = (0..count).map(|i| NavEdge { a: edge_end(id(2 * i), 0), b: edge_end(id(2 * i + 1), 0) }).collect();
    NavPoly { edges, ..polygon(if surplus { 3 } else { count }, INSIDE) }
}

fn linked(links: usize) -> Vec<NavPoly> {
    let mut polys = Vec::new();
    let mut left = links;
    while left > 0 {
        let some = left.min(7);
        polys.push(NavPoly { portal_links: vec![left as u16; some], ..polygon(3, OUTSIDE) });
        left -= some;
    }
    polys
}

fn with_portals(count: usize) -> Ynv {
    let portal = NavPortal {
        kind: 1,
        angle: 2,
        flags_unk: 3,
        from: INSIDE,
        to: OUTSIDE,
        poly_from: 4,
        poly_to: 5,
        area_from: 6,
        area_to: 7,
        area_unk: 8,
    };
    Ynv { portals: vec![portal; count], ..empty_vehicle() }
}

fn points(count: usize, position: Vec3) -> Vec<NavPoint> {
    vec![NavPoint { position, angle: 9, kind: 10 }; count]
}

fn with_points(cell: Ynv, count: usize, at: Vec3) -> Ynv {
    Ynv { points: points(count, at), ..cell }
}

fn axis(v: &mut Vec3, n: usize) -> &mut f32 {
    match n {
        0 => &mut v.x,
        1 => &mut v.y,
        _ => &mut v.z,
    }
}

/// Cells whose box has one number that isn't finite.
fn boxes() -> Vec<Limit> {
    let mut out = Vec::new();
    for with in [f32::NAN, f32::INFINITY, f32::NEG_INFINITY] {
        for n in 0..9 {
            let mut cell = empty_grid();
            let v = [&mut cell.bb_min, &mut cell.bb_max, &mut cell.bb_size].into_iter().nth(n / 3).unwrap();
            *axis(v, n % 3) = with;
            out.push(Limit { name: "10: a box number that isn't finite", cell, refused: Some((10, 0)) });
        }
    }
    out
}

/// All of them. The grid box is 0..150: leaf 5 (sub 1's sub 1) holds x 112.5..150, y 0..37.5.
pub fn all() -> Vec<Limit> {
    let mut out = boxes();
    let mut add = |name, cell, refused| out.push(Limit { name, cell, refused });
    let grid = |polys| with_polys(empty_grid(), polys);
    let own7 = |polys| with_polys(unit_steps(), polys);
    let leaf5 = vec3(140.0, 10.0, 1.0);

    add("the empty vehicle cell", empty_vehicle(), None);
    add("the empty grid cell", empty_grid(), None);
    add("11: 16,383 polygons", grid(vec![polygon(3, OUTSIDE); 16383]), None);
    add("11: 16,384 polygons", grid(vec![polygon(3, OUTSIDE); 16384]), Some((11, 0)));
    add("11 before 12", grid(vec![polygon(0, OUTSIDE); 16384]), Some((11, 0)));
    for (count, refused) in [(0, true), (2, true), (3, false), (2047, false), (2048, true), (4095, true)] {
        let refused = refused.then_some((12, 1));
        add("12: vertices", grid(vec![polygon(3, INSIDE), polygon(count, INSIDE)]), refused);
    }

    // Starts at 65,535 and runs on to 67,582; the next one starts there.
    let last_start = [runs(65535, INSIDE), vec![polygon(2047, INSIDE)]].concat();
    let past = |more: NavPoly| [last_start.clone(), vec![more]].concat();
    add("13: start 65,535", grid(last_start.clone()), None);
    add("13: start 65,536", grid([runs(65536, INSIDE), vec![polygon(3, INSIDE)]].concat()), Some((13, 33)));
    add("13: start 67,582", grid(past(polygon(3, INSIDE))), Some((13, 34)));
    add("12 before 13", grid(past(polygon(2, INSIDE))), Some((12, 34)));

    add("14: 65,536 distinct vertices", own7(distinct(1)), None);
    add("14: a 65,537th", own7(distinct(2)), Some((14, 33)));
    add("14: two more", own7(distinct(3)), Some((14, 33)));
    let foreign = |id| NavEdge { a: edge_end(16383, 0), b: edge_end(id, 0) };
    let mut both = distinct(2);
    both[0].edges = naming(26, false).edges;
    both.last_mut().unwrap().edges = vec![NavEdge::NONE, foreign(9999)];
    add("14 before 15 at one vertex", own7(both.clone()), Some((14, 33)));
    both.last_mut().unwrap().edges = vec![foreign(9999)];
    add("15 at vertex 0, 14 at vertex 1", own7(both), Some((15, 33)));

    add("15: 32 areas", own7(vec![naming(26, false)]), None);
    add("15: a 33rd area in half a", own7(vec![naming(27, false)]), Some((15, 0)));
    let half_b = NavPoly { edges: vec![foreign(2000), foreign(2001)], ..polygon(3, INSIDE) };
    add("15: a 33rd area in half b", own7(vec![naming(25, false), half_b]), Some((15, 1)));
    add("15: surplus edges don't count", own7(vec![naming(60, true)]), None);
    add(
        "15: a 33rd area, 16 as well",
        own7(vec![NavPoly { portal_links: vec![0; 8], ..naming(27, false) }]),
        Some((15, 0)),
    );
    add("16: 7 links", grid(vec![NavPoly { portal_links: vec![65535; 7], ..polygon(3, INSIDE) }]), None);
    add("16: 8 links", grid(vec![NavPoly { portal_links: vec![65535; 8], ..polygon(3, INSIDE) }]), Some((16, 0)));

    let vehicle = |polys| with_polys(empty_vehicle(), polys);
    add("17: 8,192 ids", vehicle(vec![polygon(3, INSIDE); 8192]), None);
    add("17: 8,193 ids", vehicle(vec![polygon(3, INSIDE); 8193]), Some((17, 0)));
    add("17: 8,193 ids in leaf 5", grid(vec![polygon(3, leaf5); 8193]), Some((17, 5)));
    add("18: 2,048 points", with_points(empty_vehicle(), 2048, INSIDE), None);
    add("18: 2,049 points", with_points(empty_vehicle(), 2049, INSIDE), Some((18, 0)));
    add("18: 2,049 points in leaf 5", with_points(empty_grid(), 2049, leaf5), Some((18, 5)));
    add("18: 65,535 points", with_points(empty_vehicle(), 65535, INSIDE), Some((18, 0)));
    add("18: 65,536 points", with_points(empty_vehicle(), 65536, INSIDE), Some((18, 0)));
    add("18: 65,537 points", with_points(empty_vehicle(), 65537, INSIDE), Some((18, 0)));
    add("18: 100,000 points in no leaf", with_points(empty_grid(), 100_000, OUTSIDE), None);
    let full = [points(2048, leaf5), points(2048, vec3(80.0, 80.0, 0.0))].concat();
    add("18: two full leaves", Ynv { points: full, ..empty_grid() }, None);
    let crowded = vehicle(vec![polygon(3, INSIDE); 8193]);
    add("17 before 18", Ynv { points: points(2049, INSIDE), ..crowded }, Some((17, 0)));
    let later = grid(vec![polygon(3, leaf5); 8193]);
    add("18 in an earlier leaf", Ynv { points: points(2049, vec3(80.0, 80.0, 0.0)), ..later }, Some((18, 2)));

    add("19: 585 portals", with_portals(585), None);
    add("19: 586 portals", with_portals(586), Some((19, 0)));
    add("20: 8,192 links", grid(linked(8192)), None);
    add("20: 8,193 links", grid(linked(8193)), Some((20, 0)));
    add("19 before 20", with_polys(with_portals(586), linked(8193)), Some((19, 0)));
    add("18 before 19", Ynv { points: points(2049, INSIDE), ..with_portals(586) }, Some((18, 0)));
    out
}
