//! Cells: valid ones, and wild ones with anything in them.

use rage::math::Vec3;
use rage::ynv::{NavEdge, NavEdgeEnd, NavPoint, NavPoly, NavPortal, Ynv};

use crate::{floats, Rng};

pub fn vec3(x: f32, y: f32, z: f32) -> Vec3 {
    Vec3 { x, y, z }
}

/// An empty cell over a box.
pub fn empty(content_flags: u32, area_id: u32, bb_min: Vec3, bb_max: Vec3) -> Ynv {
    let bb_size = vec3(bb_max.x - bb_min.x, bb_max.y - bb_min.y, bb_max.z - bb_min.z);
    Ynv {
        content_flags,
        area_id,
        bb_min,
        bb_max,
        bb_size,
        version_unk2: 0x85CB_3561,
        vft: 0x4061_E7E8,
        polys: Vec::new(),
        portals: Vec::new(),
        points: Vec::new(),
    }
}

/// The empty vehicle cell and the empty grid cell of P12.
pub fn empty_vehicle() -> Ynv {
    empty(4, 10000, vec3(0.0, 0.0, 0.0), vec3(150.0, 150.0, 150.0))
}

pub fn empty_grid() -> Ynv {
    empty(1, 4040, vec3(0.0, 0.0, 0.0), vec3(150.0, 150.0, 150.0))
}

pub fn edge_end(area_id: u32, poly: u32) -> NavEdgeEnd {
    NavEdgeEnd { area_id, poly, unk2: 0, unk3: 0 }
}

fn bounds(rng: &mut Rng) -> (Vec3, Vec3) {
    let mut side = |z: bool| match rng.below(4) {
        0 => (0.0, rng.pick(&[4.0, 64.0, 128.0, 150.0])),
        1 if z => (5.0, 5.0),
        _ => {
            let lo = -6000.0 + 150.0 * rng.below(80) as f32;
            (lo, lo + 150.0)
        }
    };
    let (x, y, z) = (side(false), side(false), side(true));
    (vec3(x.0, y.0, z.0), vec3(x.1, y.1, z.1))
}

/// A position in or near the cell's box, often on a coarse grid, so that some are shared.
fn position(rng: &mut Rng, cell: &Ynv) -> Vec3 {
    let steps = rng.pick(&[4.0, 8.0, 1000.0, 1e6]);
    let near = rng.pick(&[0.0, 0.0, 0.0, 0.25]);
    let mut axis = |lo: f32, hi: f32| {
        let t = (rng.unit() * (1.0 + 2.0 * near) - near) * steps;
        lo + t.round() / steps * (hi - lo)
    };
    vec3(axis(cell.bb_min.x, cell.bb_max.x), axis(cell.bb_min.y, cell.bb_max.y), axis(cell.bb_min.z, cell.bb_max.z))
}

fn end(rng: &mut Rng, own: u32) -> NavEdgeEnd {
    if rng.once_in(4) {
        return NavEdgeEnd::NONE;
    }
    let area_id = match rng.below(6) {
        0 => own.wrapping_add(1),
        1 => own.wrapping_sub(100),
        2 => 500 + rng.below(8) as u32,
        _ => own,
    };
    let poly = if rng.once_in(8) { rng.u32() } else { rng.below(16384) as u32 };
    NavEdgeEnd { area_id, poly, unk2: rng.u32() as u8, unk3: rng.u32() as u16 }
}

fn edge(rng: &mut Rng, own: u32) -> NavEdge {
    let a = end(rng, own);
    NavEdge { a, b: if rng.once_in(3) { end(rng, own) } else { a } }
}

fn polygon(rng: &mut Rng, cell: &Ynv) -> NavPoly {
    let count = if rng.once_in(50) { 3 + rng.below(400) } else { 3 + rng.below(6) };
    let edges = match rng.below(12) {
        0 => rng.below(count + 1),
        1 => count + 1 + rng.below(4),
        _ => count,
    };
    NavPoly {
        vertices: (0..count).map(|_| position(rng, cell)).collect(),
        edges: (0..edges).map(|_| edge(rng, cell.area_id)).collect(),
        flags0: rng.u32() as u16,
        flags1: rng.u32(),
        flags2: rng.u32(),
        portal_links: (0..rng.pick(&[0, 0, 0, 1, 2, 7])).map(|_| rng.u32() as u16).collect(),
    }
}

fn portal(rng: &mut Rng, cell: &Ynv) -> NavPortal {
    NavPortal {
        kind: rng.u32() as u8,
        angle: rng.u32() as u8,
        flags_unk: rng.u32() as u16,
        from: position(rng, cell),
        to: position(rng, cell),
        poly_from: rng.u32() as u16,
        poly_to: rng.u32() as u16,
        area_from: rng.u32() as u16,
        area_to: rng.u32() as u16,
        area_unk: rng.u32() as u8,
    }
}

/// A cell that the writer accepts.
pub fn valid(rng: &mut Rng) -> Ynv {
    let (bb_min, bb_max) = bounds(rng);
    let content_flags = rng.pick(&[1, 1, 3, 4, 7, 0xFFFF_FFFB]);
    let area_id = match rng.below(6) {
        0 => rng.pick(&[0, 1, 99, 100, 10000, 16283, 16382, 16383, 16384, 16483, u32::MAX, u32::MAX - 99]),
        1 => rng.u32(),
        _ => rng.below(10000) as u32,
    };
    let mut cell = empty(content_flags, area_id, bb_min, bb_max);
    cell.version_unk2 = rng.u32();
    cell.vft = rng.u32();
    let polys = if rng.once_in(40) { rng.below(900) } else { rng.below(12) };
    cell.polys = (0..polys).map(|_| polygon(rng, &cell)).collect();
    let portals = if rng.once_in(20) { rng.below(300) } else { rng.below(4) };
    cell.portals = (0..portals).map(|_| portal(rng, &cell)).collect();
    let points = if rng.once_in(20) { rng.below(1500) } else { rng.below(10) };
    cell.points = (0..points)
        .map(|_| NavPoint { position: position(rng, &cell), angle: rng.u32() as u8, kind: rng.u32() as u8 })
        .collect();
    cell
}

/// A small cell of one sector that the writer accepts.
pub fn small_vehicle(rng: &mut Rng) -> Ynv {
    let mut cell = valid(rng);
    cell.content_flags |= 4;
    cell.polys.truncate(rng.below(4));
    for p in &mut cell.polys {
        p.vertices.truncate(3 + rng.below(3));
        p.edges.truncate(5);
    }
    cell.portals.truncate(rng.below(3));
    cell.points.truncate(rng.below(4));
    cell
}

fn any_vec3(rng: &mut Rng) -> Vec3 {
    vec3(floats::any(rng), floats::any(rng), floats::any(rng))
}

fn spoil(rng: &mut Rng, v: &mut Vec3, with: f32) {
    match rng.below(3) {
        0 => v.x = with,
        1 => v.y = with,
        _ => v.z = with,
    }
}

/// A valid cell with a few things made odd. Most stay acceptable.
pub fn wild(rng: &mut Rng) -> Ynv {
    let mut cell = valid(rng);
    for _ in 0..1 + rng.below(5) {
        let with = floats::any(rng);
        match rng.below(20) {
            0..=5 => {
                for p in cell.polys.iter_mut().take(20) {
                    for v in &mut p.vertices {
                        if rng.once_in(2) {
                            spoil(rng, v, with);
                        }
                    }
                }
            }
            6..=8 => cell.points.push(NavPoint { position: any_vec3(rng), angle: 1, kind: 2 }),
            9 => {
                let mut p = portal(rng, &cell);
                (p.from, p.to) = (any_vec3(rng), any_vec3(rng));
                cell.portals.push(p);
            }
            10 => spoil(rng, &mut cell.bb_min, with),
            11 => spoil(rng, &mut cell.bb_max, with),
            12 => spoil(rng, &mut cell.bb_size, with),
            13 => std::mem::swap(&mut cell.bb_min, &mut cell.bb_max),
            14 => {
                let mut p = polygon(rng, &cell);
                p.vertices.iter_mut().for_each(|v| *v = any_vec3(rng));
                cell.polys.push(p);
            }
            15 => cell.content_flags = rng.u32(),
            16 if !cell.polys.is_empty() => {
                // Many areas, or too many.
                let n = rng.below(cell.polys.len());
                let from = rng.u32();
                for (i, e) in cell.polys[n].edges.iter_mut().enumerate() {
                    e.a.area_id = from.wrapping_add(2 * i as u32);
                    e.b.area_id = from.wrapping_add(i as u32);
                }
            }
            17 if !cell.polys.is_empty() => {
                let n = rng.below(cell.polys.len());
                let count = rng.pick(&[0, 1, 2, 3, 2047, 2048, 4095]);
                let v = position(rng, &cell);
                cell.polys[n].vertices.resize(count, v);
            }
            18 if !cell.polys.is_empty() => {
                let n = rng.below(cell.polys.len());
                cell.polys[n].portal_links.resize(rng.below(16), 7);
            }
            _ => cell.area_id = rng.u32(),
        }
    }
    cell
}
