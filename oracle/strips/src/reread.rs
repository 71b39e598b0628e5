//! What reading gives of a written cell, from document 01 alone: neither pages nor the Rust.

use rage::math::Vec3;
use rage::ynv::{NavEdge, NavEdgeEnd, NavPoint, NavPoly, NavPortal, Ynv};

use crate::leaf::{back, short};
use crate::write::leaf_boxes;

/// A position through its shorts.
fn moved(cell: &Ynv, v: Vec3) -> Vec3 {
    let (lo, size) = (cell.bb_min, cell.bb_size);
    Vec3 {
        x: back(short(v.x, lo.x, size.x), lo.x, size.x),
        y: back(short(v.y, lo.y, size.y), lo.y, size.y),
        z: back(short(v.z, lo.z, size.z), lo.z, size.z),
    }
}

/// The area in full, the rest as far as an edge half has bits for it.
fn cut(end: NavEdgeEnd) -> NavEdgeEnd {
    NavEdgeEnd { area_id: end.area_id, poly: end.poly % 16384, unk2: end.unk2 % 4, unk3: end.unk3 % 2048 }
}

/// As many edges as vertices: surplus ones are gone, missing ones NONE.
fn polygon(cell: &Ynv, p: &NavPoly) -> NavPoly {
    let edge = |i: usize| {
        let edge = p.edges.get(i).copied().unwrap_or(NavEdge::NONE);
        NavEdge { a: cut(edge.a), b: cut(edge.b) }
    };
    NavPoly {
        vertices: p.vertices.iter().map(|&v| moved(cell, v)).collect(),
        edges: (0..p.vertices.len()).map(edge).collect(),
        flags0: p.flags0,
        flags1: p.flags1,
        flags2: p.flags2,
        portal_links: p.portal_links.clone(),
    }
}

fn portal(cell: &Ynv, p: &NavPortal) -> NavPortal {
    NavPortal {
        from: moved(cell, p.from),
        to: moved(cell, p.to),
        area_from: p.area_from % 16384,
        area_to: p.area_to % 16384,
        area_unk: p.area_unk % 16,
        ..p.clone()
    }
}

/// Each point stands in the first leaf written that holds it. Preorder over subs 3, 2, 1, 0
/// meets the leaves in the opposite of their writing order; in a leaf, the strip's order.
fn points(cell: &Ynv) -> Vec<NavPoint> {
    let mut left: Vec<&NavPoint> = cell.points.iter().collect();
    let mut leaves = Vec::new();
    for (min, max) in leaf_boxes(cell) {
        let inside = |p: &&NavPoint| {
            let v = p.position;
            min.x <= v.x && v.x <= max.x && min.y <= v.y && v.y <= max.y
        };
        let (stored, rest): (Vec<_>, Vec<_>) = left.into_iter().partition(inside);
        leaves.push(stored);
        left = rest;
    }
    let read = leaves.into_iter().rev().flatten();
    read.map(|p| NavPoint { position: moved(cell, p.position), ..p.clone() }).collect()
}

/// The cell that reading the pages of an accepted cell gives.
pub fn reread(cell: &Ynv) -> Ynv {
    Ynv {
        polys: cell.polys.iter().map(|p| polygon(cell, p)).collect(),
        portals: cell.portals.iter().map(|p| portal(cell, p)).collect(),
        points: points(cell),
        ..cell.clone()
    }
}
