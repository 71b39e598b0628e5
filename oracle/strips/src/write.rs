//! The writer's refusals, judged from document 01, and the Rust's bytes.

use std::collections::HashSet;

use rage::math::Vec3;
use rage::ynv::{NavEdge, NavPoly, Ynv};

use crate::guard::{rust_write, RustWrite};
use crate::leaf::{axis_bounds, quarter_box, short, AreaTable};
use crate::messages::refuses_writing;
use crate::strip::scan;
use crate::Refusal;

#[derive(Debug, Clone, PartialEq)]
pub enum WriteAnswer {
    Refused(Refusal),
    Bytes(Vec<u8>),
}

fn finite(v: Vec3) -> bool {
    v.x.is_finite() && v.y.is_finite() && v.z.is_finite()
}

/// The boxes of the leaves in writing order.
pub fn leaf_boxes(cell: &Ynv) -> Vec<(Vec3, Vec3)> {
    fn split(min: Vec3, max: Vec3, depth: u32, out: &mut Vec<(Vec3, Vec3)>) {
        if depth == 0 {
            out.push((min, max));
            return;
        }
        let at = |x, y, z| Vec3 { x, y, z };
        let (cx, cy, cz) = ((min.x + max.x) * 0.5, (min.y + max.y) * 0.5, (min.z + max.z) * 0.5);
        split(at(cx, cy, cz), max, depth - 1, out);
        split(at(cx, min.y, 0.0), at(max.x, cy, 0.0), depth - 1, out);
        split(min, at(cx, cy, cz), depth - 1, out);
        split(at(min.x, cy, 0.0), at(cx, max.y, 0.0), depth - 1, out);
    }
    let mut out = Vec::new();
    split(cell.bb_min, cell.bb_max, if cell.content_flags & 4 != 0 { 0 } else { 2 }, &mut out);
    out
}

/// A polygon's quarter box.
pub fn polygon_box(poly: &NavPoly) -> [i16; 6] {
    let x = axis_bounds(poly.vertices.iter().map(|v| v.x));
    let y = axis_bounds(poly.vertices.iter().map(|v| v.y));
    let z = axis_bounds(poly.vertices.iter().map(|v| v.z));
    quarter_box(Vec3 { x: x.0, y: y.0, z: z.0 }, Vec3 { x: x.1, y: y.1, z: z.1 })
}

/// Refusals 10 to 20 in their order: 10, 11; per polygon 12, 13, per vertex 14 and 15
/// for half a and b, 16; leaves in order 17, 18; 19, 20.
pub fn judge_write(cell: &Ynv) -> Result<(), Refusal> {
    let refuse = |number, place| Err(Refusal::new(number, place));
    if !(finite(cell.bb_min) && finite(cell.bb_max) && finite(cell.bb_size)) {
        return refuse(10, 0);
    }
    if cell.polys.len() > 16383 {
        return refuse(11, 0);
    }
    let (lo, size) = (cell.bb_min, cell.bb_size);
    let mut areas = AreaTable::seeded(cell.area_id);
    let mut distinct: HashSet<[u16; 3]> = HashSet::new();
    let (mut start, mut links) = (0, 0);
    for (n, poly) in cell.polys.iter().enumerate() {
        if poly.vertices.len() < 3 || poly.vertices.len() > 2047 {
            return refuse(12, n);
        }
        if start > 65535 {
            return refuse(13, n);
        }
        for (i, v) in poly.vertices.iter().enumerate() {
            distinct.insert([short(v.x, lo.x, size.x), short(v.y, lo.y, size.y), short(v.z, lo.z, size.z)]);
            if distinct.len() > 65536 {
                return refuse(14, n);
            }
            let edge = poly.edges.get(i).copied().unwrap_or(NavEdge::NONE);
            if !areas.ensure(edge.a.area_id) || !areas.ensure(edge.b.area_id) {
                return refuse(15, n);
            }
        }
        if poly.portal_links.len() > 7 {
            return refuse(16, n);
        }
        start += poly.vertices.len();
        links += poly.portal_links.len();
    }
    let boxes: Vec<[i16; 6]> = cell.polys.iter().map(polygon_box).collect();
    let mut stored = vec![false; cell.points.len()];
    for (n, &(min, max)) in leaf_boxes(cell).iter().enumerate() {
        let leaf = quarter_box(min, max);
        let overlaps = |axis: usize, b: &[i16; 6]| b[axis + 1] >= leaf[axis] && b[axis] <= leaf[axis + 1];
        if boxes.iter().filter(|b| overlaps(0, b) && overlaps(2, b)).count() > 8192 {
            return refuse(17, n);
        }
        let inside = |p: Vec3| min.x <= p.x && p.x <= max.x && min.y <= p.y && p.y <= max.y;
        let mut points = 0;
        for (p, stored) in cell.points.iter().zip(&mut stored) {
            if !*stored && inside(p.position) {
                *stored = true;
                points += 1;
            }
        }
        if points > 2048 {
            return refuse(18, n);
        }
    }
    if cell.portals.len() > 585 {
        return refuse(19, 0);
    }
    if links > 8192 {
        return refuse(20, 0);
    }
    Ok(())
}

/// The writer's answer on a strip, work of `work_len` words and room for `room` bytes.
pub fn expected_write(strip: &[u32], work_len: usize, room: usize) -> WriteAnswer {
    let judged = || {
        let cell = scan(strip).map_err(|place| Refusal::new(3, place))?;
        if work_len / 4 < strip.len() {
            return Err(Refusal::new(1, 0));
        }
        if let Err(refusal) = judge_write(&cell) {
            let done = rust_write(&cell);
            assert!(refuses_writing(refusal, &cell, &done), "document 01 refuses with {refusal:?}, the Rust doesn't");
            return Err(refusal);
        }
        match rust_write(&cell) {
            RustWrite::Bytes(bytes) if bytes.len() > room => Err(Refusal::new(2, 0)),
            RustWrite::Bytes(bytes) => Ok(bytes),
            other => panic!("document 01 accepts what the Rust does not write: {other:?}"),
        }
    };
    judged().map_or_else(WriteAnswer::Refused, WriteAnswer::Bytes)
}
