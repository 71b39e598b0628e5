//! What the Rust itself makes of leaf inputs, taken from the pages it writes and the
//! cells it reads.

use cases::cells::{edge_end, empty, vec3};
use cases::pages::{header, sector, sector_data, Pages};
use rage::math::Vec3;
use rage::resource::{container, u16_le};
use rage::ynv::{oracle_access, parse_ynv, serialize_ynv, NavEdge, NavPoly, Ynv};
use strips::AreaTable;

/// The bits of a float; every NaN is 0x7FC00000.
pub fn one_nan(x: f32) -> u32 {
    if x.is_nan() {
        0x7FC0_0000
    } else {
        x.to_bits()
    }
}

fn polygon(vertices: Vec<Vec3>, edges: Vec<NavEdge>) -> NavPoly {
    NavPoly { vertices, edges, flags0: 0, flags1: 0, flags2: 0, portal_links: Vec::new() }
}

/// A cell with one sector.
fn vehicle(area_id: u32, bb_min: Vec3, bb_max: Vec3) -> Ynv {
    empty(4, area_id, bb_min, bb_max)
}

/// The items of a list's first part in written pages.
fn first_part(pages: &Pages, list: usize) -> &[u8] {
    let list = pages.offset(list).unwrap();
    let parts = pages.offset(list + 0x10).unwrap();
    &pages.system[pages.offset(parts).unwrap()..]
}

/// The shorts of 3 to 2,047 vertices: the vertex list behind the indices of one polygon.
pub fn shorts(lo: Vec3, extent: Vec3, vertices: &[Vec3]) -> Vec<[u16; 3]> {
    let mut cell = vehicle(0, lo, lo);
    cell.bb_size = extent;
    cell.polys.push(polygon(vertices.to_vec(), Vec::new()));
    let pages = Pages::written(&cell);
    let (list, indices) = (first_part(&pages, 0x70), first_part(&pages, 0x80));
    (0..vertices.len())
        .map(|i| {
            let at = 6 * u16_le(indices, 2 * i) as usize;
            [0, 2, 4].map(|axis| u16_le(list, at + axis))
        })
        .collect()
}

/// Shorts turned back: the points of one sector, at most 65,535.
pub fn backs(lo: Vec3, extent: Vec3, shorts: &[[u16; 3]]) -> Vec<Vec3> {
    let mut pages = header(0);
    for (axis, side) in [extent.x, extent.y, extent.z].into_iter().enumerate() {
        pages.put(0x60 + 4 * axis, &side.to_le_bytes());
    }
    let points: Vec<u8> =
        shorts.iter().flat_map(|q| [q[0], q[1], q[2], 0].into_iter().flat_map(u16::to_le_bytes)).collect();
    let points = pages.block(&points);
    let data = pages.block(&sector_data(points, shorts.len() as u16));
    let mut root = sector(data, [0; 4]);
    for (axis, side) in [lo.x, lo.y, lo.z].into_iter().enumerate() {
        root[4 * axis..4 * axis + 4].copy_from_slice(&side.to_le_bytes());
    }
    let root = pages.block(&root);
    pages.put_u64(0x120, root);
    let cell = parse_ynv(&container(&pages.system, &[])).expect("a root and points");
    cell.points.iter().map(|p| p.position).collect()
}

/// Floor and ceiling of three sides: the quarter box of the root sector.
pub fn root_quarters(sides: [f32; 3]) -> [(u16, u16); 3] {
    let v = vec3(sides[0], sides[1], sides[2]);
    let pages = Pages::written(&vehicle(0, v, v));
    quarter_box(&pages.system, pages.offset(0x120).unwrap() + 32)
}

fn quarter_box(bytes: &[u8], at: usize) -> [(u16, u16); 3] {
    [0, 4, 8].map(|axis| (u16_le(bytes, at + axis), u16_le(bytes, at + axis + 2)))
}

/// The same by polygons whose vertices are all equal, at most 341.
pub fn polygon_quarters(sides: &[[f32; 3]]) -> Vec<[(u16, u16); 3]> {
    let mut cell = vehicle(0, vec3(0.0, 0.0, 0.0), vec3(1.0, 1.0, 1.0));
    cell.polys = sides.iter().map(|s| polygon(vec![vec3(s[0], s[1], s[2]); 3], Vec::new())).collect();
    let pages = Pages::written(&cell);
    let records = first_part(&pages, 0x118);
    (0..sides.len()).map(|n| quarter_box(records, 48 * n + 0x18)).collect()
}

/// The header's area table after a polygon whose edge halves name `ids` in turn (at most
/// 4,094), `None` for a 33rd area. NONE fills the last edge: 16383 is a seed.
fn area_table(own: u32, ids: &[u32]) -> Option<AreaTable> {
    let id = |n: usize| ids.get(n).copied().unwrap_or(16383);
    let edges: Vec<NavEdge> = (0..ids.len().div_ceil(2))
        .map(|i| NavEdge { a: edge_end(id(2 * i), 0), b: edge_end(id(2 * i + 1), 0) })
        .collect();
    let zero = vec3(0.0, 0.0, 0.0);
    let mut cell = vehicle(own, zero, zero);
    cell.polys.push(polygon(vec![zero; edges.len().max(3)], edges));
    match serialize_ynv(&cell) {
        Ok(bytes) => {
            let pages = Pages::new(bytes);
            let mut table = AreaTable { count: pages.u32(0x94), ids: [0; 32] };
            for (i, id) in table.ids.iter_mut().enumerate() {
                *id = pages.u32(0x98 + 4 * i);
            }
            Some(table)
        }
        Err(error) => {
            assert_eq!(error.to_string(), "more than 32 distinct adjacent areas");
            None
        }
    }
}

/// The ids taken before a 33rd area, and the table then: the longest beginning that
/// the Rust accepts, by bisection.
pub fn areas(own: u32, ids: &[u32]) -> (usize, AreaTable) {
    if let Some(table) = area_table(own, ids) {
        return (ids.len(), table);
    }
    let (mut taken, mut table, mut refused) = (0, area_table(own, &[]).unwrap(), ids.len());
    while taken + 1 < refused {
        let middle = (taken + refused) / 2;
        match area_table(own, &ids[..middle]) {
            Some(t) => (taken, table) = (middle, t),
            None => refused = middle,
        }
    }
    (taken, table)
}

/// Where `BlockWriter::alloc` puts a block; `size` is at most a page.
pub fn place(end: u32, size: u32) -> u64 {
    oracle_access::alloc(end as usize, size as usize) as u64
}
