//! Pages written from document 01 alone (Pages, modules 7 and 8), to hold document 01
//! against the Rust's bytes.

use std::collections::HashMap;

use rage::math::Vec3;
use rage::ynv::{NavEdge, NavEdgeEnd, NavPoint, NavPoly, Ynv};

use crate::leaf::{place, quarter_box, short, AreaTable};
use crate::write::polygon_box;

const BASE: u64 = 0x5000_0000;
const NAN: u32 = 0x7FC0_0000;

/// Blocks at their places, everything between them zero.
#[derive(Default)]
struct Layout {
    bytes: Vec<u8>,
}

impl Layout {
    /// Room for a block; its offset.
    fn block(&mut self, size: usize) -> usize {
        let start = place(self.bytes.len() as u64, size as u64) as usize;
        self.bytes.resize(start + size, 0);
        start
    }

    /// A block with its bytes; its address.
    fn stored(&mut self, bytes: &[u8]) -> u64 {
        let at = self.block(bytes.len());
        self.bytes[at..at + bytes.len()].copy_from_slice(bytes);
        BASE + at as u64
    }

    /// The same, or no block and address 0 if there are no bytes.
    fn stored_unless_empty(&mut self, bytes: &[u8]) -> u64 {
        if bytes.is_empty() {
            0
        } else {
            self.stored(bytes)
        }
    }

    fn put(&mut self, at: usize, width: usize, value: u64) {
        self.bytes[at..at + width].copy_from_slice(&value.to_le_bytes()[..width]);
    }

    fn put_vec3(&mut self, at: usize, v: Vec3) {
        for (axis, side) in [v.x, v.y, v.z].into_iter().enumerate() {
            self.put(at + 4 * axis, 4, side.to_bits() as u64);
        }
    }

    fn list(&mut self, vft: u32, items: &[u8], item_size: usize) -> u64 {
        let header = self.block(48);
        let per_part = 16384 / item_size;
        let parts: Vec<&[u8]> = items.chunks(per_part * item_size).collect();
        let table = self.block(16 * parts.len());
        for (n, part) in parts.iter().enumerate() {
            let address = self.stored(part);
            self.put(table + 16 * n, 8, address);
            self.put(table + 16 * n + 8, 4, (part.len() / item_size) as u64);
        }
        let offsets: Vec<u8> = (0..parts.len()).flat_map(|n| ((n * per_part) as u32).to_le_bytes()).collect();
        let offsets = self.stored_unless_empty(&offsets);
        self.put(header, 4, vft as u64);
        self.put(header + 4, 4, 1);
        self.put(header + 8, 4, (items.len() / item_size) as u64);
        self.put(header + 0x10, 8, BASE + table as u64);
        self.put(header + 0x18, 8, offsets);
        self.put(header + 0x20, 4, parts.len() as u64);
        BASE + header as u64
    }
}

fn bytes16(values: impl IntoIterator<Item = u16>) -> Vec<u8> {
    values.into_iter().flat_map(u16::to_le_bytes).collect()
}

struct Writer<'a> {
    cell: &'a Ynv,
    boxes: Vec<[i16; 6]>,
    stored: Vec<bool>,
    first_point: u32,
    total: u64,
    layout: Layout,
}

impl Writer<'_> {
    fn shorts(&self, v: Vec3) -> [u16; 3] {
        let (lo, size) = (self.cell.bb_min, self.cell.bb_size);
        [short(v.x, lo.x, size.x), short(v.y, lo.y, size.y), short(v.z, lo.z, size.z)]
    }

    fn sector(&mut self, min: Vec3, max: Vec3, depth: u32) -> u64 {
        let at = self.layout.block(96);
        self.total += 96;
        let quarters = quarter_box(min, max);
        self.layout.put_vec3(at, min);
        self.layout.put(at + 12, 4, NAN as u64);
        self.layout.put_vec3(at + 16, max);
        self.layout.put(at + 28, 4, NAN as u64);
        for (i, side) in quarters.iter().enumerate() {
            self.layout.put(at + 32 + 2 * i, 2, *side as u16 as u64);
        }
        if depth == 0 {
            let data = self.leaf(min, max, quarters);
            self.layout.put(at + 0x2C, 8, data);
        } else {
            for (i, (min, max)) in subs(min, max).into_iter().enumerate() {
                let sub = self.sector(min, max, depth - 1);
                self.layout.put(at + 0x34 + 8 * i, 8, sub);
            }
        }
        BASE + at as u64
    }

    fn leaf(&mut self, min: Vec3, max: Vec3, own: [i16; 6]) -> u64 {
        let meets = |b: &[i16; 6], axis: usize| b[axis + 1] >= own[axis] && b[axis] <= own[axis + 1];
        let ids: Vec<u16> = (0..self.boxes.len())
            .filter(|&n| meets(&self.boxes[n], 0) && meets(&self.boxes[n], 2))
            .map(|n| n as u16)
            .collect();
        let mut points = Vec::new();
        let mut count = 0u64;
        for (n, p) in self.cell.points.iter().enumerate() {
            let v = p.position;
            if !self.stored[n] && min.x <= v.x && v.x <= max.x && min.y <= v.y && v.y <= max.y {
                self.stored[n] = true;
                points.extend(point_bytes(self.shorts(v), p));
                count += 1;
            }
        }
        let id_address = self.layout.stored_unless_empty(&bytes16(ids.iter().copied()));
        let point_address = self.layout.stored_unless_empty(&points);
        let data = self.layout.block(32);
        self.layout.put(data, 4, self.first_point as u64);
        self.layout.put(data + 8, 8, id_address);
        self.layout.put(data + 0x10, 8, point_address);
        self.layout.put(data + 0x18, 2, ids.len() as u64);
        self.layout.put(data + 0x1A, 2, count);
        self.first_point += count as u32;
        self.total += 32 + 2 * ids.len() as u64 + 8 * count;
        BASE + data as u64
    }
}

fn subs(min: Vec3, max: Vec3) -> [(Vec3, Vec3); 4] {
    let at = |x, y, z| Vec3 { x, y, z };
    let (cx, cy, cz) = ((min.x + max.x) * 0.5, (min.y + max.y) * 0.5, (min.z + max.z) * 0.5);
    [
        (at(cx, cy, cz), max),
        (at(cx, min.y, 0.0), at(max.x, cy, 0.0)),
        (min, at(cx, cy, cz)),
        (at(min.x, cy, 0.0), at(cx, max.y, 0.0)),
    ]
}

fn point_bytes(q: [u16; 3], p: &NavPoint) -> Vec<u8> {
    [bytes16(q), vec![p.angle, p.kind]].concat()
}

fn edge_half(end: NavEdgeEnd, areas: &mut AreaTable) -> u32 {
    assert!(areas.ensure(end.area_id));
    let index = areas.ids.iter().position(|&id| id == end.area_id).unwrap() as u32;
    index + ((end.poly % 16384) << 5) + ((end.unk2 as u32 % 4) << 19) + ((end.unk3 as u32 % 2048) << 21)
}

/// The four lists' items, the areas and the links.
struct Items {
    vertices: Vec<u8>,
    indices: Vec<u8>,
    edges: Vec<u8>,
    polygons: Vec<u8>,
    links: Vec<u8>,
    areas: AreaTable,
}

fn items(w: &Writer<'_>) -> Items {
    let mut out = Items {
        vertices: Vec::new(),
        indices: Vec::new(),
        edges: Vec::new(),
        polygons: Vec::new(),
        links: Vec::new(),
        areas: AreaTable::seeded(w.cell.area_id),
    };
    let mut numbers: HashMap<[u16; 3], u16> = HashMap::new();
    for (n, poly) in w.cell.polys.iter().enumerate() {
        let record = polygon_record(w, &out, n, poly);
        for (i, &v) in poly.vertices.iter().enumerate() {
            let q = w.shorts(v);
            let next = numbers.len() as u16;
            let number = *numbers.entry(q).or_insert_with(|| {
                out.vertices.extend(bytes16(q));
                next
            });
            out.indices.extend(number.to_le_bytes());
            let edge = poly.edges.get(i).copied().unwrap_or(NavEdge::NONE);
            for end in [edge.a, edge.b] {
                out.edges.extend(edge_half(end, &mut out.areas).to_le_bytes());
            }
        }
        out.links.extend(bytes16(poly.portal_links.iter().copied()));
        out.polygons.extend(record);
    }
    out
}

fn polygon_record(w: &Writer<'_>, before: &Items, n: usize, poly: &NavPoly) -> [u8; 48] {
    let mut r = [0; 48];
    let mut put = |at: usize, bytes: &[u8]| r[at..at + bytes.len()].copy_from_slice(bytes);
    put(0, &poly.flags0.to_le_bytes());
    put(2, &((poly.vertices.len() as u16) * 32).to_le_bytes());
    put(4, &((before.indices.len() / 2) as u16).to_le_bytes());
    put(6, &(w.cell.area_id as u16).to_le_bytes());
    put(0x18, &bytes16(w.boxes[n].map(|side| side as u16)));
    put(0x24, &poly.flags1.to_le_bytes());
    put(0x28, &poly.flags2.to_le_bytes());
    let word = n / 341 * 16 + poly.portal_links.len() * 4096 + before.links.len() / 2 * 32768;
    put(0x2C, &(word as u32).to_le_bytes());
    r
}

fn portal_bytes(w: &Writer<'_>) -> Vec<u8> {
    let mut out = Vec::new();
    for p in &w.cell.portals {
        out.extend([p.kind, p.angle]);
        out.extend(bytes16([p.flags_unk]));
        out.extend(bytes16(w.shorts(p.from).into_iter().chain(w.shorts(p.to))));
        out.extend(bytes16([p.poly_from, p.poly_from, p.poly_to, p.poly_to]));
        let areas = p.area_from as u32 % 16384 + ((p.area_to as u32 % 16384) << 14) + ((p.area_unk as u32 % 16) << 28);
        out.extend(areas.to_le_bytes());
    }
    out
}

/// The pages of a cell that `judge_write` accepts.
pub fn laid_out(cell: &Ynv) -> Vec<u8> {
    let mut w = Writer {
        cell,
        boxes: cell.polys.iter().map(polygon_box).collect(),
        stored: vec![false; cell.points.len()],
        first_point: 0,
        total: 0,
        layout: Layout::default(),
    };
    let items = items(&w);
    w.layout.block(368);
    let vertices = w.layout.list(1080158456, &items.vertices, 6);
    let indices = w.layout.list(1080158424, &items.indices, 2);
    let edges = w.layout.list(1080158440, &items.edges, 8);
    let polygons = w.layout.list(1080158408, &items.polygons, 48);
    let depth = if cell.content_flags & 4 != 0 { 0 } else { 2 };
    let root = w.sector(cell.bb_min, cell.bb_max, depth);
    let portals = portal_bytes(&w);
    let portals = w.layout.stored_unless_empty(&portals);
    let links = w.layout.stored_unless_empty(&items.links);
    let lists = items.vertices.len() + items.indices.len() + items.edges.len() + items.polygons.len();
    w.total += (28 * cell.portals.len() + lists) as u64;

    let l = &mut w.layout;
    for (at, word) in [
        (0, cell.vft),
        (4, 1),
        (0x10, cell.content_flags),
        (0x14, 0x10011),
        (0x6C, 0x7F80_0001),
        (0x90, items.indices.len() as u32 / 2),
        (0x94, items.areas.count),
        (0x138, items.vertices.len() as u32 / 6),
        (0x13C, cell.polys.len() as u32),
        (0x140, cell.area_id),
        (0x144, w.total as u32),
        (0x148, w.first_point),
        (0x14C, cell.portals.len() as u32),
        (0x150, items.links.len() as u32 / 2),
        (0x160, cell.version_unk2),
    ] {
        l.put(at, 4, word as u64);
    }
    for row in 0..4 {
        for column in 0..4 {
            let bits = if column == 3 {
                NAN
            } else if row == column {
                1f32.to_bits()
            } else {
                0
            };
            l.put(0x20 + 16 * row + 4 * column, 4, bits as u64);
        }
    }
    l.put_vec3(0x60, cell.bb_size);
    for (at, address) in [
        (0x70, vertices),
        (0x80, indices),
        (0x88, edges),
        (0x118, polygons),
        (0x120, root),
        (0x128, portals),
        (0x130, links),
    ] {
        l.put(at, 8, address);
    }
    for (i, id) in items.areas.ids.iter().enumerate() {
        l.put(0x98 + 4 * i, 4, *id as u64);
    }
    w.layout.bytes
}
