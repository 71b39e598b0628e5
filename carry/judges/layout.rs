//! No. 14: where the bytes of a page go.
//!
//! Holds: `asked`, the bytes asked for, a sum from the cell alone; `skipped`, the gaps
//! before the blocks, from a layout of its own (a list of the blocks' sizes in order).
//! Called: `bytes(&words)` gives `Ok((asked, skipped))`, of a strip of kind 2 or 6, or
//! `Err((3, place))`, `Err((44, place))`; `asked(&cell)` and `skipped(&cell)` of a cell.
//! They are the writer's where it accepts the strip; the writer's other refusals (1, 10 to
//! 20, 2) are not judged here, and a refused cell still gets some number.
//! Time: sorting the vertices, and 16 leaves x polygons and points.
//! Written from document 02 (and 01) alone, without a look at the implementation.
//!
//! Readings taken: the empty part table of an empty list is a block of 0 bytes: it asks
//! for nothing, and the gap before it counts as any gap (it is always 0, as a list header
//! of 48 bytes goes before it). Nothing is skipped behind the last block. "points" are
//! those stored, dropped ones ask for nothing.

use crate::numbered::scan_either;
use rage::math::Vec3;
use rage::ynv::Ynv;

/// A box: min and max.
type Box3 = (Vec3, Vec3);

/// Document 01, module 2: "extent below 2^-23 in magnitude gives 0; otherwise (a − lo) /
/// extent, clamped to 0..1, times 65535, halves away from zero; NaN gives 0."
fn short(a: f32, lo: f32, extent: f32) -> u16 {
    if extent.abs() < f32::EPSILON {
        return 0;
    }
    let fraction = (a - lo) / extent;
    if fraction.is_nan() {
        return 0;
    }
    (fraction.clamp(0.0, 1.0) * 65535.0).round() as u16
}

/// The items of the four lists in order: vertices, indices, edges, polygons.
fn items(cell: &Ynv) -> [u64; 4] {
    let (lo, extent) = (cell.bb_min, cell.bb_size);
    let mut shorts = Vec::new();
    for polygon in &cell.polys {
        for v in &polygon.vertices {
            shorts.push([short(v.x, lo.x, extent.x), short(v.y, lo.y, extent.y), short(v.z, lo.z, extent.z)]);
        }
    }
    // An index and an edge per vertex of a polygon ("Surplus edges are ignored").
    let drawn = shorts.len() as u64;
    // "Equal short triples share a vertex"
    shorts.sort();
    shorts.dedup();
    [shorts.len() as u64, drawn, drawn, cell.polys.len() as u64]
}

/// "Items: vertex 6 bytes, index 2, edge 8, polygon 48"
const ITEM_SIZES: [u64; 4] = [6, 2, 8, 48];

/// "A part takes floor(16384 / item size) items."
fn parts(items: u64, size: u64) -> u64 {
    items.div_ceil(16384 / size)
}

/// A sector of this box and depth: the leaves in it, in the order of the subs.
fn leaves_of(min: Vec3, max: Vec3, depth: u32, leaves: &mut Vec<Box3>) {
    if depth == 0 {
        leaves.push((min, max));
        return;
    }
    for (sub_min, sub_max) in subs(min, max) {
        leaves_of(sub_min, sub_max, depth - 1, leaves);
    }
}

/// "Subs: (cx, cy, cz) to max; (cx, min y, 0) to (max x, cy, 0); min to (cx, cy, cz);
/// (min x, cy, 0) to (cx, max y, 0)."
fn subs(min: Vec3, max: Vec3) -> [Box3; 4] {
    // "(min + max) × 0.5"
    let c = Vec3 { x: (min.x + max.x) * 0.5, y: (min.y + max.y) * 0.5, z: (min.z + max.z) * 0.5 };
    let v = |x, y, z| Vec3 { x, y, z };
    [(c, max), (v(c.x, min.y, 0.0), v(max.x, c.y, 0.0)), (min, c), (v(min.x, c.y, 0.0), v(c.x, max.y, 0.0))]
}

/// "depth 2, or 0 if content bit 2 is set"
fn depth(cell: &Ynv) -> u32 {
    if cell.content_flags >> 2 & 1 == 1 {
        0
    } else {
        2
    }
}

fn leaves(cell: &Ynv) -> Vec<Box3> {
    let mut leaves = Vec::new();
    leaves_of(cell.bb_min, cell.bb_max, depth(cell), &mut leaves);
    leaves
}

/// The x and y of a quarter box, min and max of each: "floor of 4 × min, ceiling of 4 ×
/// max, saturated to 16 signed bits, NaN 0".
fn quarters(min: Vec3, max: Vec3) -> [i16; 4] {
    let floor = |a: f32| (4.0 * a).floor() as i16; // `as` saturates; NaN gives 0
    let ceiling = |a: f32| (4.0 * a).ceil() as i16;
    [floor(min.x), ceiling(max.x), floor(min.y), ceiling(max.y)]
}

/// The quarter boxes of all polygons. "A polygon's min starts from the greatest finite
/// f32, its max from the least"; "a NaN loses to a number".
fn polygon_quarters(cell: &Ynv) -> Vec<[i16; 4]> {
    let mut all = Vec::new();
    for polygon in &cell.polys {
        let mut min = Vec3 { x: f32::MAX, y: f32::MAX, z: f32::MAX };
        let mut max = Vec3 { x: f32::MIN, y: f32::MIN, z: f32::MIN };
        for v in &polygon.vertices {
            // A comparison with a NaN is false: it loses.
            if v.x < min.x {
                min.x = v.x;
            }
            if v.y < min.y {
                min.y = v.y;
            }
            if v.x > max.x {
                max.x = v.x;
            }
            if v.y > max.y {
                max.y = v.y;
            }
        }
        all.push(quarters(min, max));
    }
    all
}

/// "polygons whose quarter boxes have, in x and y, max not below its own min and min not
/// above its own max": how many of them in a leaf.
fn ids_in(leaf: Box3, polygons: &[[i16; 4]]) -> u64 {
    let own = quarters(leaf.0, leaf.1);
    let meets = |p: &&[i16; 4]| p[1] >= own[0] && p[0] <= own[1] && p[3] >= own[2] && p[2] <= own[3];
    polygons.iter().filter(meets).count() as u64
}

/// "points inside it there" (in x and y), "borders included".
fn inside(leaf: Box3, v: Vec3) -> bool {
    v.x >= leaf.0.x && v.x <= leaf.1.x && v.y >= leaf.0.y && v.y <= leaf.1.y
}

/// "Asked for is defined from the cell: 368, the headers, parts, items and offsets of four
/// lists, sectors, leaf data, ids, points, portals and links."
pub fn asked(cell: &Ynv) -> u64 {
    // "368"
    let mut sum = 368;
    // "the headers, parts, items and offsets of four lists": 48, 16 a part, the items, 4 a
    // part. "empty part tables ask for nothing"
    for (items, size) in items(cell).into_iter().zip(ITEM_SIZES) {
        sum += 48 + 16 * parts(items, size) + size * items + 4 * parts(items, size);
    }
    // "sectors": 96 each; 1 + 4 + 16 of them, or 1. "leaf data": 32 each.
    let leaves = leaves(cell);
    sum += 96 * if depth(cell) == 0 { 1 } else { 1 + 4 + 16 };
    sum += 32 * leaves.len() as u64;
    // "ids": 2 for each polygon in each leaf.
    let polygons = polygon_quarters(cell);
    for leaf in &leaves {
        sum += 2 * ids_in(*leaf, &polygons);
    }
    // "points": 8 for each that lies in some leaf.
    for point in &cell.points {
        if leaves.iter().any(|leaf| inside(*leaf, point.position)) {
            sum += 8;
        }
    }
    // "portals and links"
    sum += 28 * cell.portals.len() as u64;
    for polygon in &cell.polys {
        sum += 2 * polygon.portal_links.len() as u64;
    }
    sum
}

/// What goes with the blocks of a sector through its subs.
struct Tree<'a> {
    cell: &'a Ynv,
    polygons: Vec<[i16; 4]>,
    stored: Vec<bool>,
}

/// "A sector's block comes before its subs' in that order; a leaf's before its ids,
/// points, data."
fn sector_blocks(tree: &mut Tree, min: Vec3, max: Vec3, depth: u32, blocks: &mut Vec<u64>) {
    blocks.push(96);
    if depth > 0 {
        for (sub_min, sub_max) in subs(min, max) {
            sector_blocks(tree, sub_min, sub_max, depth - 1, blocks);
        }
        return;
    }
    let ids = ids_in((min, max), &tree.polygons);
    let mut points = 0;
    for (i, point) in tree.cell.points.iter().enumerate() {
        // "unstored points inside it there"
        if !tree.stored[i] && inside((min, max), point.position) {
            tree.stored[i] = true;
            points += 1;
        }
    }
    // "Empty ids, points, portals or links get no block"
    if ids > 0 {
        blocks.push(2 * ids);
    }
    if points > 0 {
        blocks.push(8 * points);
    }
    blocks.push(32);
}

/// The sizes of all blocks: "header, lists (header, parts, items, offsets) in the order
/// vertices, indices, edges, polygons; sectors; portals; links."
fn blocks(cell: &Ynv) -> Vec<u64> {
    let mut blocks = vec![368];
    for (items, size) in items(cell).into_iter().zip(ITEM_SIZES) {
        let parts = parts(items, size);
        blocks.push(48);
        blocks.push(16 * parts); // "laid out even when there are none"
        let mut left = items;
        while left > 0 {
            // "items of each part"
            let here = left.min(16384 / size);
            blocks.push(here * size);
            left -= here;
        }
        // "and offsets if it has parts"
        if parts > 0 {
            blocks.push(4 * parts);
        }
    }
    let mut tree = Tree { cell, polygons: polygon_quarters(cell), stored: vec![false; cell.points.len()] };
    sector_blocks(&mut tree, cell.bb_min, cell.bb_max, depth(cell), &mut blocks);
    if !cell.portals.is_empty() {
        blocks.push(28 * cell.portals.len() as u64);
    }
    let mut links = 0;
    for polygon in &cell.polys {
        links += polygon.portal_links.len() as u64;
    }
    if links > 0 {
        blocks.push(2 * links);
    }
    blocks
}

/// "a block starts at the first multiple of 16 not below the end so far, or at the next
/// page if it wouldn't fit."
fn block_start(end: u64, size: u64) -> u64 {
    let start = end.div_ceil(16) * 16;
    if start % 16384 + size > 16384 {
        (start / 16384 + 1) * 16384
    } else {
        start
    }
}

/// "Skipped is the sum of gaps before the blocks."
pub fn skipped(cell: &Ynv) -> u64 {
    let (mut end, mut sum) = (0, 0);
    for size in blocks(cell) {
        let start = block_start(end, size);
        sum += start - end;
        end = start + size;
    }
    sum
}

/// Both, of a strip of either kind: 3, then 44.
pub fn bytes(words: &[u32]) -> Result<(u64, u64), (u32, u64)> {
    let (cell, _) = scan_either(words)?;
    Ok((asked(&cell), skipped(&cell)))
}

#[cfg(test)]
mod tests {
    use super::*;
    use rage::ynv::{serialize_ynv, NavPoint, NavPoly, NavPortal};

    fn v(x: f32, y: f32, z: f32) -> Vec3 {
        Vec3 { x, y, z }
    }

    fn vehicle() -> Ynv {
        let mut cell = Ynv::new_cell(10000, v(0.0, 0.0, 0.0), v(100.0, 100.0, 10.0));
        cell.content_flags = 4;
        cell
    }

    fn portal() -> NavPortal {
        let (from, to) = (v(0.0, 0.0, 0.0), v(0.0, 0.0, 0.0));
        NavPortal {
            kind: 0,
            angle: 0,
            flags_unk: 0,
            from,
            to,
            poly_from: 0,
            poly_to: 0,
            area_from: 0,
            area_to: 0,
            area_unk: 0,
        }
    }

    /// "The saved length is their sum": held against the Rust. And asked for, a sum from
    /// the cell, against the blocks.
    fn both(cell: &Ynv) -> (u64, u64) {
        let (asked, skipped) = (asked(cell), skipped(cell));
        assert_eq!(asked, blocks(cell).iter().sum::<u64>());
        let saved = serialize_ynv(cell).expect("accepted").len() as u64;
        assert_eq!(asked + skipped, saved);
        assert_eq!(bytes(&strips::encode(cell)), Ok((asked, skipped)));
        (asked, skipped)
    }

    #[test]
    fn p11_and_p12() {
        assert_eq!(block_start(16288, 96), 16288);
        assert_eq!(block_start(16288 - 15, 96), 16288);
        assert_eq!(block_start(16288, 112), 16384);
        assert_eq!(block_start(16384, 16384), 16384);
        assert_eq!(block_start(16383, 0), 16384);
        // "the empty vehicle cell is 688 bytes"; "the empty grid cell 3088"; no gaps.
        assert_eq!(both(&vehicle()), (688, 0));
        assert_eq!(both(&Ynv::new_cell(5, v(0.0, 0.0, 0.0), v(150.0, 150.0, 9.0))), (3088, 0));
    }

    #[test]
    fn shorts() {
        // P1 to P4.
        assert_eq!(short(1.0, 0.0, 2.0), 32768);
        assert_eq!(short(1.0, 0.0, f32::EPSILON / 2.0), 0);
        assert_eq!(short(f32::EPSILON, 0.0, f32::EPSILON), 65535);
        assert_eq!(short(f32::NAN, 0.0, 2.0), 0);
        assert_eq!((short(-9.0, 0.0, 2.0), short(9.0, 0.0, 2.0)), (0, 65535));
        // Three corners that round to one short share a vertex; 0.4 is another.
        let mut cell = vehicle();
        cell.bb_size.x = 65535.0;
        cell.polys.push(NavPoly::new(vec![v(0.6, 0.0, 0.0), v(1.0, 0.0, 0.0), v(1.4, 0.0, 0.0)]));
        assert_eq!(items(&cell), [1, 3, 3, 1]);
        both(&cell);
        cell.polys[0].vertices[0].x = 0.4;
        assert_eq!(items(&cell), [2, 3, 3, 1]);
        both(&cell);
    }

    #[test]
    fn a_triangle_by_hand() {
        let mut cell = vehicle();
        let mut triangle = NavPoly::new(vec![v(0.0, 0.0, 0.0), v(9.0, 0.0, 0.0), v(0.0, 9.0, 0.0)]);
        cell.polys.push(triangle.clone());
        // 368; four lists of 48 + 16 + 4 with 18, 6, 24 and 48; sector 96, id 2, data 32.
        // Gaps: vertex offsets 14, index header 12, its offsets 10, edge header 12, its
        // offsets 8, polygon header 12, (its offsets 0), sector 12, (ids 0), data 14.
        assert_eq!(both(&cell), (368 + 4 * 68 + 96 + 130, 94));
        // A portal of 28 at 960, two links of 2 at 992 (gap 4).
        cell.portals.push(portal());
        triangle.portal_links = vec![1, 2];
        cell.polys[0] = triangle;
        assert_eq!(both(&cell), (866 + 28 + 4, 94 + 4));
        // A point inside: 8 at 928 behind the id (gap 14), data at 944 (gap 8, not 14). A
        // dropped one asks for nothing.
        cell.points.push(NavPoint { position: v(100.0, 0.0, 99.0), angle: 0, kind: 0 });
        assert_eq!(both(&cell), (866 + 32 + 8, 98 + 8));
        cell.points.push(NavPoint { position: v(100.1, 0.0, 0.0), angle: 0, kind: 0 });
        cell.points.push(NavPoint { position: v(f32::NAN, 0.0, 0.0), angle: 0, kind: 0 });
        assert_eq!(both(&cell), (866 + 32 + 8, 98 + 8));
        // The same triangle again: no vertex more, 3 indices, 3 edges, a record, an id.
        cell.polys.push(cell.polys[0].clone());
        assert_eq!(both(&cell).0, 906 + 6 + 24 + 48 + 2 + 4);
    }

    #[test]
    fn parts_and_pages() {
        assert_eq!([0, 1, 2730, 2731, 5460, 5461].map(|n| parts(n, 6)), [0, 1, 1, 2, 2, 3]);
        assert_eq!([8192, 8193].map(|n| parts(n, 2)), [1, 2]);
        assert_eq!([2048, 2049].map(|n| parts(n, 8)), [1, 2]);
        assert_eq!([341, 342, 16383].map(|n| parts(n, 48)), [1, 2, 49]);
        // Around each part's limit: one shared corner, n polygons.
        for n in [340, 341, 342, 682, 683, 2730, 2731, 5461] {
            let mut cell = vehicle();
            for _ in 0..n {
                cell.polys.push(NavPoly::new(vec![v(1.0, 1.0, 1.0); 3]));
            }
            both(&cell);
        }
    }

    #[test]
    fn a_point_goes_to_the_first_leaf_only() {
        let mut cell = Ynv::new_cell(5, v(0.0, 0.0, 0.0), v(100.0, 100.0, 9.0));
        // The middle lies in four leaves' borders, a corner in one.
        for (x, y) in [(50.0, 50.0), (0.0, 0.0), (25.0, 75.0), (100.0, 100.0), (101.0, 1.0)] {
            cell.points.push(NavPoint { position: v(x, y, 0.0), angle: 0, kind: 0 });
        }
        assert_eq!(both(&cell).0, 3088 + 4 * 8);
    }

    /// A plain generator of numbers (xorshift).
    struct Numbers(u64);

    impl Numbers {
        fn below(&mut self, n: u64) -> u64 {
            self.0 ^= self.0 << 13;
            self.0 ^= self.0 >> 7;
            self.0 ^= self.0 << 17;
            (self.0 >> 11) % n
        }

        /// From -25 to 125 in quarters of an eighth, now and then NaN or far away.
        fn coordinate(&mut self) -> f32 {
            match self.below(60) {
                0 => f32::NAN,
                1 => f32::INFINITY,
                2 => -1e30,
                _ => self.below(4801) as f32 / 32.0 - 25.0,
            }
        }

        fn position(&mut self) -> Vec3 {
            v(self.coordinate(), self.coordinate(), self.coordinate())
        }
    }

    #[test]
    fn the_sum_is_the_saved_length_of_the_rust() {
        let mut n = Numbers(0x9E37_79B9_7F4A_7C15);
        for round in 0..400 {
            let mut cell = Ynv::new_cell(5, v(0.0, 0.0, 0.0), v(100.0, 100.0, 10.0));
            cell.content_flags = n.below(8) as u32;
            match n.below(6) {
                0 => cell.bb_size.x = 0.0,
                1 => cell.bb_size.y = -cell.bb_size.y,
                2 => cell.bb_max = v(-1.0, 40.0, 3.0),
                _ => (),
            }
            let most = [0, 3, 40, 400, 1500][round % 5];
            let vertices = if most == 1500 { 30 } else { 9 };
            for _ in 0..n.below(most + 1) {
                let at = n.position();
                let mut corners = vec![at; 3];
                for _ in 0..n.below(vertices) {
                    corners.push(v(at.x + n.below(20) as f32, at.y + n.below(20) as f32, at.z));
                }
                let mut polygon = NavPoly::new(corners);
                polygon.portal_links = vec![1; n.below(8) as usize];
                polygon.edges.truncate(n.below(20) as usize);
                cell.polys.push(polygon);
            }
            for _ in 0..n.below(586) * n.below(2) {
                cell.portals.push(portal());
            }
            for _ in 0..n.below(1500) * n.below(2) {
                cell.points.push(NavPoint { position: n.position(), angle: 0, kind: 0 });
            }
            both(&cell);
        }
    }

    #[test]
    fn any_words() {
        assert_eq!(bytes(&[]), Err((3, 0)));
        let mut words = strips::encode(&vehicle());
        words.push(0);
        assert_eq!(bytes(&words), Err((3, 15)));
        // Kind 6, rightly and wrongly numbered: the triangle of above.
        let mut cell = vehicle();
        cell.polys.push(NavPoly::new(vec![v(0.0, 0.0, 0.0), v(9.0, 0.0, 0.0), v(0.0, 9.0, 0.0)]));
        let mut words = strips::encode(&cell);
        words[14] = words[14] & 0x0FFF_FFFF | 0x6000_0000;
        words.insert(15, 0);
        assert_eq!(bytes(&words), Ok((866, 94)));
        words[15] = 1;
        assert_eq!(bytes(&words), Err((44, 14)));
        // No panic where the writer refuses: a box that is not finite, no vertices, a leaf
        // of more than a page of ids.
        let mut cell = vehicle();
        cell.bb_min.x = f32::NAN;
        cell.bb_size.y = f32::INFINITY;
        cell.polys = vec![NavPoly::new(Vec::new()); 9000];
        cell.content_flags = 0;
        assert!(bytes(&strips::encode(&cell)).is_ok());
    }
}
