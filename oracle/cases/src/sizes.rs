//! Cells of a given size, and their pages with part tables that cost the reader much.

use rage::ynv::{NavEdge, NavPoint, NavPoly, NavPortal, Ynv};

use crate::cells::{edge_end, empty_grid, empty_vehicle, vec3};
use crate::pages::{part, Pages, LISTS};
use crate::Rng;

/// A grid cell of squares that share no vertex; the last polygon has what is left of the
/// vertices. Every 16th has a link; there are 100 portals and 500 points.
pub fn squares(polys: usize, vertices: usize) -> Ynv {
    let mut cell = empty_grid();
    if polys == 0 {
        return cell;
    }
    let across = (polys as f64).sqrt().ceil() as usize;
    let step = 150.0 / across as f32;
    // Corner k of square n, and more corners further in.
    let corner = |n: usize, k: usize| {
        let inset = 0.1 + 0.1 * (k / 4) as f32;
        let side = |far: bool| if far { 1.0 - inset } else { inset };
        let (x, y) = ((n % across) as f32, (n / across) as f32);
        vec3((x + side(k % 4 == 1 || k % 4 == 2)) * step, (y + side(k % 4 >= 2)) * step, 10.0)
    };
    let mut left = vertices;
    for n in 0..polys {
        let count = if n + 1 == polys { left } else { 4 };
        left -= count;
        let ahead = edge_end(cell.area_id, (n + 1) as u32);
        let aside = edge_end(cell.area_id + 1, (n + across) as u32);
        cell.polys.push(NavPoly {
            vertices: (0..count).map(|k| corner(n, k)).collect(),
            edges: vec![NavEdge { a: ahead, b: aside }; count],
            flags0: n as u16,
            flags1: n as u32,
            flags2: 7,
            portal_links: vec![n as u16; (n % 16 == 0) as usize],
        });
    }
    let at = |n: usize| corner(n * polys / 500, 0);
    cell.portals = (0..100)
        .map(|n| NavPortal {
            kind: 1,
            angle: n as u8,
            flags_unk: 3,
            from: at(n),
            to: at(n + 1),
            poly_from: n as u16,
            poly_to: n as u16 + 1,
            area_from: 4040,
            area_to: 4041,
            area_unk: 2,
        })
        .collect();
    cell.points = (0..500).map(|n| NavPoint { position: at(n), angle: n as u8, kind: 1 }).collect();
    cell
}

/// How far areas are from a cell's: half of them touch it, where it is no cell at the grid's edge.
const APART: [i32; 16] = [0, 1, -1, 100, -100, 2, 99, -99, 0, 1, -1, 100, -100, 12_343, 7, -7];

/// An area about another.
pub fn about(own: u32) -> impl FnMut(&mut Rng) -> u32 {
    move |rng| own.wrapping_add_signed(rng.pick(&APART))
}

/// A cell of an area, of so many polygons, each with as many edges as vertices; how many, and the
/// areas of the halves, as they are drawn.
pub fn with_edges(
    polys: usize,
    own: u32,
    mut edges: impl FnMut(&mut Rng) -> usize,
    mut area: impl FnMut(&mut Rng) -> u32,
) -> Ynv {
    let mut rng = Rng::new(43);
    let mut cell = squares(polys, 4 * polys);
    cell.area_id = own;
    for poly in &mut cell.polys {
        let count = edges(&mut rng);
        let corner = poly.vertices[0];
        poly.vertices.resize(count, corner);
        poly.edges.clear();
        poly.edges.resize_with(count, || NavEdge { a: edge_end(area(&mut rng), 0), b: edge_end(area(&mut rng), 0) });
    }
    cell
}

/// A list's parts in written pages: addresses and counts.
fn parts(pages: &Pages, list: usize) -> Vec<(u64, u32)> {
    let table = pages.offset(list + 0x10).unwrap();
    (0..pages.u32(list + 0x20) as usize).map(|n| (pages.u64(table + 16 * n), pages.u32(table + 16 * n + 8))).collect()
}

/// The pages with another part table for list 1, 2, 3 or 4, at the system section's end.
fn with_parts(pages: &mut Pages, place: usize, change: impl FnOnce(Vec<(u64, u32)>, u64) -> Vec<(u64, u32)>) {
    let (field, item_size) = LISTS[place - 1];
    let list = pages.offset(field).unwrap();
    let parts = change(parts(pages, list), item_size as u64);
    let table: Vec<u8> = parts.iter().flat_map(|&(address, count)| part(address, count)).collect();
    let address = pages.block(&table);
    pages.put_u64(list + 0x10, address);
    pages.put_u32(list + 0x20, parts.len() as u32);
    pages.put_u32(list + 8, parts.iter().map(|&(_, count)| count).sum());
}

/// Lists whose parts have `most` items.
pub fn divided(mut pages: Pages, places: &[usize], most: u32) -> Pages {
    for &place in places {
        with_parts(&mut pages, place, |parts, item_size| {
            let pieces = |(address, count): (u64, u32)| {
                let starts = (0..count).step_by(most as usize);
                starts.map(move |at| (address + at as u64 * item_size, most.min(count - at)))
            };
            parts.into_iter().flat_map(pieces).collect()
        });
    }
    pages
}

/// A list whose parts are named `times` over.
pub fn repeated(mut pages: Pages, place: usize, times: usize) -> Pages {
    with_parts(&mut pages, place, |parts, _| parts.repeat(times));
    pages
}

/// Vertices with `count` empty parts between the first one and the rest.
pub fn with_empty_parts(mut pages: Pages, count: usize) -> Pages {
    with_parts(&mut pages, 1, |parts, _| {
        let (first, rest) = parts.split_at(1);
        [first, &vec![(0, 0); count], rest].concat()
    });
    pages
}

/// Indices that leap from the first vertex to the last and back.
pub fn leaping(mut pages: Pages) -> Pages {
    let list = pages.offset(LISTS[1].0).unwrap();
    let last = (pages.u32(pages.offset(LISTS[0].0).unwrap() + 8) - 1) as u16;
    let base = crate::pages::SYSTEM;
    for (address, count) in parts(&pages, list) {
        for n in 0..count as usize {
            let index = if n % 2 == 0 { 0 } else { last };
            pages.put((address - base) as usize + 2 * n, &index.to_le_bytes());
        }
    }
    pages
}

/// A grid cell of so many small polygons anywhere, vertices at random: nearly all different,
/// and next to each other in the list only by chance.
pub fn scattered(polys: usize) -> Ynv {
    let mut rng = Rng::new(7);
    let mut cell = squares(polys, 4 * polys);
    for p in &mut cell.polys {
        let centre = vec3(rng.unit() * 149.0, rng.unit() * 149.0, 10.0);
        for v in &mut p.vertices {
            *v = vec3(centre.x + rng.unit(), centre.y + rng.unit(), rng.unit() * 150.0);
        }
    }
    cell
}

/// Squares that reach over the whole cell, so that every leaf holds every id.
pub fn wide(polys: usize) -> Ynv {
    let square = [vec3(1.0, 1.0, 1.0), vec3(149.0, 1.0, 1.0), vec3(149.0, 149.0, 1.0), vec3(1.0, 149.0, 1.0)];
    let poly = NavPoly {
        vertices: square.to_vec(),
        edges: Vec::new(),
        flags0: 0,
        flags1: 0,
        flags2: 0,
        portal_links: Vec::new(),
    };
    Ynv { polys: vec![poly; polys], ..empty_grid() }
}

/// A grid cell of points alone.
pub fn with_points(count: usize, position: impl Fn(usize) -> (f32, f32)) -> Ynv {
    let point = |n: usize| {
        let (x, y) = position(n);
        NavPoint { position: vec3(x, y, 1.0), angle: n as u8, kind: 1 }
    };
    Ynv { points: (0..count).map(point).collect(), ..empty_grid() }
}

/// 65,536 vertices that lie deep in one tree of the writer's table. Its hash is a fixed sum of
/// products, so that whoever knows it can choose them: with one x there is one y for every z. A walk
/// goes by the bits of x, then of y, then of z: the first sixteen are alike, so no walk branches there.
pub fn deep_in_one_tree() -> Vec<[u16; 3]> {
    const LOW: u32 = 1_640_531_527;
    const HIGH: u32 = 1_181_783_497;
    let inverse = (0..4).fold(1u16, |i, _| i.wrapping_mul(2u16.wrapping_sub((LOW as u16).wrapping_mul(i))));
    let vertex = |z: u32| {
        let rest = z.wrapping_mul(HIGH) >> 16;
        [0, (rest as u16).wrapping_neg().wrapping_mul(inverse), z as u16]
    };
    (0..65536).map(vertex).collect()
}

/// A vehicle cell with those vertices.
pub fn one_tree() -> Ynv {
    let poly = |run: &[[u16; 3]]| NavPoly {
        vertices: run.iter().map(|v| vec3(v[0] as f32, v[1] as f32, v[2] as f32)).collect(),
        edges: Vec::new(),
        flags0: 0,
        flags1: 0,
        flags2: 0,
        portal_links: Vec::new(),
    };
    let size = vec3(65535.0, 65535.0, 65535.0);
    let polys = deep_in_one_tree().chunks(2047).map(poly).collect();
    Ynv { polys, bb_min: vec3(0.0, 0.0, 0.0), bb_max: size, bb_size: size, ..empty_vehicle() }
}

/// Pages in which `polys` polygons have the same run of 2,047 corners and are named `times` over:
/// a few kilobytes that claim millions of corners.
pub fn shared_run(polys: usize, times: usize, most: u32) -> Pages {
    let mut pages = Pages::written(&empty_vehicle());
    let zeros = pages.block(&[0; 8 * 2047]);
    let mut record = vec![0u8; 48];
    record[2..4].copy_from_slice(&(2047u16 << 5).to_le_bytes());
    let records = pages.block(&record.repeat(polys));
    with_parts(&mut pages, 1, |_, _| vec![(zeros, 1)]);
    with_parts(&mut pages, 2, |_, _| (0..2047u32.div_ceil(most)).map(|k| (zeros, most.min(2047 - k * most))).collect());
    with_parts(&mut pages, 3, |_, _| vec![(zeros, 2047)]);
    with_parts(&mut pages, 4, |_, _| vec![(records, polys as u32); times]);
    pages
}
