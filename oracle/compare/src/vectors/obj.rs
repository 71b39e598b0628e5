//! Tag 8, obj: in the bytes lent and the strip's words, out 0, the text's length and its bytes, four
//! to a word, the last one filled up with the bytes that were lent; or the refusal's number and place.
//! The judge's answer: the Rust has no such call.

use cases::cells::{edge_end, vec3};
use cases::drawings::{triangle, SHAPES};
use cases::Rng;
use rage::math::Vec3;
use rage::ynv::{NavEdge, NavPoint, NavPoly, NavPortal, Ynv};
use strips::{encode, obj};

use super::Vectors;

const RECORDS: usize = 60;
/// Of the seeded records.
const MOST_WORDS: usize = 60;
const MOST_TEXT: usize = 240;

/// More than any text here takes. The replaying program has 4096 bytes.
const ROOM: usize = 4000;

/// Each byte of the text that the replaying program lends.
const LENT: u8 = 0xD1;

fn put(out: &mut Vectors, strip: &[u32], room: usize) {
    let answer = match obj(strip, room) {
        Ok(text) => {
            let byte = |bytes: &[u8], n: usize| bytes.get(n).copied().unwrap_or(LENT);
            let word = |bytes: &[u8]| u32::from_le_bytes([0, 1, 2, 3].map(|n| byte(bytes, n)));
            [0, text.len() as u32].into_iter().chain(text.chunks(4).map(word)).collect()
        }
        Err(refusal) => vec![refusal.number, refusal.place as u32],
    };
    out.add(8, &[&[room as u32], strip].concat(), &answer);
}

/// A vertex, in shorts.
type Corner = (u16, u16, u16);

fn polygon(corners: &[Corner]) -> NavPoly {
    let vertices = corners.iter().map(|&(x, y, z)| vec3(x.into(), y.into(), z.into())).collect();
    NavPoly { vertices, ..triangle().polys.remove(0) }
}

/// Polygons in a box that has a short to the unit.
fn cell(outlines: &[&[Corner]]) -> Ynv {
    Ynv { polys: outlines.iter().map(|corners| polygon(corners)).collect(), ..triangle() }
}

const SQUARE: [Corner; 4] = [(1, 2, 3), (40, 50, 60), (700, 800, 900), (1000, 20_000, 65_534)];

fn lengths(out: &mut Vectors) {
    let strip = encode(&triangle());
    let exact = obj(&strip, ROOM).expect("it is accepted").len();
    for room in [exact, exact - 1, exact + 1, 1, 0, ROOM] {
        put(out, &strip, room);
    }
    put(out, &encode(&cell(&[])), 0);
    put(out, &encode(&cell(&[])), ROOM);
}

fn numbers(out: &mut Vectors) {
    // Shorts on each side of a new digit; numbers that go on, past 10 and past 100.
    put(out, &encode(&cell(&[&[(0, 9, 10), (99, 100, 999), (1000, 9999, 10_000), (65_535, 65_534, 1)]])), ROOM);
    put(out, &encode(&cell(&[&SQUARE[..3], &SQUARE])), ROOM);
    put(out, &encode(&cell(&[&SQUARE[..3], &SQUARE[..3], &SQUARE[..3]])), ROOM);
    put(out, &encode(&cell(&[&SQUARE[..3], &SQUARE[..3], &SQUARE])), ROOM);
    put(out, &encode(&cell(&[&SQUARE, &[(7, 7, 7); 3], &SQUARE])), ROOM);
    put(out, &encode(&cell(&[&[(0, 0, 0); 50], &[(5, 0, 7); 51]])), ROOM);
}

/// Edges, links, portals and points, which are left behind.
fn left_behind(out: &mut Vectors) {
    let mut full = triangle();
    full.polys[0].edges = vec![NavEdge { a: edge_end(4041, 3), b: edge_end(16383, 16383) }; 4];
    full.polys[0].portal_links = vec![65_535; 15];
    put(out, &encode(&full), ROOM);
    full.points = vec![NavPoint { position: vec3(1.0, 2.0, 3.0), angle: 4, kind: 5 }; 2];
    full.polys.push(polygon(&SQUARE));
    let (from, to) = (vec3(9.0, 9.0, 9.0), vec3(8.0, 8.0, 8.0));
    full.portals = vec![NavPortal {
        kind: 1,
        angle: 2,
        flags_unk: 3,
        from,
        to,
        poly_from: 0,
        poly_to: 1,
        area_from: 4040,
        area_to: 4040,
        area_unk: 0,
    }];
    put(out, &encode(&full), ROOM);
}

/// The triangle in another box or with other vertices.
fn changed(out: &mut Vectors, room: usize, change: impl FnOnce(&mut Ynv)) {
    let mut cell = triangle();
    change(&mut cell);
    put(out, &encode(&cell), room);
}

fn floats(out: &mut Vectors) {
    // A box whose axes differ; one upside down and one without extent.
    let corners: [Vec3; 3] = [vec3(-75.0, 0.0, 10.0), vec3(0.0, 150.0, 12.0), vec3(75.0, 300.0, 14.0)];
    changed(out, ROOM, |cell| {
        (cell.bb_min, cell.bb_size) = (vec3(-75.0, 0.0, 10.0), vec3(150.0, 300.0, 16.0));
        cell.polys[0].vertices = corners.to_vec();
    });
    changed(out, ROOM, |cell| {
        (cell.bb_min, cell.bb_size) = (vec3(75.0, 0.0, 10.0), vec3(-150.0, 1e-7, 2f32.powi(-23)));
        cell.polys[0].vertices = corners.to_vec();
    });
    // NaN, infinite, outside; halves, which go up.
    changed(out, ROOM, |cell| cell.polys[0].vertices[0] = vec3(f32::NAN, f32::INFINITY, f32::NEG_INFINITY));
    changed(out, ROOM, |cell| cell.polys[0].vertices[1] = vec3(-9.0, 1e30, -0.0));
    changed(out, ROOM, |cell| {
        (cell.bb_size, cell.polys[0].vertices[2]) = (vec3(2.0, 2.0, 2.0), vec3(1.0, 0.99999, 1.00001))
    });
    changed(out, ROOM, |cell| cell.bb_min.y = f32::NAN);
    changed(out, 0, |cell| cell.bb_max.x = f32::INFINITY);
    changed(out, ROOM, |cell| cell.bb_size.z = f32::NEG_INFINITY);
}

fn few(out: &mut Vectors) {
    for room in [0, ROOM] {
        put(out, &encode(&cell(&[&SQUARE, &SQUARE[..2], &SQUARE])), room);
    }
    put(out, &encode(&cell(&[&[]])), ROOM);
    put(out, &encode(&cell(&[&SQUARE[..1], &[]])), ROOM);
    put(out, &encode(&cell(&[&SQUARE[..3], &SQUARE[..3], &[], &SQUARE[..2]])), 1);
    let mut both = cell(&[&SQUARE[..2]]);
    both.bb_max.y = f32::NAN;
    put(out, &encode(&both), 0);
}

fn badly_formed(out: &mut Vectors) {
    // 3 stands before 10, 41 and 2.
    let mut cell = cell(&[&SQUARE[..2]]);
    cell.polys[0].portal_links = vec![7];
    cell.bb_min.x = f32::NAN;
    let words = encode(&cell);
    let end = words.len() - 1;
    put(out, &[], 0);
    // Its end missing, cut within the polygon, a word behind the end.
    put(out, &words[..end], 0);
    put(out, &words[..20], ROOM);
    put(out, &[&words[..], &[0]].concat(), ROOM);
    // Unnamed bits of flags0 and the link; a kind that isn't there.
    for (at, bits) in [(15, 1 << 16), (18, 1 << 31), (end, 3 << 28)] {
        let mut bad = words.clone();
        bad[at] ^= bits;
        put(out, &bad, 0);
    }
}

/// Small strips that are accepted, lent exactly enough.
fn seeded(out: &mut Vectors) {
    let mut rng = Rng::new(108);
    while out.counts.last().is_some_and(|&(tag, count)| tag == 8 && count < RECORDS) {
        let (_, make) = rng.pick(&SHAPES);
        let strip = make(&mut rng);
        if let Ok(text) = obj(&strip, MOST_TEXT) {
            if strip.len() <= MOST_WORDS && !text.is_empty() {
                put(out, &strip, text.len());
            }
        }
    }
}

pub fn objs(out: &mut Vectors) {
    lengths(out);
    numbers(out);
    left_behind(out);
    floats(out);
    few(out);
    badly_formed(out);
    seeded(out);
}
