//! Tag 6, strip: in its words, out 0, polygons, portals, points, or 3, place, 0, 0.
//! The judge's answer: the Rust has no strips.

use cases::{cells, damage, Rng};
use rage::ynv::{NavEdge, NavPoint, NavPoly, NavPortal, Ynv};
use strips::{counts, encode, scan};

use super::Vectors;

const MOST_WORDS: usize = 80;

fn strip(out: &mut Vectors, words: &[u32]) {
    let answer = match scan(words) {
        Ok(cell) => {
            let counts = counts(&cell);
            [0, counts.polys as u32, counts.portals as u32, counts.points as u32]
        }
        Err(place) => [3, place as u32, 0, 0],
    };
    out.add(6, words, &answer);
}

/// A cell with one of everything, all named bits set where they can be.
fn full() -> Ynv {
    let v = cells::vec3(1.0, -0.0, f32::NAN);
    let mut end = cells::edge_end(u32::MAX, u32::MAX);
    (end.unk2, end.unk3) = (255, 65535);
    let poly = NavPoly {
        vertices: vec![v; 3],
        edges: vec![NavEdge { a: end, b: end }],
        flags0: 65535,
        flags1: u32::MAX,
        flags2: u32::MAX,
        portal_links: vec![65535, 0],
    };
    let portal = NavPortal {
        kind: 255,
        angle: 255,
        flags_unk: 65535,
        from: v,
        to: v,
        poly_from: 65535,
        poly_to: 65535,
        area_from: 65535,
        area_to: 65535,
        area_unk: 255,
    };
    let point = NavPoint { position: v, angle: 255, kind: 255 };
    Ynv { polys: vec![poly], portals: vec![portal], points: vec![point], ..cells::empty_grid() }
}

pub fn strips(out: &mut Vectors) {
    let empty = encode(&cells::empty_vehicle());
    let with = |more: &[u32]| [&empty[..14], more].concat();
    strip(out, &empty);
    strip(out, &[]);
    strip(out, &empty[..14]);
    for first in
        [0, 0x1000_0000, 0x1000_0001, 0x2000_0000, 0x3000_0000, 0x4000_0000, 0x5000_0000, 0x6000_0000, 0xF000_0000]
    {
        strip(out, &[first]);
        strip(out, &with(&[first]));
    }
    strip(out, &with(&[0x5000_0000, 0]));
    strip(out, &with(&[0x5000_0001]));
    strip(out, &with(&[0x5000_0001, 0]));
    strip(out, &with(&empty));
    // Polygons without vertices, with surplus and missing edges.
    strip(out, &with(&[0x2000_0000, 65535, 1, 2, 0x5000_0000]));
    strip(out, &with(&[0x2000_1000, 0, 1, 2, 9, 9, 9, 9, 9, 9, 0x5000_0000]));
    strip(out, &with(&[0x2000_0001, 0, 1, 2, 9, 9, 9, 0x5000_0000]));
    strip(out, &with(&[0x2F00_0000, 0x1_0000, 1, 2]));
    strip(out, &with(&[0x2FFF_FFFF, 0, 1, 2]));

    // One of everything; then each word's lowest and highest unnamed bit.
    let full = full();
    let words = encode(&full);
    strip(out, &words);
    for length in [15, 18, 40, words.len() - 1] {
        strip(out, &words[..length]);
    }
    for (at, low, high) in damage::unnamed(&full) {
        for bit in [low, high - 1] {
            let mut bad = words.clone();
            bad[at] |= 1 << bit;
            strip(out, &bad);
        }
    }
    let mut rng = Rng::new(106);
    let mut left = 60;
    while left > 0 {
        let words = damage::strip(&mut rng);
        if words.len() <= MOST_WORDS && words.len() > 14 {
            strip(out, &words);
            left -= 1;
        }
    }
}
