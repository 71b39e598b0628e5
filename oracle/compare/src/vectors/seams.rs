//! Tag 9, seams: in the strip's words, out 0 and the count, or the refusal's number and place. The
//! judge's answer: the Rust has no such call.

use cases::cells::edge_end;
use cases::drawings::triangle;
use cases::{neighbours, Rng};
use rage::ynv::{NavEdge, NavEdgeEnd, NavPoly, Ynv};
use strips::{encode, seams};

use super::Vectors;

const RECORDS: usize = 60;
/// Of the seeded records.
const MOST_WORDS: usize = 44;

fn put(out: &mut Vectors, strip: &[u32]) {
    let answer = match seams(strip) {
        Ok(count) => [0, count as u32],
        Err(refusal) => [refusal.number, refusal.place as u32],
    };
    out.add(9, strip, &answer);
}

/// A polygon of no vertices whose edges have these areas, two to an edge.
fn polygon(areas: &[[u32; 2]]) -> NavPoly {
    let edges = areas.iter().map(|&[a, b]| NavEdge { a: edge_end(a, 1), b: edge_end(b, 2) }).collect();
    NavPoly { vertices: Vec::new(), edges, ..triangle().polys.remove(0) }
}

/// The cell of an area, with such polygons.
fn cell(own: u32, polys: &[&[[u32; 2]]]) -> Ynv {
    Ynv { area_id: own, polys: polys.iter().map(|areas| polygon(areas)).collect(), ..triangle() }
}

/// One half at a time, the other is NONE's: the ends of rows, the first row and the last one,
/// beside the grid, numbers that wrap, and such as would touch by their lowest 14 bits.
fn pairs(out: &mut Vectors) {
    for (own, area) in [
        (99, 100),
        (99, 199),
        (99, 98),
        (100, 99),
        (100, 101),
        (199, 99),
        (0, u32::MAX),
        (0, u32::MAX - 99),
        (9_899, 9_999),
        (9_999, 9_998),
        (9_999, 10_000),
        (9_900, 10_000),
        (10_000, 9_999),
        (10_000, 9_900),
        (16_382, 16_383),
        (4_040, 4_040),
        (4_040, 4_050),
        (4_040, 4_139),
        (4_040, 4_141),
        (4_040, 16_384 + 4_041),
        (16_384 + 4_040, 16_384 + 4_041),
    ] {
        put(out, &encode(&cell(own, &[&[[area, 16_383]]])));
    }
}

/// All four numbers beside the own one, in each half.
fn around(out: &mut Vectors) {
    let beside = |own: u32| {
        let [west, east] = [own.wrapping_sub(1), own.wrapping_add(1)];
        [[west, own.wrapping_sub(100)], [own.wrapping_add(100), east]]
    };
    for own in [0, 50, 99, 100, 4_040, 4_099, 4_100, 9_900, 9_950, 9_999, 10_000, 10_099, 16_383, u32::MAX] {
        put(out, &encode(&cell(own, &[&beside(own)])));
    }
}

fn shapes(out: &mut Vectors) {
    put(out, &encode(&cell(99, &[])));
    put(out, &encode(&cell(99, &[&[], &[[98, 100]], &[]])));
    // Edges of several polygons; more edges than vertices, fewer, and links before them.
    put(out, &encode(&cell(4_040, &[&[[4_041, 7]], &[[7, 4_140]], &[[3_940, 4_039]]])));
    put(out, &encode(&cell(98, &[&[[99, 97], [198, 99], [97, 0]]])));
    let mut few = triangle();
    (few.area_id, few.polys[0].edges) = (101, polygon(&[[100, 201]]).edges);
    put(out, &encode(&few));
    few.polys[0].portal_links = vec![65_535; 3];
    put(out, &encode(&few));
    // Until No. 9 a poly of 16383 isn't looked at.
    few.polys[0].edges = vec![NavEdge { a: edge_end(102, 16_383), b: NavEdgeEnd::NONE }];
    put(out, &encode(&few));
}

fn badly_formed(out: &mut Vectors) {
    let words = encode(&cell(99, &[&[[98, 199]]]));
    let end = words.len() - 1;
    put(out, &[]);
    put(out, &words[..2]);
    // Its end missing, cut within the edge, a word behind the end.
    put(out, &words[..end]);
    put(out, &words[..22]);
    put(out, &[&words[..], &[0]].concat());
    // Unnamed bits of flags0 and of either half; a kind that isn't there.
    for (at, bits) in [(15, 1 << 16), (20, 1 << 24), (23, 1 << 31), (end, 3 << 28)] {
        let mut bad = words.clone();
        bad[at] ^= bits;
        put(out, &bad);
    }
}

/// Small strips with something to count.
fn seeded(out: &mut Vectors) {
    let mut rng = Rng::new(109);
    while out.counts.last().is_some_and(|&(tag, count)| tag == 9 && count < RECORDS) {
        let strip = neighbours::strip(&mut rng);
        if strip.len() <= MOST_WORDS && seams(&strip).is_ok_and(|count| count > 0) {
            put(out, &strip);
        }
    }
}

pub fn counted(out: &mut Vectors) {
    pairs(out);
    around(out);
    shapes(out);
    badly_formed(out);
    seeded(out);
}
