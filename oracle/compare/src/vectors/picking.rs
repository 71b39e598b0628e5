//! Tag 7, pick: in x, y and the strip's words, out 0, whether there is a polygon and its
//! number; or the refusal's number, place, 0. The judge's answer: the Rust has no such call.

use cases::cells::vec3;
use cases::spots::{self, of_outlines, Spot};
use cases::Rng;
use rage::math::Vec3;
use rage::ynv::{NavEdge, Ynv};
use strips::{encode, outlines, pick, scan};

use super::Vectors;

const RECORDS: usize = 60;
const MOST_WORDS: usize = 80;

const TRIANGLE: [Spot; 3] = [(0, 0), (65535, 0), (0, 65535)];

fn put(out: &mut Vectors, strip: &[u32], (x, y): Spot) {
    let answer = match pick(strip, x, y) {
        Ok(Some(number)) => [0, 1, number as u32],
        Ok(None) => [0, 0, 0],
        Err(refusal) => [refusal.number, refusal.place as u32, 0],
    };
    out.add(7, &[&[x.into(), y.into()], strip].concat(), &answer);
}

/// Several spots of polygons with such corners, in shorts.
fn puts(out: &mut Vectors, outlines: &[&[Spot]], spots: &[Spot]) {
    let strip = encode(&cell(outlines));
    spots.iter().for_each(|&spot| put(out, &strip, spot));
}

fn cell(outlines: &[&[Spot]]) -> Ynv {
    of_outlines(&outlines.iter().map(|corners| corners.to_vec()).collect::<Vec<_>>())
}

/// The rectangle between two corners.
fn rectangle((x1, y1): Spot, (x2, y2): Spot) -> [Spot; 4] {
    [(x1, y1), (x2, y1), (x2, y2), (x1, y2)]
}

fn borders(out: &mut Vectors) {
    puts(out, &[&TRIANGLE], &[(0, 0), (0, 65535), (65535, 0), (32767, 32767), (32768, 32767), (65533, 1), (65534, 1)]);
    let one = rectangle((10, 20), (30, 40));
    puts(out, &[&one], &[(10, 20), (30, 20), (30, 40), (10, 40), (20, 20), (30, 30), (20, 40), (10, 30)]);
    let back = rectangle((10, 40), (30, 20));
    puts(out, &[&back], &[(10, 20), (30, 40), (20, 30)]);
    // Side by side, one above the other, and four around a corner.
    puts(out, &[&one, &rectangle((30, 20), (50, 40))], &[(30, 30)]);
    puts(out, &[&one, &rectangle((10, 40), (30, 60))], &[(20, 40)]);
    let around = [(0, 0), (2, 0), (0, 2), (2, 2)].map(|(x, y)| rectangle((x, y), (x + 2, y + 2)));
    puts(out, &[&around[0], &around[1], &around[2], &around[3]], &[(2, 2)]);
}

fn shapes(out: &mut Vectors) {
    let small = rectangle((10, 10), (20, 20));
    puts(out, &[&rectangle((15, 15), (40, 40)), &small], &[(17, 17), (12, 12)]);
    // Under 3 vertices nothing is inside, but they are counted.
    puts(out, &[&[]], &[(0, 0)]);
    puts(out, &[&[(5, 5)]], &[(5, 5)]);
    puts(out, &[&[(0, 0), (9, 9)]], &[(4, 4)]);
    puts(out, &[&[], &[(1, 1)], &[(0, 0), (9, 9)], &TRIANGLE], &[(4, 4)]);
    // A bow-tie: its two halves, beside and at the crossing. A star: its middle is outside.
    let tie: [Spot; 4] = [(0, 0), (8, 8), (8, 0), (0, 8)];
    puts(out, &[&tie], &[(1, 4), (6, 4), (4, 1), (4, 4)]);
    puts(out, &[&[(20, 90), (30, 10), (40, 90), (10, 40), (50, 40)]], &[(30, 45), (30, 20)]);
    // Corners repeated, and a spike.
    puts(out, &[&[(0, 0), (0, 0), (8, 0), (8, 0), (0, 8)]], &[(0, 0)]);
    puts(out, &[&[(0, 0), (4, 0), (9, 0), (4, 0), (4, 4), (0, 4)]], &[(6, 0)]);
}

/// The triangle in another box or with other vertices.
fn changed(out: &mut Vectors, spot: Spot, change: impl FnOnce(&mut Ynv)) {
    let mut cell = cell(&[&TRIANGLE]);
    change(&mut cell);
    put(out, &encode(&cell), spot);
}

fn floats(out: &mut Vectors) {
    changed(out, (0, 0), |cell| cell.bb_min.x = f32::NAN);
    changed(out, (0, 0), |cell| cell.bb_max.z = f32::INFINITY);
    changed(out, (0, 0), |cell| cell.bb_size.y = f32::NEG_INFINITY);
    changed(out, (0, 0), |cell| cell.polys[0].vertices[0] = vec3(f32::NAN, f32::NAN, f32::NAN));
    changed(out, (7, 7), |cell| cell.polys[0].vertices[1].x = f32::INFINITY);
    changed(out, (7, 7), |cell| cell.polys[0].vertices[0] = vec3(-1e30, -9.0, 1e30));
    changed(out, (65534, 0), |cell| (cell.bb_min.x, cell.bb_size.x) = (65535.0, -65535.0));
    changed(out, (0, 0), |cell| cell.bb_size.y = 1e-7);
    changed(out, (32767, 16000), |cell| {
        let size = Vec3 { x: 150.0, y: 300.0, z: 0.0 };
        (cell.bb_min, cell.bb_size) = (vec3(-75.0, 0.0, 0.0), size);
        cell.polys[0].vertices = vec![vec3(-75.0, 0.0, 0.0), vec3(75.0, 0.0, 0.0), vec3(0.0, 150.0, 0.0)];
    });
    changed(out, (9, 9), |cell| {
        let first = &mut cell.polys[0];
        (first.vertices, first.portal_links, first.edges) = (Vec::new(), vec![65535; 9], vec![NavEdge::NONE; 2]);
        cell.polys.push(self::cell(&[&TRIANGLE]).polys.remove(0));
    });
}

fn badly_formed(out: &mut Vectors) {
    let mut cell = cell(&[&TRIANGLE]);
    cell.polys[0].portal_links = vec![7];
    cell.bb_min.x = f32::NAN;
    let words = encode(&cell);
    let end = words.len() - 1;
    put(out, &[], (0, 0));
    // Its end missing, cut within the polygon, a word behind the end.
    put(out, &words[..end], (0, 0));
    put(out, &words[..20], (0, 0));
    put(out, &[&words[..], &[0]].concat(), (0, 0));
    // Unnamed bits of flags0 and the link; a kind that isn't there: 3, not 10.
    for (at, bits) in [(15, 1 << 16), (18, 1 << 31), (end, 3 << 28)] {
        let mut bad = words.clone();
        bad[at] ^= bits;
        put(out, &bad, (0, 0));
    }
}

/// Small strips, each with a spot in a polygon.
fn seeded(out: &mut Vectors) {
    let mut rng = Rng::new(107);
    while out.counts.last().is_some_and(|&(tag, count)| tag == 7 && count < RECORDS) {
        let strip = spots::strip(&mut rng);
        let corners = scan(&strip).map_or(Vec::new(), |cell| outlines(&cell));
        let (x, y) = spots::spot(&mut rng, &corners);
        if strip.len() <= MOST_WORDS && matches!(pick(&strip, x, y), Ok(Some(_))) {
            put(out, &strip, (x, y));
        }
    }
}

pub fn picks(out: &mut Vectors) {
    borders(out);
    shapes(out);
    floats(out);
    badly_formed(out);
    seeded(out);
}
