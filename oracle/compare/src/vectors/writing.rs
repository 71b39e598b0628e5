//! The writer's list: records `[8, words of work lent, bytes of pages lent, number, eight words
//! of the answer, checksum, bytes told, words of runs]`, behind them the strip's runs, and the
//! written bytes where they are told, padded with zeros to whole words. The answer of a
//! refused call is its place and seven zeros. The last record is `[0]`. A run `[words made,
//! words given, which grows, words..]` makes so many words of the strip: those given again and
//! again, of which one is greater by 256 each time; so the largest cells take few words.

use std::collections::BTreeMap;

use cases::cells::{edge_end, empty, empty_grid, empty_vehicle, vec3};
use cases::writing::SHAPES;
use cases::{limits, Rng};
use rage::math::Vec3;
use rage::ynv::{NavEdge, NavPoint, NavPoly, Ynv};
use strips::{encode, Refusal};

use crate::vectors::reading::padded;
use crate::writing::Write;

/// No list is longer.
pub const MOST_BYTES: usize = 250_000;
/// Nor a strip, nor its pages.
pub const MOST_STRIP: usize = 214_000;
pub const MOST_PAGES: usize = 1_400_000;
/// Words of runs in a seeded case, and bytes that are told.
const MOST_RUNS: usize = 120;
const MOST_TOLD: usize = 1000;
/// Seeded cases tried of each shape, and those taken of each number.
const TRIED: usize = 3000;
const ACCEPTED: usize = 12;
const REFUSED: usize = 3;
const BADLY_FORMED: usize = 40;
/// Shapes that cases are taken from: all but the points about leaves, which `placed` has.
const SHAPES_TAKEN: [usize; 9] = [0, 1, 2, 3, 4, 5, 6, 7, 9];

#[derive(Default)]
pub struct Writings {
    words: Vec<u32>,
    /// Records of each number.
    pub counts: BTreeMap<u32, usize>,
    /// Records that have points dropped, and that have coordinates pushed to the border.
    pub dropping: usize,
    pub pushing: usize,
}

/// How often the `length` words at the start repeat, the one at `place` growing by 256.
fn times(words: &[u32], length: usize, place: usize) -> usize {
    let again = |k: usize| {
        let step = if k % length == place { 256 } else { 0 };
        words[k] == words[k - length].wrapping_add(step)
    };
    (length..words.len()).take_while(|&k| again(k)).count() / length + 1
}

/// The longest run at the start of some words, if it saves any: times, length, place.
fn longest(words: &[u32]) -> Option<(usize, usize, usize)> {
    let mut best = None;
    for length in 1..=40.min(words.len()) {
        for place in [length, 0] {
            let times = times(words, length, place);
            if (times - 1) * length > best.map_or(8, |(t, l, _)| (t - 1) * l) {
                best = Some((times, length, place));
            }
        }
    }
    best
}

/// A strip as runs.
pub fn runs(strip: &[u32]) -> Vec<u32> {
    let (mut out, mut at, mut single) = (Vec::new(), 0, 0);
    let flush = |out: &mut Vec<u32>, from: usize, to: usize| {
        if from < to {
            out.extend([(to - from) as u32; 3]);
            out.extend_from_slice(&strip[from..to]);
        }
    };
    while at < strip.len() {
        match longest(&strip[at..]) {
            None => at += 1,
            Some((times, length, place)) => {
                flush(&mut out, single, at);
                out.extend([times * length, length, place].map(|n| n as u32));
                out.extend_from_slice(&strip[at..at + length]);
                at += times * length;
                single = at;
            }
        }
    }
    flush(&mut out, single, at);
    out
}

/// The strip that runs stand for.
pub fn unrolled(runs: &[u32]) -> Vec<u32> {
    let (mut out, mut rest) = (Vec::new(), runs);
    while let [made, given, grows, words @ ..] = rest {
        let (words, behind) = words.split_at(*given as usize);
        let word = |k: u32| {
            let by = if k % given == *grows { 256 * (k / given) } else { 0 };
            words[(k % given) as usize].wrapping_add(by)
        };
        out.extend((0..*made).map(word));
        rest = behind;
    }
    out
}

/// Of bytes, modulo the greatest prime below 2^32.
pub fn checksum(bytes: &[u8]) -> u32 {
    bytes.iter().fold(0, |sum, &byte| (sum * 2_654_435_761 + byte as u64 + 1) % 4_294_967_291) as u32
}

impl Writings {
    fn add(&mut self, strip: &[u32], write: &Write, work: usize, room: usize) {
        let runs = runs(strip);
        assert!(unrolled(&runs) == strip && strip.len() <= MOST_STRIP && work <= 4 * MOST_STRIP && room <= MOST_PAGES);
        let (number, answer, bytes) = match write.lent(strip.len(), work, room) {
            Ok((bytes, values)) => (0, values, bytes),
            Err(Refusal { number, place }) => (number, [place as u64, 0, 0, 0, 0, 0, 0, 0], &[][..]),
        };
        let told = if bytes.len() <= MOST_TOLD { bytes } else { &[] };
        let sum = if number == 0 { checksum(bytes) } else { 0 };
        self.words.extend([8, work as u32, room as u32, number]);
        self.words.extend(answer.map(|word| word as u32));
        self.words.extend([sum, told.len() as u32, runs.len() as u32]);
        self.words.extend(runs);
        self.words.extend(padded(told));
        *self.counts.entry(number).or_insert(0) += 1;
        self.dropping += (number == 0 && answer[2] > 0) as usize;
        self.pushing += (number == 0 && answer[3] > 0) as usize;
    }

    /// A case with work and room exactly enough.
    fn exact(&mut self, strip: &[u32], write: &Write) {
        self.add(strip, write, 4 * strip.len(), room(write));
    }

    fn cell(&mut self, cell: &Ynv) {
        let strip = encode(cell);
        self.exact(&strip, &Write::of(&strip));
    }

    /// The list as bytes, its last record added.
    pub fn bytes(&self) -> Vec<u8> {
        self.words.iter().chain(&[0]).flat_map(|w| w.to_le_bytes()).collect()
    }
}

/// The bytes that a strip's pages take, or some.
fn room(write: &Write) -> usize {
    if let Write::Pages { bytes, .. } = write {
        bytes.len()
    } else {
        100
    }
}

fn polygon(vertices: Vec<Vec3>) -> NavPoly {
    NavPoly { vertices, edges: Vec::new(), flags0: 1, flags1: 2, flags2: 3, portal_links: Vec::new() }
}

/// Triangles in one place with so many links in all.
fn linked(count: usize) -> Ynv {
    let poly = |links: usize| NavPoly { portal_links: vec![9; links], ..polygon(vec![vec3(-900.0, 0.0, 0.0); 3]) };
    let mut polys = vec![poly(7); count / 7];
    polys.push(poly(count % 7));
    Ynv { polys, ..empty_grid() }
}

/// A vertex of its own for each n below 65,536 in a box of one step to the unit: from 32768
/// on the bits of a float grow by 256 from one whole number to the next.
fn own_place(n: usize) -> Vec3 {
    vec3((32768 + n % 32768) as f32, (n / 32768) as f32, 0.0)
}

/// 65,535 vertices, `distinct` of them different, and a polygon with these behind them.
fn many(distinct: usize, last: Vec<Vec3>) -> Ynv {
    let mut cell = empty(4, 7, vec3(0.0, 0.0, 0.0), vec3(65535.0, 65535.0, 65535.0));
    let vertices: Vec<Vec3> = (0..65535).map(|n| own_place(n.min(distinct - 1))).collect();
    cell.polys = vertices.chunks(2047).map(|run| polygon(run.to_vec())).collect();
    cell.polys.push(polygon(last));
    cell
}

/// The limits that need a cell of their own to be told in few words.
fn greatest(out: &mut Writings) {
    for count in [8186, 8191, 8192, 8193, 8194, 8200, 9000] {
        out.cell(&linked(count));
    }
    out.cell(&Ynv { portals: Vec::new(), points: Vec::new(), ..linked(16_000) });
    let beyond = vec3(1.0, 2.0, 0.0);
    for last in [vec![own_place(0); 3], vec![own_place(65535); 3], vec![own_place(65535), own_place(1), own_place(2)]] {
        out.cell(&many(65535, last));
    }
    for last in [vec![own_place(65535), beyond, beyond], vec![own_place(0), own_place(65535), beyond]] {
        out.cell(&many(65535, last.clone()));
        let mut cell = many(65535, last);
        cell.polys[33].portal_links = vec![0; 8];
        out.cell(&cell);
    }
    for (count, last) in
        [(65535, 2047), (65538, 3), (65538, 2), (65539, 3), (65540, 2047), (66000, 2), (67582, 3), (67582, 9)]
    {
        let at = own_place(5);
        let mut cell = many(1, vec![at; last]);
        let more = cell.polys.pop().unwrap();
        if count > 65535 {
            cell.polys.push(polygon(vec![at; count - 65535]));
        }
        cell.polys.push(more);
        out.cell(&cell);
    }
    let triangles = |count: usize, at: Vec3| vec![polygon(vec![at; 3]); count];
    for count in [16382, 16383, 16384, 16385] {
        out.cell(&Ynv { polys: triangles(count, vec3(-900.0, 0.0, 0.0)), ..empty_grid() });
        out.cell(&Ynv { polys: vec![polygon(Vec::new()); count], ..empty_vehicle() });
    }
    for (count, at) in [(8191, 1.0), (8192, 37.5), (8193, 75.0), (8194, 140.0), (8200, -900.0)] {
        out.cell(&Ynv { polys: triangles(count, vec3(at, 10.0, 1.0)), ..empty_grid() });
        out.cell(&Ynv { polys: triangles(count, vec3(at, 10.0, 1.0)), ..empty_vehicle() });
    }
    for count in [2047, 2048, 2049, 2050, 9000] {
        for at in [1.0, 75.0, 140.0] {
            let point = NavPoint { position: vec3(at, 75.0, 1.0), angle: 5, kind: 6 };
            out.cell(&Ynv { points: vec![point; count], ..empty_grid() });
        }
    }
}

/// The limits of `cases` that are told in few words.
fn limited(out: &mut Writings) {
    for limit in limits::all() {
        let strip = encode(&limit.cell);
        if strip.len() <= MOST_STRIP && runs(&strip).len() <= 2 * MOST_RUNS {
            out.exact(&strip, &Write::of(&strip));
        }
    }
}

/// Portals about the 586th, and areas about the 33rd in either half.
fn some_more(out: &mut Writings) {
    let all = limits::all();
    let with_portals = &all.iter().find(|limit| limit.name == "19: 586 portals").expect("a limit").cell;
    for count in [584, 585, 586, 587, 700, 5000] {
        let portals = vec![with_portals.portals[0].clone(); count];
        out.cell(&Ynv { portals: portals.clone(), ..empty_grid() });
        out.cell(&Ynv { portals, ..linked(8193) });
    }
    for count in [24, 25, 26, 27, 28] {
        for half in [0, 1] {
            let edge = |n: u32| NavEdge { a: edge_end(500 + (1 - half) * n, n), b: edge_end(500 + half * n, n) };
            let poly = NavPoly { edges: (1..=count).map(edge).collect(), ..polygon(vec![vec3(1.0, 1.0, 1.0); 30]) };
            out.cell(&Ynv { polys: vec![polygon(vec![vec3(1.0, 2.0, 1.0); 3]), poly], ..empty_vehicle() });
        }
    }
}

fn points(places: &[(f32, f32)]) -> Vec<NavPoint> {
    places.iter().map(|&(x, y)| NavPoint { position: vec3(x, y, 1.0), angle: 1, kind: 2 }).collect()
}

/// Points on borders of leaves and of the box, outside, and without a place; and the same in
/// an inverted box and in one whose min + max overflows.
fn placed(out: &mut Writings) {
    let below = |x: f32| f32::from_bits(x.to_bits() - 1);
    let above = |x: f32| f32::from_bits(x.to_bits() + 1);
    let borders = [(75.0, 75.0), (37.5, 112.5), (75.0, 1.0), (0.0, 150.0), (150.0, 150.0), (-0.0, 0.0)];
    let outside = [(above(150.0), 75.0), (75.0, -1e-9), (f32::NAN, 1.0), (1.0, f32::NAN), (f32::INFINITY, 1.0)];
    let beside = [(below(75.0), above(75.0)), (below(37.5), above(150.0)), (below(150.0), -0.0)];
    let benches = [vec![(20.0, 20.0); 38], vec![(151.0, 20.0), (20.0, 152.0)]].concat();
    let full = [vec![(-1.0, 10.0); 3000], vec![(140.0, 10.0); 2048]].concat();
    let far = [(3.1e38, 3.1e38), (3.3e38, 3.1e38), (f32::INFINITY, 3.1e38), (2.9e38, 3.1e38)];
    let grid = |places: &[(f32, f32)]| Ynv { points: points(places), ..empty_grid() };
    out.cell(&grid(&benches));
    out.cell(&grid(&[borders.as_slice(), &outside].concat()));
    out.cell(&grid(&beside));
    out.cell(&grid(&full));
    out.cell(&Ynv { points: points(&[borders.as_slice(), &outside].concat()), ..empty_vehicle() });
    let mut inverted = grid(&borders);
    std::mem::swap(&mut inverted.bb_min.x, &mut inverted.bb_max.x);
    out.cell(&inverted);
    let (bb_min, bb_max) = (vec3(3e38, 3e38, 0.0), vec3(3.2e38, 3.2e38, 1.0));
    for content_flags in [1, 4] {
        out.cell(&Ynv { points: points(&far), ..empty(content_flags, 7, bb_min, bb_max) });
    }
}

/// Seeded strips of one shape: accepted ones with room enough and more, then a byte or a
/// word short.
fn shaped(out: &mut Writings, make: fn(&mut Rng) -> Vec<u32>, seed: u64) {
    let mut rng = Rng::new(seed);
    let mut taken = BTreeMap::new();
    let mut take = |number: u32| {
        let count = taken.entry(number).or_insert(0);
        *count += 1;
        *count
            <= match number {
                0 => ACCEPTED,
                3 => BADLY_FORMED,
                _ => REFUSED,
            }
    };
    for _ in 0..TRIED {
        let strip = make(&mut rng);
        if strip.len() > 8 * MOST_RUNS || runs(&strip).len() > MOST_RUNS {
            continue;
        }
        let (write, work, more) = (Write::of(&strip), 4 * strip.len(), rng.below(40));
        let room = room(&write);
        match &write {
            Write::Refused(refusal) if take(refusal.number) => out.add(&strip, &write, work + more, room),
            Write::Pages { .. } if take(0) => out.add(&strip, &write, work, room + more),
            Write::Pages { .. } if take(2) => out.add(&strip, &write, work, room - 1),
            Write::Pages { .. } | Write::Refused(Refusal { number: 10.., .. }) if take(1) => {
                out.add(&strip, &write, work - 1, room)
            }
            _ => {}
        }
    }
}

/// The limits and placed points, then the shapes.
pub fn all() -> Writings {
    let mut out = Writings::default();
    limited(&mut out);
    greatest(&mut out);
    some_more(&mut out);
    placed(&mut out);
    for (n, shape) in SHAPES_TAKEN.into_iter().enumerate() {
        shaped(&mut out, SHAPES[shape].1, 120 + n as u64);
    }
    out
}
