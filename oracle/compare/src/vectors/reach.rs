//! Tag 10, reach: in the start, the bytes lent and the strip's words, out 0, how many are marked and the
//! marks, four to a word, the last one filled up with the bytes that were lent; or the refusal's number
//! and place. The judge's answer: the Rust has no such call.

use cases::cells::edge_end;
use cases::walks::{edge_chain, portal, portal_chain, yards, SHAPES};
use cases::Rng;
use rage::ynv::{NavEdge, NavEdgeEnd, NavPortal, Ynv};
use strips::{encode, reach};

use super::Vectors;

const RECORDS: usize = 48;
/// Of the seeded records.
const MOST_WORDS: usize = 90;

/// Each byte of the marks that the replaying program lends, 256 of them.
const LENT: u8 = 0xD1;

/// The cell's id.
const OWN: u32 = 4040;

fn put(out: &mut Vectors, strip: &[u32], start: u32, room: usize) {
    let answer = match reach(strip, start.into(), room) {
        Ok(marks) => {
            let byte = |bytes: &[u8], n: usize| bytes.get(n).copied().unwrap_or(LENT);
            let word = |bytes: &[u8]| u32::from_le_bytes([0, 1, 2, 3].map(|n| byte(bytes, n)));
            let count = marks.iter().filter(|&&mark| mark == 1).count();
            [0, count as u32].into_iter().chain(marks.chunks(4).map(word)).collect()
        }
        Err(refusal) => vec![refusal.number, refusal.place as u32],
    };
    out.add(10, &[&[start, room as u32], strip].concat(), &answer);
}

/// Two polygons; the first has a vertex and these edges.
fn two(area: u32, edges: Vec<NavEdge>) -> Ynv {
    let mut cell = yards(area, 2, 1);
    (cell.polys[0].edges, cell.polys[1].vertices) = (edges, Vec::new());
    cell
}

fn halves(out: &mut Vectors) {
    let none = NavEdgeEnd::NONE;
    let mut half = |area: u32, end: NavEdgeEnd| {
        put(out, &encode(&two(area, vec![NavEdge { a: end, b: none }])), 0, 2);
        put(out, &encode(&two(area, vec![NavEdge { a: none, b: end }])), 0, 3);
    };
    half(OWN, edge_end(OWN, 1));
    half(OWN, edge_end(OWN + 1, 1));
    half(OWN, edge_end(OWN, 1 << 14 | 1));
    half(OWN, edge_end(OWN, 2));
    half(16_383, NavEdgeEnd::NONE);
    half(OWN + 65_536, edge_end(OWN, 1));
}

/// Edges up to the vertex count, and a surplus one; back from the second.
fn surplus(out: &mut Vectors) {
    let to = NavEdge { a: edge_end(OWN, 1), b: edge_end(OWN, 1) };
    for (vertices, edges) in [(0, 1), (1, 2), (2, 2)] {
        let mut cell = two(OWN, vec![NavEdge { a: NavEdgeEnd::NONE, b: NavEdgeEnd::NONE }; edges - 1]);
        cell.polys[0].edges.push(to.clone());
        let corner = cell.polys[0].vertices[0];
        cell.polys[0].vertices = vec![corner; vertices];
        put(out, &encode(&cell), 0, 2);
    }
    put(out, &encode(&two(OWN, vec![to])), 1, 2);
}

fn portals(out: &mut Vectors) {
    let mut one = |area: u32, by: NavPortal, start: u32| {
        let mut cell = yards(area, 2, 0);
        cell.portals.push(by);
        put(out, &encode(&cell), start, 2);
    };
    let own = [OWN as u16; 2];
    one(OWN, portal(own, [0, 1]), 0);
    one(OWN, portal(own, [0, 1]), 1);
    one(OWN, portal([own[0], own[0] + 1], [0, 1]), 0);
    one(OWN, portal([own[0] + 1, own[0]], [0, 1]), 0);
    one(OWN, portal(own, [0, 1 << 14 | 1]), 0);
    one(OWN, portal(own, [2, 1]), 0);
    one(OWN + 65_536, portal(own, [0, 1]), 0);
    one(65_535, portal([65_535; 2], [0, 1]), 0);
}

/// Chains against the order, by edges and by portals, and what lies before their start.
fn chains(out: &mut Vectors) {
    let order = [4, 3, 2, 1, 0];
    let mut cell = edge_chain(&order[..3].iter().map(|n| n - 2).collect::<Vec<_>>());
    cell.polys.iter_mut().for_each(|poly| poly.vertices.truncate(4));
    put(out, &encode(&cell), 2, 3);
    put(out, &encode(&cell), 1, 3);
    let mut cell = portal_chain(&order, &[0, 1, 2, 3]);
    cell.polys.iter_mut().for_each(|poly| poly.vertices.clear());
    for start in [4, 2, 0] {
        put(out, &encode(&cell), start, 9);
    }
    cell.portals.reverse();
    put(out, &encode(&cell), 4, 5);
}

fn refusals(out: &mut Vectors) {
    let words = encode(&two(OWN, Vec::new()));
    put(out, &words, 2, 2);
    put(out, &words, u32::MAX, 0);
    put(out, &words, 1, 1);
    put(out, &words, 0, 0);
    put(out, &encode(&yards(OWN, 0, 0)), 0, 0);
    // 3 stands before both.
    put(out, &words[..words.len() - 1], 9, 0);
    put(out, &[&words[..], &[0]].concat(), 0, 2);
    put(out, &[], 0, 0);
}

/// Small strips that are accepted.
fn seeded(out: &mut Vectors) {
    let mut rng = Rng::new(109);
    while out.counts.last().is_some_and(|&(tag, count)| tag == 10 && count < RECORDS) {
        let (_, make) = rng.pick(&SHAPES);
        let strip = make(&mut rng);
        let start = rng.below(4);
        if strip.len() <= MOST_WORDS && reach(&strip, start as u64, 256).is_ok_and(|marks| marks.iter().sum::<u8>() > 1)
        {
            put(out, &strip, start as u32, 256);
        }
    }
}

pub fn walks(out: &mut Vectors) {
    halves(out);
    surplus(out);
    portals(out);
    chains(out);
    refusals(out);
    seeded(out);
}
