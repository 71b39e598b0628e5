//! Where a walker can get to as plain Rust: a breadth-first search with its own queue, over the
//! polygons' places and the portals' targets by source. The library is timed against it, since the
//! Rust source has no such call.

use std::collections::VecDeque;

use strips::Refusal;

use crate::plain::{check, counts, follow_up, CELL_WORDS};

/// Where the polygons stand, and where the portals begin.
fn places(strip: &[u32]) -> (Vec<usize>, usize) {
    let (mut places, mut at) = (Vec::new(), CELL_WORDS);
    while strip[at] >> 28 == 2 {
        places.push(at);
        at += 1 + follow_up(strip[at]);
    }
    (places, at)
}

/// The portals' targets by source, of `count` polygons.
fn ways(strip: &[u32], mut at: usize, own: u32, count: usize) -> Vec<Vec<usize>> {
    let mut ways = Vec::new();
    while strip[at] >> 28 == 3 {
        let (polys, areas) = (strip[at + 8], strip[at + 9]);
        let (from, to) = ((polys & 0xFFFF) as usize, (polys >> 16) as usize);
        if areas & 0xFFFF == own && areas >> 16 == own && from < count && to < count {
            ways.resize(count, Vec::new());
            ways[from].push(to);
        }
        at += 11;
    }
    ways
}

/// The halves of the edges that serve, three words each.
fn halves(strip: &[u32], at: usize) -> &[u32] {
    let (vertices, edges, links) = counts(strip[at]);
    &strip[at + 4 + links + 3 * vertices..][..6 * edges.min(vertices)]
}

/// Marks the polygons, and says how many are marked.
pub fn reach(strip: &[u32], start: u64, marks: &mut [u8]) -> Result<usize, Refusal> {
    check(strip).map_err(|place| Refusal::new(3, place))?;
    let own = strip[2];
    let (places, at) = places(strip);
    if start >= places.len() as u64 {
        return Err(Refusal::new(42, 0));
    }
    if marks.len() < places.len() {
        return Err(Refusal::new(43, 0));
    }
    let marks = &mut marks[..places.len()];
    let ways = ways(strip, at, own, places.len());
    marks.fill(0);
    marks[start as usize] = 1;
    let (mut queue, mut count) = (VecDeque::from([start as usize]), 1);
    let mut see = |marks: &mut [u8], queue: &mut VecDeque<usize>, to: usize| {
        if marks[to] == 0 {
            marks[to] = 1;
            count += 1;
            queue.push_back(to);
        }
    };
    while let Some(number) = queue.pop_front() {
        for half in halves(strip, places[number]).chunks_exact(3) {
            let to = (half[1] & 0x3FFF) as usize;
            if half[0] == own && to < 16383 && to < marks.len() {
                see(marks, &mut queue, to);
            }
        }
        if let Some(ways) = ways.get(number) {
            ways.iter().for_each(|&to| see(marks, &mut queue, to));
        }
    }
    Ok(count)
}
