//! Strips that are badly formed, or nearly.

use rage::ynv::Ynv;
use strips::encode;

use crate::{cells, Rng};

/// Where the records of a cell's strip start, the end's place last.
pub fn records(cell: &Ynv) -> Vec<usize> {
    let mut at = vec![0];
    let mut next = 14;
    let mut record = |length: usize| {
        at.push(next);
        next += length;
    };
    for p in &cell.polys {
        record(4 + p.portal_links.len() + 3 * p.vertices.len() + 6 * p.edges.len());
    }
    cell.portals.iter().for_each(|_| record(11));
    cell.points.iter().for_each(|_| record(4));
    record(1);
    at
}

/// The words of a strip that have unnamed bits, each with the lowest of them and the
/// first of the named bits above.
pub fn unnamed(cell: &Ynv) -> Vec<(usize, u32, u32)> {
    let starts = records(cell);
    let mut out = vec![(0, 0, 28), (starts[starts.len() - 1], 0, 28)];
    let mut next = starts[1..].iter();
    for (p, &at) in cell.polys.iter().zip(next.by_ref()) {
        out.push((at + 1, 16, 32));
        let links = p.portal_links.len();
        out.extend((0..links).map(|i| (at + 4 + i, 16, 32)));
        let edges = at + 4 + links + 3 * p.vertices.len();
        out.extend((0..2 * p.edges.len()).map(|i| (edges + 3 * i + 2, 24, 32)));
    }
    for at in next.by_ref().take(cell.portals.len()) {
        out.extend([(*at, 16, 28), (at + 1, 16, 32), (at + 10, 8, 32)]);
    }
    out.extend(next.take(cell.points.len()).map(|&at| (at, 16, 28)));
    out
}

/// A small cell, so that strips stay short.
pub fn small(rng: &mut Rng) -> Ynv {
    let mut cell = if rng.once_in(2) { cells::valid(rng) } else { cells::wild(rng) };
    cell.polys.truncate(rng.below(4));
    for p in &mut cell.polys {
        p.vertices.truncate(5);
        p.edges.truncate(5);
    }
    cell.portals.truncate(rng.below(3));
    cell.points.truncate(rng.below(4));
    cell
}

/// One record moved, dropped or repeated.
fn shuffled(rng: &mut Rng, strip: &[u32], starts: &[usize]) -> Vec<u32> {
    let end = |n: usize| starts.get(n + 1).copied().unwrap_or(strip.len());
    let mut records: Vec<&[u32]> = (0..starts.len()).map(|n| &strip[starts[n]..end(n)]).collect();
    let (a, b) = (rng.below(records.len()), rng.below(records.len()));
    match rng.below(3) {
        0 => records.swap(a, b),
        1 => records.insert(a, records[b]),
        _ => {
            records.remove(a);
        }
    }
    records.concat()
}

/// A strip with nothing to a few things wrong.
pub fn strip(rng: &mut Rng) -> Vec<u32> {
    let cell = small(rng);
    let starts = records(&cell);
    let bits = unnamed(&cell);
    let mut words = encode(&cell);
    for _ in 0..rng.pick(&[0, 1, 1, 1, 2, 3]) {
        if words.is_empty() {
            break;
        }
        let n = rng.below(words.len());
        match rng.below(8) {
            0 | 1 => {
                let (at, low, high) = rng.pick(&bits);
                if at < words.len() {
                    words[at] |= 1 << (low + rng.below((high - low) as usize) as u32);
                }
            }
            2 => words.truncate(n),
            3 => words.extend((0..1 + rng.below(3)).map(|_| rng.pick(&[0, 0x5000_0000, 0xFFFF_FFFF]))),
            4 => words[n] ^= 1 << rng.below(32),
            5 => {
                let at = rng.pick(&starts);
                if at < words.len() {
                    words[at] = words[at] & 0x0FFF_FFFF | rng.u32() & 0xF000_0000;
                }
            }
            6 if words.len() > *starts.last().unwrap() => words = shuffled(rng, &words, &starts),
            _ => {
                let at = rng.pick(&starts);
                if at < words.len() {
                    words[at] ^= rng.pick(&[1, 0x1000, 0x100_0000, 0x800, 0x10_0000]);
                }
            }
        }
    }
    words
}
