//! How many words of the lent work a call of the writer writes, by what stands there, and how
//! many bytes of the pages, a markdown table: accepted, and refused with 2, for the last
//! polygon, with 1 and with 3. A polygon's record has 12 words, and no part of work grows by
//! 12 to a polygon: records are built in the pages. Exits 1 where a word from twice the
//! strip's words on is written, or a byte by a refusal.
//!
//! Each call is made twice, on memory whose bits are all other ones the second time: what is
//! written differs from what was there in one of the two.

use std::process::exit;

use cases::timed::{COSTLY, SIZES};
use compare::under_test::serialize;
use rage::ynv::Ynv;
use strips::{encode, laid_out};

/// More trees than vertices have numbers there are not.
const MOST_TREES: usize = 65_536;

/// Which words and bytes a call writes, and the number that it answers.
struct Written {
    number: u32,
    work: Vec<bool>,
    pages: Vec<bool>,
}

fn written(strip: &[u32], work: usize, room: usize) -> Written {
    let (mut out, mut number) = (Written { number: 0, work: vec![false; work], pages: vec![false; room] }, None);
    for flip in [0, u32::MAX] {
        let dirty = |n: usize| 0xDEAD_0000 ^ (n as u32).wrapping_mul(0x9E37_79B1) ^ flip;
        let mut words: Vec<u32> = (0..work).map(dirty).collect();
        let mut bytes: Vec<u8> = (0..room).map(|n| dirty(n) as u8).collect();
        let said = serialize(strip, &mut words, &mut bytes, &mut [0; 8]);
        assert_eq!(*number.get_or_insert(said), said, "another answer on other memory");
        out.number = said;
        for (n, word) in words.iter().enumerate() {
            out.work[n] |= *word != dirty(n);
        }
        for (n, byte) in bytes.iter().enumerate() {
            out.pages[n] |= *byte != dirty(n) as u8;
        }
    }
    out
}

fn count(items: &[bool]) -> usize {
    items.iter().filter(|&&written| written).count()
}

/// The parts of work, as docs/ARCHITECTURE.md has them, then what is left below twice the
/// strip's words and what lies from there on: where each ends.
fn ends(cell: &Ynv, words: usize, work: usize) -> [usize; 7] {
    let roots = (words / 3).min(MOST_TREES);
    let vertices = roots + 2 * (words / 3);
    let indices = vertices + words / 3;
    let boxes = indices + 3 * cell.polys.len();
    [roots, vertices, indices, boxes, boxes + cell.points.len(), 2 * words, work]
}

/// A row; whether nothing was written that must stay.
fn row(name: &str, cell: &Ynv, strip: &[u32], work: usize, room: usize) -> bool {
    let written = written(strip, work, room);
    let (mut from, mut row, mut behind) = (0, String::new(), 0);
    for end in ends(cell, strip.len(), work) {
        let (first, last) = (from.min(work), end.max(from).min(work));
        behind = count(&written.work[first..last]);
        row += &format!(" {behind} |");
        from = last;
    }
    let (number, bytes) = (written.number, count(&written.pages));
    println!("| {name} | {number} | {} | {} |{row} {bytes} |", 12 * cell.polys.len(), strip.len());
    behind == 0 && (number == 0 || bytes == 0)
}

/// The calls on a cell.
fn rows(name: &str, cell: &Ynv) -> bool {
    let (strip, room) = (encode(cell), laid_out(cell).len());
    let work = 4 * strip.len();
    let mut fine = row(name, cell, &strip, work, room);
    fine &= row(name, cell, &strip, work, room - 1);
    let mut bad = cell.clone();
    if let Some(poly) = bad.polys.last_mut() {
        poly.vertices.truncate(2);
        let strip = encode(&bad);
        fine &= row(name, &bad, &strip, 4 * strip.len(), room);
    }
    fine &= row(name, cell, &strip, work - 1, room);
    fine & row(name, cell, &strip[..strip.len() - 1], work, room)
}

fn main() {
    println!("Words written, of 4 lent to a word of the strip (W).\n");
    println!("| cell | answer | words of all records | W | roots | vertices, edges | indices | boxes | leaves | below 2 W | from 2 W on | bytes of pages |");
    println!("|---|---|---|---|---|---|---|---|---|---|---|---|");
    let all = SIZES.iter().chain(&COSTLY);
    let fine = all.fold(true, |fine, case| fine & rows(case.name, &(case.make)()));
    if !fine {
        println!("WRITTEN where it must stay");
        exit(1);
    }
}
