//! Times where a walker can get to against plain Rust (`compare/src/plain_reach.rs`), a breadth-first
//! search with its own queue, on the same strips, by the same driver and in one run, the sides in
//! turn: drawn cells by size, and the orders that cost most. Prints markdown tables.

use std::hint::black_box;

use cases::sizes::squares;
use cases::timed::largest;
use cases::walks::{at_random, behind_idle, down, drawn, drawn_shuffled, edge_chain, portal_chain, yards};
use compare::ffi_ynv::reachable;
use compare::plain_reach::reach as plain;
use compare::timing::least;
use rage::ynv::Ynv;
use strips::encode;

fn heading(title: &str) {
    println!("\n{title}\n");
    println!("| strip | polygons | portals | marked | ours | Rust | ours / Rust |");
    println!("|---|---|---|---|---|---|---|");
}

/// A row; both sides must mark the same.
fn row(name: &str, cell: &Ynv, start: usize) {
    let strip = encode(cell);
    let (mut ours, mut theirs) = (vec![7; cell.polys.len()], vec![7; cell.polys.len()]);
    let (strip, start) = (&strip[..], start as u64);
    let times =
        least(&mut [&mut || assert_eq!(reachable(black_box(strip), start, &mut ours, &mut [0; 8]), 0), &mut || {
            assert!(plain(black_box(strip), start, &mut theirs).is_ok())
        }]);
    assert!(ours == theirs, "marks differ");
    let marked = ours.iter().filter(|&&mark| mark == 1).count();
    let ratio = times[0] / times[1];
    let (polys, portals) = (cell.polys.len(), cell.portals.len());
    println!("| {name} | {polys} | {portals} | {marked} | {:.2} | {:.2} | {ratio:.2} |", times[0], times[1]);
}

fn with_portals(mut cell: Ynv, count: usize) -> Ynv {
    let order = at_random(cell.polys.len());
    cell.portals = portal_chain(&order[..=count], &(0..count).collect::<Vec<_>>()).portals;
    cell
}

fn by_size() {
    row("one polygon", &drawn(1), 0);
    row("2 drawn", &drawn(2), 1);
    row("4 drawn", &drawn(4), 2);
    row("10 drawn", &drawn(10), 5);
    row("50 drawn", &drawn(50), 25);
    row("300 drawn", &drawn(300), 150);
    row("500 drawn", &drawn(500), 250);
    row("5,000 drawn", &drawn(5000), 2500);
    row("5,000 drawn, 100 portals", &with_portals(drawn(5000), 100), 2500);
    row("5,000 that lead on in a row (as the other tables have them)", &squares(5000, 20_000), 0);
    row("16,383 drawn", &drawn(16_383), 8000);
    row("16,383 drawn, from the first", &drawn(16_383), 0);
    row("16,383 drawn, numbered at random", &drawn_shuffled(16_383), 8000);
    row("the largest (65,536 vertices), in a row", &largest(), 0);
}

fn costly() {
    let order = at_random(16_383);
    row("a chain down through 16,383", &edge_chain(&down(16_383)), 16_382);
    row("a chain at random through 16,383", &edge_chain(&order), order[0]);
    row("portals down through 16,383", &portal_chain(&down(16_383), &down(16_382)), 16_382);
    row(
        "the same, portals the other way round",
        &portal_chain(&down(16_383), &(0..16_382).collect::<Vec<_>>()),
        16_382,
    );
    row("portals at random through 16,383", &portal_chain(&order, &at_random(16_382)), order[0]);
    row("no step: the start alone", &yards(4040, 16_383, 4), 0);
    row("portals down through 65,536", &portal_chain(&down(65_536), &down(65_535)), 65_535);
    row(
        "portals at random through 65,536",
        &portal_chain(&at_random(65_536), &at_random(65_535)),
        at_random(65_536)[0],
    );
    row("portals down through 1,000, behind 65,535 others", &behind_idle(1000, 65_535), 999);
    row("portals down through 100, behind 1,000,000 others", &behind_idle(100, 1_000_000), 99);
}

fn main() {
    println!("Least microseconds of processor time per call.");
    heading("Drawn cells.");
    by_size();
    heading("The orders that cost most.");
    costly();
}
