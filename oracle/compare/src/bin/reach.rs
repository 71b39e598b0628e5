//! Compares where a walker can get to with the judge, since the Rust has none: fixed cells, long
//! chains among them, and 250,000 seeded strips (or as many as the first argument says, from the case
//! that the second says), each with four starts: 1,000,000 calls. Prints how often each number was
//! answered, by shape, and what differs; exits 1 if anything does.

use std::process::exit;

use cases::walks::FIXED;
use compare::arguments::count_and_first;
use compare::under_test::{reachable, WALKING};
use compare::walks::Comparison;
use strips::encode;

const CASES: u64 = 250_000;

fn main() {
    let (count, first) = count_and_first("reach", CASES);
    println!("{WALKING} against the judge");
    let mut comparison = Comparison::default();
    for (name, make) in FIXED {
        let (cell, start) = make();
        comparison.fixed(name, &encode(&cell), start, &mut reachable);
    }
    comparison.seeded(first, count, &mut reachable);
    comparison.print();
    if comparison.differences() != 0 {
        exit(1);
    }
}
