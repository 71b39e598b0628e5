//! Compares the drawing as OBJ text with the judge, since the Rust has none: fixed cells, cells at
//! the limits of saving, and 250,000 seeded strips (or as many as the first argument says, from the
//! case that the second says). Each with text exactly long enough, a byte short, longer, and shorter
//! or empty: 1,000,000 calls. Prints how often each number was answered, by shape, what the texts
//! held, and what differs; exits 1 if anything does.

use std::process::exit;

use cases::drawings::{FIXED, LONG};
use cases::{limits, Rng};
use compare::arguments::count_and_first;
use compare::obj::Comparison;
use compare::under_test::{export_obj, DRAWING};
use strips::encode;

const CASES: u64 = 250_000;

fn main() {
    let (count, first) = count_and_first("obj", CASES);
    println!("{DRAWING} against the judge");
    let mut comparison = Comparison::default();
    for (name, make) in FIXED.into_iter().chain(LONG) {
        // Four times: once at each place.
        (0..4).for_each(|n| comparison.case("fixed", name, &encode(&make()), &mut Rng::new(n), &mut export_obj));
    }
    for limit in limits::all() {
        comparison.case("at the limits", limit.name, &encode(&limit.cell), &mut Rng::new(1), &mut export_obj);
    }
    comparison.seeded(first, count, &mut export_obj);
    comparison.print();
    if comparison.differences() != 0 {
        exit(1);
    }
}
