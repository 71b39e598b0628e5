//! What a cell and pages that were made to cost much do cost: processor seconds of one call, a
//! markdown table. The Rust would need gigabytes for such pages, so they are read by ours alone.

use cases::sizes::{one_tree, shared_run};
use compare::ffi_ynv;
use compare::races::Writing;
use compare::timing::{seconds, Race};

/// The words that `cellsum` lends.
const STRIP: usize = 16_384;

fn main() {
    println!("| what | bytes | ours | Rust |\n|---|---|---|---|");
    let mut race = Writing::of(one_tree());
    let (ours, rust) = (seconds(|| race.our_call()), seconds(|| race.rust_call()));
    println!("| writing 65,536 vertices deep in one tree of the table | {} | {ours:.4} | {rust:.4} |", race.bytes());
    for (polys, times, most) in [(500, 1000, 2047), (500, 1000, 64), (100, 100, 1)] {
        let pages = shared_run(polys, times, most);
        let mut strip = vec![0; STRIP];
        let mut number = 0;
        let time = seconds(|| number = ffi_ynv::parse(&pages.system, &pages.graphics, &mut strip, &mut [0; 8]));
        println!(
            "| reading {polys} polygons with one run of 2,047 corners, named {times} times over, indices in parts of {most}: refused {number} | {} | {time:.2} | – |",
            pages.system.len()
        );
    }
}
