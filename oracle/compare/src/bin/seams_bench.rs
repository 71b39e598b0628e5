//! Times the seam count against plain Rust (`compare/src/plain_seams.rs`) on the same strips, by
//! the same driver and in one run, the sides in turn. Prints a markdown table.

use std::hint::black_box;

use cases::timed::EDGES;
use compare::ffi_ynv::count_seams;
use compare::plain_seams::{seams as by_ids, seams_by_neighbours as by_neighbours};
use compare::timing::least;
use rage::ynv::Ynv;
use strips::{encode, seams};

/// A row; all sides' counts must be the judge's.
fn row(name: &str, cell: &Ynv) {
    let strip = encode(cell);
    let count = seams(&strip).expect("a strip that is accepted");
    let mut answer = [0; 8];
    assert_eq!(count_seams(&strip, &mut answer), 0, "refused");
    assert_eq!(answer[0], count, "the library differs");
    assert_eq!(by_ids(&strip), Ok(count), "plain Rust differs");
    assert_eq!(by_neighbours(&strip), Ok(count), "plain Rust by neighbours differs");
    let strip = &strip[..];
    let times = least(&mut [
        &mut || assert_eq!(count_seams(black_box(strip), &mut answer), 0),
        &mut || assert_eq!(black_box(by_ids(black_box(strip))), Ok(count)),
        &mut || assert_eq!(black_box(by_neighbours(black_box(strip))), Ok(count)),
    ]);
    let halves = 2 * cell.polys.iter().map(|poly| poly.edges.len()).sum::<usize>();
    println!(
        "| {name} | {halves} | {count} | {:.1} | {:.1} | {:.1} | {:.2} | {:.2} | {:.2} |",
        times[0],
        times[1],
        times[2],
        times[0] / times[1],
        times[0] / times[2],
        1000.0 * times[0] / halves as f64
    );
}

fn main() {
    println!("Microseconds per call, the least of the runs.\n");
    println!("| strip | halves | seams | ours | Rust, by ids | Rust, by neighbours | ours / by ids | ours / by neighbours | ours, ns per half |");
    println!("|---|---|---|---|---|---|---|---|---|");
    for case in EDGES {
        row(case.name, &(case.make)());
    }
}
