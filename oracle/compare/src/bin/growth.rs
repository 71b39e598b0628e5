//! Times reading and writing, the library's and the Rust's, on cells from 500 polygons to
//! the largest, and prints a picture of the least times as SVG. The numbers go to the error
//! output, a markdown table.

use cases::pages::Pages;
use cases::sizes::squares;
use cases::timed::{largest, vertices_repeated};
use compare::plot::{svg, Line, Panel};
use compare::races::{settle, Reading, Writing};
use compare::timing::{run, Race};
use rage::ynv::Ynv;

const SIZES: [usize; 10] = [500, 1000, 2000, 4000, 6000, 8000, 10_000, 12_000, 14_000, 16_383];

/// All sizes are gone through so often, since other work may disturb one pass for a while.
const PASSES: usize = 15;

fn cell(polys: usize) -> Ynv {
    if polys == 16_383 {
        largest()
    } else {
        squares(polys, 4 * polys)
    }
}

/// Milliseconds, ours and the Rust's.
type Pair = (f64, f64);

/// The lesser of what is known and the least times of another run.
fn least(known: Pair, race: &mut impl Race) -> Pair {
    let (ours, rust, _) = run(race);
    (known.0.min(ours.least / 1000.0), known.1.min(rust.least / 1000.0))
}

fn panel(title: &'static str, times: &[Pair]) -> Panel {
    let line = |name, of: fn(&Pair) -> f64| Line {
        name,
        points: SIZES.iter().zip(times).map(|(&polys, times)| (polys as f64, of(times))).collect(),
    };
    let lines = vec![line("Rust", |times| times.1), line("ours", |times| times.0)];
    Panel { title, x_title: "polygons in the cell", y_title: "milliseconds per call (least)", lines }
}

fn main() {
    settle(&mut Reading::of(vertices_repeated()));
    let (mut reading, mut writing) = ([(f64::MAX, f64::MAX); SIZES.len()], [(f64::MAX, f64::MAX); SIZES.len()]);
    for _ in 0..PASSES {
        for (n, &polys) in SIZES.iter().enumerate() {
            reading[n] = least(reading[n], &mut Reading::of(Pages::written(&cell(polys))));
            writing[n] = least(writing[n], &mut Writing::of(cell(polys)));
        }
    }
    eprintln!("| polygons | read, ours, ms | read, Rust | ours / Rust | write, ours | write, Rust | ours / Rust |");
    eprintln!("|---|---|---|---|---|---|---|");
    for (polys, (read, write)) in SIZES.iter().zip(reading.iter().zip(&writing)) {
        let pair = |(ours, rust): &Pair| format!("{ours:.3} | {rust:.3} | {:.2}", ours / rust);
        eprintln!("| {polys} | {} | {} |", pair(read), pair(write));
    }
    print!("{}", svg(&[panel("Reading", &reading), panel("Writing", &writing)]));
}
