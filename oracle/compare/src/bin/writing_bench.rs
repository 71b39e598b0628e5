//! Times the library's writer against `serialize_ynv` on the same cells, by the same driver
//! and in one run, the two sides in turn: cells by size, and cells that cost the writer
//! much. Prints markdown tables.

use cases::timed::{largest, Named, COSTLY, SIZES};
use compare::races::{settle, Writing};
use compare::timing::{heading, row};
use rage::ynv::Ynv;

fn timed(case: &Named<Ynv>) {
    let mut race = Writing::of((case.make)());
    row(case.name, race.bytes(), race.polys(), &mut race);
}

fn main() {
    settle(&mut Writing::of(largest()));
    println!("Microseconds of processor time per call.");
    heading("Cells by size.");
    SIZES.iter().for_each(timed);
    heading("Cells that cost more.");
    COSTLY.iter().for_each(timed);
}
