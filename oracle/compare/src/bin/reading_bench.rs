//! Times the library's reader against `parse_ynv` on the same pages, by the same driver
//! and in one run, the two sides in turn: cells by size, and part tables that cost the
//! reader much. Prints markdown tables.

use cases::pages::Pages;
use cases::timed::{vertices_repeated, PART_TABLES, SIZES};
use compare::races::{settle, Reading};
use compare::timing::{heading, row};

fn timed(name: &str, pages: Pages) {
    let mut race = Reading::of(pages);
    row(name, race.bytes(), race.polys(), &mut race);
}

fn main() {
    settle(&mut Reading::of(vertices_repeated()));
    println!("Microseconds of processor time per call.");
    heading("Cells by size.");
    for case in SIZES {
        timed(case.name, Pages::written(&(case.make)()));
    }
    heading("Part tables: the cell of 5,000 polygons and 20,000 vertices.");
    for case in PART_TABLES {
        timed(case.name, (case.make)());
    }
}
