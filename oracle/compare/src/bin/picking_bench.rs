//! Times the polygon under the cursor against plain Rust (`compare/src/plain.rs`) on the same
//! strips and spots, by the same driver and in one run, the two sides in turn: cells by size,
//! and strips that cost much. Prints markdown tables.

use cases::sizes::squares;
use cases::spots::{of_outlines, Spot};
use cases::timed::largest;
use cases::Rng;
use compare::races::Picking;
use compare::timing::{heading, row};
use rage::ynv::Ynv;
use strips::{encode, outlines, pick};

fn timed(name: &str, cell: &Ynv, spot: Spot) {
    let mut race = Picking::of(cell, spot);
    row(name, race.bytes(), cell.polys.len(), &mut race);
}

/// A spot between two corners of the last polygon, which alone contains it.
fn in_last(cell: &Ynv) -> Spot {
    let (outlines, strip) = (outlines(cell), encode(cell));
    let corners = outlines.last().expect("a polygon");
    let between = |a: &Spot, b: &Spot| (a.0 / 2 + b.0 / 2, a.1 / 2 + b.1 / 2);
    let mut spots = corners.iter().flat_map(|a| corners.iter().map(move |b| between(a, b)));
    let last = Ok(Some(cell.polys.len() - 1));
    spots.find(|&(x, y)| pick(&strip, x, y) == last).expect("a spot in the last polygon")
}

/// A spot left of all polygons, at the height of those in the middle.
fn in_none(cell: &Ynv) -> Spot {
    let outlines = outlines(cell);
    let middle = &outlines[outlines.len() / 2];
    let spot = (0, middle[0].1 / 2 + middle[2].1 / 2);
    assert_eq!(pick(&encode(cell), spot.0, spot.1), Ok(None));
    spot
}

fn by_size() {
    for (name, cell) in [
        ("500 polygons, 2,000 vertices", squares(500, 2000)),
        ("5,000 polygons, 20,000 vertices", squares(5000, 20_000)),
        ("the largest: 16,383 polygons, 65,536 vertices", largest()),
    ] {
        timed(&format!("{name}: in the last"), &cell, in_last(&cell));
        timed(&format!("{name}: in none"), &cell, in_none(&cell));
    }
}

/// The spot of the strips that cost more is (MIDDLE, MIDDLE).
const MIDDLE: u16 = 32_767;

/// So many polygons of so many vertices without edges. An outline that contains the spot is
/// drawn again.
fn drawn(polys: usize, vertices: usize, corner: fn(&mut Rng, usize) -> Spot) -> Ynv {
    let mut rng = Rng::new(41);
    let mut outline = || loop {
        let corners: Vec<Spot> = (0..vertices).map(|n| corner(&mut rng, n)).collect();
        let outlines = [corners];
        if pick(&encode(&of_outlines(&outlines)), MIDDLE, MIDDLE) == Ok(None) {
            let [corners] = outlines;
            return corners;
        }
    };
    of_outlines(&(0..polys).map(|_| outline()).collect::<Vec<_>>())
}

/// Low and high in turn.
fn tall(n: usize) -> u16 {
    65535 * (n % 2) as u16
}

fn any(rng: &mut Rng, _: usize) -> Spot {
    (rng.u32() as u16, rng.u32() as u16)
}

/// All coordinates subnormal, in a box of one unit: the processor takes long for each.
fn subnormal() -> Ynv {
    let mut cell = drawn(16, 4095, any);
    (cell.bb_size.x, cell.bb_size.y) = (1.0, 1.0);
    for v in cell.polys.iter_mut().flat_map(|poly| &mut poly.vertices) {
        (v.x, v.y) = (f32::from_bits(1 + v.x as u32), f32::from_bits(1 + v.y as u32));
    }
    cell
}

/// "Straddled": one end of the side is above the spot's height, the other isn't.
fn costly() {
    for (name, cell) in [
        ("16,383 slivers of 4 vertices", drawn(16_383, 4, |_, n| (40_000 + n as u16 / 2, tall(n.div_ceil(2))))),
        ("16,383 of 4, all sides straddled, right of the spot", drawn(16_383, 4, |_, n| (40_000 + n as u16, tall(n)))),
        ("16 of 4,095, all sides but one straddled, the same", drawn(16, 4095, |_, n| (40_000 + n as u16, tall(n)))),
        ("16 of 4,095, all but one straddled, anywhere", drawn(16, 4095, |rng, n| (rng.u32() as u16, tall(n)))),
        ("16,383 of 4, corners anywhere", drawn(16_383, 4, any)),
        ("16 of 4,095, corners anywhere", drawn(16, 4095, any)),
        ("65,536 without vertices", drawn(65_536, 0, any)),
        ("16 of 4,095, coordinates subnormal", subnormal()),
    ] {
        timed(name, &cell, (MIDDLE, MIDDLE));
    }
}

fn main() {
    println!("Microseconds of processor time per call.");
    heading("Cells by size.");
    by_size();
    heading("Strips that cost more: polygons without edges, the spot in none.");
    costly();
}
