//! Times the drawing as OBJ text against plain Rust (`compare/src/plain_obj.rs`) on the same strips,
//! by the same driver and in one run, the sides in turn: cells by size, and strips that cost more.
//! The library is lent text by the bound, then exactly long enough. Beside them a copy of the text
//! from memory to memory. Prints markdown tables.

use std::hint::black_box;

use cases::cells::vec3;
use cases::drawings::{densest, runs};
use cases::sizes::{scattered, squares};
use cases::timed::largest;
use cases::Rng;
use compare::ffi_ynv::export_obj;
use compare::plain_obj::{obj as by_digit, obj_by_length as by_length};
use compare::timing::least;
use rage::ynv::{NavEdge, Ynv};
use strips::{encode, obj};

/// Bytes that suffice for each word of a strip. A vertex takes 3 words, and at most 20 bytes in its
/// line, and 21 in its face where its number has 20 digits.
const BYTES_A_WORD: usize = 14;

fn heading(title: &str) {
    println!("\n{title}\n");
    println!(
        "| strip | vertices | bytes of text | ours, bound | ours, exactly | Rust, by digit | Rust, by length | copy | \
         ours / by digit: bound, exactly | ours / by length: bound, exactly | ours, GB/s | Rust, GB/s | copy, GB/s |"
    );
    println!("|---|---|---|---|---|---|---|---|---|---|---|---|---|");
}

/// A row; all sides' texts must be the judge's.
fn row(name: &str, cell: &Ynv) {
    let strip = encode(cell);
    let text = obj(&strip, usize::MAX).expect("a strip that is accepted");
    let (mut bound, mut exact) = (vec![0; BYTES_A_WORD * strip.len()], vec![0; text.len()]);
    let (mut digits, mut lengths) = (Vec::with_capacity(bound.len()), Vec::with_capacity(bound.len()));
    let mut copy = vec![0; text.len()];
    let strip = &strip[..];
    let times = least(&mut [
        &mut || assert_eq!(export_obj(black_box(strip), &mut bound, &mut [0; 8]), 0),
        &mut || assert_eq!(export_obj(black_box(strip), &mut exact, &mut [0; 8]), 0),
        &mut || by_digit(black_box(strip), usize::MAX, &mut digits).unwrap(),
        &mut || by_length(black_box(strip), usize::MAX, &mut lengths).unwrap(),
        &mut || black_box(&mut copy[..]).copy_from_slice(black_box(&text)),
    ]);
    for side in [&bound[..text.len()], &exact, &digits, &lengths, &copy] {
        assert!(side == text, "texts differ");
    }
    let vertices: usize = cell.polys.iter().map(|poly| poly.vertices.len()).sum();
    let micros: Vec<String> = times.iter().map(|time| format!("{time:.2}")).collect();
    let ratios = |plain: f64| format!("{:.2}, {:.2}", times[0] / plain, times[1] / plain);
    let speed = |time: f64| format!("{:.2}", text.len() as f64 / time / 1000.0);
    println!(
        "| {name} | {vertices} | {} | {} | {} | {} | {} | {} | {} |",
        text.len(),
        micros.join(" | "),
        ratios(times[2]),
        ratios(times[3]),
        speed(times[0]),
        speed(times[2]),
        speed(times[4])
    );
}

/// The greatest cell's vertices, each made anew.
fn changed(change: impl Fn(&mut Rng) -> [f32; 3]) -> Ynv {
    let (mut cell, mut rng) = (largest(), Rng::new(51));
    (cell.bb_min, cell.bb_size) = (vec3(0.0, 0.0, 0.0), vec3(65535.0, 65535.0, 65535.0));
    for v in cell.polys.iter_mut().flat_map(|poly| &mut poly.vertices) {
        let [x, y, z] = change(&mut rng);
        *v = vec3(x, y, z);
    }
    cell
}

/// A short of one to five digits, each as often: the processor can't guess how many.
fn any_length(rng: &mut Rng) -> f32 {
    let end = rng.pick(&[10, 100, 1000, 10_000, 65_536]);
    rng.below(end) as f32
}

fn without_edges(mut cell: Ynv) -> Ynv {
    cell.polys.iter_mut().for_each(|poly| poly.edges.clear());
    cell
}

/// Every polygon with 4,095 edges, which are checked and left behind.
fn with_surplus_edges(mut cell: Ynv) -> Ynv {
    cell.polys.iter_mut().for_each(|poly| poly.edges = vec![NavEdge::NONE; 4095]);
    cell
}

fn by_size() {
    row("no polygons", &squares(0, 0));
    row("500 polygons, 2,000 vertices", &squares(500, 2000));
    row("5,000 polygons, 20,000 vertices", &squares(5000, 20_000));
    row("the largest: 16,383 polygons, 65,536 vertices", &largest());
}

fn costly() {
    let tiny = |rng: &mut Rng| f32::from_bits(1 + rng.below(65_535) as u32);
    row("the largest, vertices at random", &scattered(16_383));
    row("the largest, every short 65535", &changed(|_| [65535.0; 3]));
    row("the largest, every short 0", &changed(|_| [0.0; 3]));
    row("the largest, shorts of any length", &changed(|rng| [(); 3].map(|_| any_length(rng))));
    row("the same without edges", &without_edges(changed(|rng| [(); 3].map(|_| any_length(rng)))));
    row("the largest, coordinates subnormal", &changed(|rng| [(); 3].map(|_| tiny(rng))));
    row("16 polygons of 4,095 vertices, no edges", &runs(16, 4095));
    row("the same, every short 65535", &densest(16));
    row("65,536 triangles, no edges", &runs(65_536, 3));
    row("100 polygons of 4 vertices and 4,095 edges", &with_surplus_edges(squares(100, 400)));
    row("245 polygons of 4,095 vertices: numbers of 7 digits", &runs(245, 4095));
}

fn main() {
    println!("Least microseconds of processor time per call; text lent by the bound, or exactly long enough.");
    heading("Cells by size.");
    by_size();
    heading("Strips that cost more.");
    costly();
}
