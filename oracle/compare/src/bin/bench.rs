//! Times the library against the Rust on the same inputs and by the same driver:
//! quantising 10^6 vertices, numbering 65,536 distinct ones. Median and least of the
//! runs, the two sides in turn. Prints a markdown table. No buffer is cleared between
//! runs; the library's work holds what its last run left, and clearing its table is part
//! of the call, as making the map is on the other side.

use std::collections::HashMap;
use std::hint::black_box;
use std::time::Instant;

use cases::sizes::deep_in_one_tree;
use cases::Rng;
use compare::ffi;
use rage::math::Vec3;

const RUNS: usize = 31;
const VERTICES: usize = 1_000_000;
const DISTINCT: usize = 65_536;

/// `serialize_ynv`'s closure, word for word, over strip words.
fn rust_quantise(strip: &[u32], bounds: &[u32; 6], out: &mut [u32]) -> usize {
    let bb_min = Vec3::new(f32::from_bits(bounds[0]), f32::from_bits(bounds[1]), f32::from_bits(bounds[2]));
    let size = Vec3::new(f32::from_bits(bounds[3]), f32::from_bits(bounds[4]), f32::from_bits(bounds[5]));
    let quantise = |v: Vec3| -> [u16; 3] {
        const M: f32 = u16::MAX as f32;
        let q = |a: f32, lo: f32, extent: f32| -> u16 {
            let t = if extent.abs() < f32::EPSILON { 0.0 } else { ((a - lo) / extent).clamp(0.0, 1.0) };
            (t * M).round() as u16
        };
        [q(v.x, bb_min.x, size.x), q(v.y, bb_min.y, size.y), q(v.z, bb_min.z, size.z)]
    };
    let mut done = 0;
    for (v, to) in strip.chunks_exact(3).zip(out.chunks_exact_mut(3)) {
        let q = quantise(Vec3::new(f32::from_bits(v[0]), f32::from_bits(v[1]), f32::from_bits(v[2])));
        for (to, c) in to.iter_mut().zip(q) {
            *to = c as u32;
        }
        done += 1;
    }
    done
}

/// `serialize_ynv`'s vertex table.
fn rust_number(triples: &[u32], out: &mut [u32]) -> usize {
    let mut vertex_index: HashMap<[u16; 3], u16> = HashMap::new();
    let mut vertices: Vec<[u16; 3]> = Vec::new();
    for (t, to) in triples.chunks_exact(2).zip(out) {
        let q = [t[0] as u16, (t[0] >> 16) as u16, t[1] as u16];
        let index = match vertex_index.get(&q) {
            Some(&i) => i,
            None => {
                assert!(vertices.len() <= u16::MAX as usize, "more than 65536 distinct vertices");
                let i = vertices.len() as u16;
                vertices.push(q);
                vertex_index.insert(q, i);
                i
            }
        };
        *to = index as u32;
    }
    vertices.len()
}

/// Nanoseconds per item: median and least.
struct Times {
    median: f64,
    least: f64,
}

impl Times {
    fn of(mut runs: Vec<f64>) -> Times {
        runs.sort_by(f64::total_cmp);
        Times { median: runs[runs.len() / 2], least: runs[0] }
    }
}

/// Both sides on buffers of these lengths, in turn. What they count and the first words
/// of the buffers must be equal.
fn race(
    items: usize,
    lengths: (usize, usize),
    mut rust: impl FnMut(&mut [u32]) -> usize,
    mut ours: impl FnMut(&mut [u32]) -> usize,
) -> (Times, Times) {
    let (mut a, mut b) = (vec![0; lengths.0], vec![0; lengths.1]);
    assert_eq!(rust(&mut a), ours(&mut b), "counts differ");
    assert!(a[..] == b[..lengths.0], "results differ");
    let (mut rust_times, mut our_times) = (Vec::new(), Vec::new());
    let time = |run: &mut dyn FnMut(&mut [u32]) -> usize, out: &mut [u32]| {
        let start = Instant::now();
        black_box(run(black_box(out)));
        start.elapsed().as_nanos() as f64 / items as f64
    };
    for _ in 0..RUNS {
        rust_times.push(time(&mut rust, &mut a));
        our_times.push(time(&mut ours, &mut b));
    }
    (Times::of(rust_times), Times::of(our_times))
}

fn row(name: &str, items: usize, (rust, ours): (Times, Times)) {
    println!(
        "| {name} | {items} | {:.2} | {:.2} | {:.2} | {:.2} | {:.2} | {:.2} |",
        ours.median,
        rust.median,
        ours.median / rust.median,
        ours.least,
        rust.least,
        ours.least / rust.least
    );
}

fn quantise() {
    let bounds = [-6000f32, -5850.0, -10.0, 150.0, 150.0, 75.0].map(f32::to_bits);
    let mut rng = Rng::new(201);
    let strip: Vec<u32> = (0..3 * VERTICES)
        .map(|n| {
            let (lo, extent) = (f32::from_bits(bounds[n % 3]), f32::from_bits(bounds[3 + n % 3]));
            (lo + rng.unit() * extent).to_bits()
        })
        .collect();
    let times = race(
        VERTICES,
        (strip.len(), strip.len()),
        |out| rust_quantise(&strip, &bounds, out),
        |out| ffi::quantise_all(&strip, &bounds, out),
    );
    row("quantise", VERTICES, times);
}

fn number() {
    let mut rng = Rng::new(202);
    let mut random = std::collections::HashSet::new();
    while random.len() < DISTINCT {
        random.insert([rng.u32() as u16, rng.u32() as u16, rng.u32() as u16]);
    }
    let mut random: Vec<[u16; 3]> = random.into_iter().collect();
    random.sort();
    for i in (1..random.len()).rev() {
        random.swap(i, rng.below(i + 1));
    }
    let grid: Vec<[u16; 3]> = (0..DISTINCT).map(|n| [256 * (n % 256) as u16, 256 * (n / 256) as u16, 1000]).collect();
    let line: Vec<[u16; 3]> = (0..DISTINCT).map(|n| [n as u16, 7, 7]).collect();
    let orders = [
        ("number, random", random),
        ("number, 256 × 256 grid", grid),
        ("number, a line", line),
        ("number, deep in one tree", deep_in_one_tree()),
    ];
    for (name, triples) in orders {
        let words: Vec<u32> = triples.iter().flat_map(|t| [t[0] as u32 | (t[1] as u32) << 16, t[2] as u32]).collect();
        let lengths = (DISTINCT, ffi::number_work(DISTINCT));
        let times = race(DISTINCT, lengths, |out| rust_number(&words, out), |work| ffi::number_all(&words, work));
        row(name, DISTINCT, times);
    }
}

fn main() {
    println!("Nanoseconds per item, of {RUNS} runs.");
    println!();
    println!("| call | items | ours, median | Rust, median | ours / Rust | ours, least | Rust, least | ours / Rust |");
    println!("|---|---|---|---|---|---|---|---|");
    quantise();
    number();
}
