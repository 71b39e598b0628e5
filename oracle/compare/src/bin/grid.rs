//! Compares `cell_for_position` and `cell_bounds` with the Rust itself, and `count_seams`
//! with the judge, its strip and its answer lent at four places in guarded memory. Prints cases
//! and differences per function; exits 1 if there is any difference.

use std::process::exit;

use cases::floats::{any, ODD};
use cases::{damage, neighbours, Rng};
use compare::ffi_ynv;
use compare::guarded::PLACES;
use compare::lent::{self, Memory};
use compare::tally::Tally;
use rage::ynv;
use strips::{seams, Refusal};

/// What stands in the answer before a call.
const DIRTY: [u64; 8] = [0xD1_5EA5ED; 8];

/// The number and the answer that a call must leave.
fn expected<const N: usize>(values: Result<[u64; N], Refusal>) -> (u32, [u64; 8]) {
    match values {
        Ok(values) => {
            let mut answer = [0; 8];
            answer[..N].copy_from_slice(&values);
            (0, answer)
        }
        Err(refusal) => {
            let mut answer = DIRTY;
            answer[0] = refusal.place as u64;
            (refusal.number, answer)
        }
    }
}

fn called(call: impl FnOnce(&mut [u64; 8]) -> u32) -> (u32, [u64; 8]) {
    let mut answer = DIRTY;
    (call(&mut answer), answer)
}

/// A coordinate at a border of the grid's cells, or `off` floats beside it.
fn beside_border(k: i32, off: i32) -> f32 {
    let x = -6000.0 + 150.0 * k as f32;
    f32::from_bits(x.to_bits().wrapping_add_signed(off))
}

fn cell_for_position() -> u64 {
    let mut tally = Tally::new("cell_for_position");
    let mut one = |x: f32, y: f32| {
        let (cx, cy) = ynv::cell_for_position(x, y);
        let ours = called(|answer| ffi_ynv::cell_for_position(x, y, answer));
        tally.compare((x.to_bits(), y.to_bits()), ours, expected(Ok([u64::from(cx), u64::from(cy)])));
    };
    let mut floats: Vec<f32> = ODD.map(f32::from_bits).to_vec();
    floats.extend([1e-30, -1e-30, 9000.0, -6150.0, 3e9, -3e9]);
    floats.extend((-2..103).flat_map(|k| (-3..4).map(move |off| beside_border(k, off))));
    for &x in &floats {
        for &y in &floats {
            one(x, y);
        }
    }
    let mut rng = Rng::new(21);
    for _ in 0..600_000 {
        let near = beside_border(rng.below(105) as i32 - 2, rng.below(4001) as i32 - 2000);
        let (x, y) = (any(&mut rng), any(&mut rng));
        one(x, y);
        one(near, x);
        one(y, near);
    }
    tally.done()
}

fn cell_bounds() -> u64 {
    let mut tally = Tally::new("cell_bounds");
    let mut one = |cx: u32, cy: u32| {
        let (x0, y0, x1, y1) = ynv::cell_bounds(cx, cy);
        let sides = [x0, y0, x1, y1].map(|side| u64::from(side.to_bits()));
        // Document 01 adds the refusal.
        let judged = if cx > 99 || cy > 99 { Err(Refusal::new(5, 0)) } else { Ok(sides) };
        tally.compare((cx, cy), called(|answer| ffi_ynv::cell_bounds(cx, cy, answer)), expected(judged));
    };
    for cx in 0..1000 {
        for cy in 0..1000 {
            one(cx, cy);
        }
    }
    let mut rng = Rng::new(22);
    for _ in 0..100_000 {
        let far = rng.pick(&[100, 101, 255, 256, 65_535, 65_536, 1 << 31, u32::MAX]);
        let (some, near) = (rng.u32(), rng.below(100) as u32);
        one(far, near);
        one(near, far);
        one(some, near);
        one(near, some);
    }
    tally.done()
}

fn count_seams() -> u64 {
    let (mut tally, mut rng, mut memory) = (Tally::new("count_seams"), Rng::new(23), Memory::default());
    let mut halves = 0;
    for n in 0..1_200_000 {
        let strip = if n % 2 == 0 { neighbours::strip(&mut rng) } else { damage::strip(&mut rng) };
        let judged = seams(&strip);
        halves += judged.unwrap_or(0);
        // Well-formed strips and damaged ones lie at each place.
        let place = PLACES[n / 2 % PLACES.len()];
        memory.hold(place, &strip);
        let left = memory.called(place, &strip, ffi_ynv::count_seams);
        tally.compare(&strip, left, lent::expected(judged.map(|count| [count])));
    }
    println!("{halves} halves counted");
    tally.done()
}

fn main() {
    println!("libynv.a, compared with the Rust (count_seams: with the judge)");
    if cell_for_position() + cell_bounds() + count_seams() > 0 {
        exit(1);
    }
}
