//! Tag 1, short: in a, lo, extent (float bits), out q. Tag 2, back: in q, lo, extent,
//! out float bits, a NaN as 0x7FC00000.

use cases::cells::vec3;
use cases::floats::{axis, on_axis, ODD};
use cases::Rng;

use super::Vectors;
use crate::reference;

const TINY: f32 = f32::EPSILON; // 2^-23

/// Axes that try each case of the definition.
const AXES: [(f32, f32); 14] = [
    (0.0, 1.0),
    (0.0, 2.0),
    (0.0, 150.0),
    (-6000.0, 150.0),
    (4.0, -2.0),
    (0.0, -1.0),
    (0.0, 0.0),
    (1.0, -0.0),
    (0.0, TINY),
    (0.0, -TINY),
    (0.0, TINY / 2.0),
    (0.0, f32::INFINITY),
    (0.0, f32::NAN),
    (3e38, 3e38),
];

fn short(out: &mut Vectors, a: f32, lo: f32, extent: f32) {
    let q = reference::shorts(vec3(lo, lo, lo), vec3(extent, extent, extent), &[vec3(a, a, a); 3])[0][0];
    out.add(1, &[a.to_bits(), lo.to_bits(), extent.to_bits()], &[q as u32]);
}

pub fn shorts(out: &mut Vectors) {
    // P1 to P4, then the product that is rounded to f32 first, then mirrored ends.
    for (a, lo, extent) in [
        (1.0, 0.0, 2.0),
        (1.0, 0.0, TINY / 2.0),
        (TINY, 0.0, TINY),
        (f32::NAN, 0.0, 1.0),
        (f32::from_bits(0x3700_0080), 0.0, 1.0),
        (5.0, 0.0, -1.0),
        (-5.0, 0.0, -1.0),
        (1.0, f32::NAN, 1.0),
        (f32::INFINITY, 0.0, 1.0),
        (f32::NEG_INFINITY, 0.0, 1.0),
        (f32::INFINITY, f32::INFINITY, 1.0),
        (3e38, -3e38, 3e38),
        (1.0, 0.0, f32::from_bits(0x33FF_FFFF)),
        (-1e-45, 0.0, 4096.0),
    ] {
        short(out, a, lo, extent);
    }
    let mut rng = Rng::new(101);
    for (lo, extent) in AXES {
        for a in [0, 1, 7, 8, 10, 16, 21, 25, 40].map(|n| f32::from_bits(ODD[n])) {
            short(out, a, lo, extent);
        }
        for _ in 0..4 {
            short(out, on_axis(&mut rng, lo, extent), lo, extent);
        }
    }
    // Beside half steps.
    for _ in 0..120 {
        let (lo, extent) = rng.pick(&AXES[..5]);
        let x = lo + (rng.below(65535) as f32 + 0.5) / 65535.0 * extent;
        short(out, f32::from_bits(x.to_bits() + rng.below(5) as u32 - 2), lo, extent);
    }
    for _ in 0..250 {
        let (lo, extent) = axis(&mut rng);
        short(out, on_axis(&mut rng, lo, extent), lo, extent);
    }
}

fn back(out: &mut Vectors, q: u16, lo: f32, extent: f32) {
    let v = reference::backs(vec3(lo, lo, lo), vec3(extent, extent, extent), &[[q; 3]])[0];
    out.add(2, &[q as u32, lo.to_bits(), extent.to_bits()], &[reference::one_nan(v.x)]);
}

pub fn backs(out: &mut Vectors) {
    // Where other orders of the operations differ.
    back(out, 105, 0.0, 150.0);
    back(out, 257, 0.0, 1.0);
    for (lo, extent) in AXES {
        for q in [0, 1, 32767, 32768, 65535] {
            back(out, q, lo, extent);
        }
    }
    let mut rng = Rng::new(102);
    for _ in 0..300 {
        let (lo, extent) = axis(&mut rng);
        back(out, rng.u32() as u16, lo, extent);
    }
}
