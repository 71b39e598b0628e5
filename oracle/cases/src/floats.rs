//! Floats: the odd ones, the usual ones, and axes (lo, extent) to go with them.

use crate::Rng;

/// Bits that are worth trying anywhere.
#[rustfmt::skip]
pub const ODD: [u32; 42] = [
    0x0000_0000, 0x8000_0000, // zeros
    0x0000_0001, 0x8000_0001, 0x007F_FFFF, 0x0080_0000, // subnormal, least normal
    0x7F7F_FFFF, 0xFF7F_FFFF, 0x7F80_0000, 0xFF80_0000, // greatest, infinities
    0x7FC0_0000, 0xFFC0_0000, 0x7F80_0001, 0xFF80_0001, 0x7FFF_FFFF, 0xFFFF_FFFF, // NaN
    0x3400_0000, 0x33FF_FFFF, 0x3400_0001, 0xB400_0000, 0xB3FF_FFFF, // around 2^-23
    0x3F80_0000, 0xBF80_0000, 0x3F80_0001, 0x3F7F_FFFF, // around 1
    0x3F00_0000, 0x3EFF_FFFF, 0x3700_0080, 0x3780_0080, // halves
    0xBEC0_0000, 0x3EC0_0000, 0xBE80_0000, 0x3E80_0000, // -0.375 .. 0.25
    0x4600_0000, 0xC600_0000, 0x45FF_F800, 0xC600_0400, // around 8192
    0x477F_FF00, 0x477F_FE00, // 65535, 65534
    0x7F61_B1E6, 0xFF61_B1E6, // 3e38
    0x4316_0000, // 150
];

pub fn odd(rng: &mut Rng) -> f32 {
    f32::from_bits(rng.pick(&ODD))
}

/// Any bits at all, odd ones and usual ones.
pub fn any(rng: &mut Rng) -> f32 {
    match rng.below(4) {
        0 => odd(rng),
        1 => f32::from_bits(rng.u32()),
        2 => usual(rng),
        _ => quarters(rng),
    }
}

/// A number as maps have it.
pub fn usual(rng: &mut Rng) -> f32 {
    (rng.unit() - 0.5) * rng.pick(&[1.0, 16.0, 300.0, 12000.0, 40000.0])
}

/// A number at or beside a multiple of an eighth.
pub fn quarters(rng: &mut Rng) -> f32 {
    let x = (rng.below(160_000) as f32 - 80_000.0) * 0.125;
    f32::from_bits(x.to_bits().wrapping_add(rng.pick(&[0, 0, 0, 1, 0xFFFF_FFFF])))
}

/// An axis: lo and extent.
pub fn axis(rng: &mut Rng) -> (f32, f32) {
    match rng.below(6) {
        0 => (usual(rng), usual(rng).abs() + 1.0),
        1 => (0.0, rng.pick(&[1.0, 2.0, 65535.0, 150.0, 4096.0])),
        2 => (usual(rng), usual(rng)),
        3 => (odd(rng), odd(rng)),
        4 => (any(rng), any(rng)),
        _ => (usual(rng), rng.unit() * 2f32.powi(-22) * rng.pick(&[1.0, -1.0])),
    }
}

/// A coordinate to try on an axis: mostly inside, at an end, or beside a half step.
pub fn on_axis(rng: &mut Rng, lo: f32, extent: f32) -> f32 {
    match rng.below(8) {
        0 => any(rng),
        1 => lo,
        2 => lo + extent,
        3 => lo + (rng.unit() * 3.0 - 1.0) * extent,
        4 | 5 => {
            let half = (rng.below(65536) as f32 + 0.5) / 65535.0;
            let x = lo + half * extent;
            f32::from_bits(x.to_bits().wrapping_add(rng.below(7) as u32).wrapping_sub(3))
        }
        _ => lo + rng.unit() * extent,
    }
}
