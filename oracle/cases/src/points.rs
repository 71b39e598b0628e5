//! Strips whose points lie about the borders of leaves and of the box, in boxes of all kinds.

use rage::math::Vec3;
use rage::ynv::NavPoint;
use strips::encode;

use crate::cells::{small_vehicle, vec3};
use crate::{floats, Rng};

/// Sides whose min + max is more than a float holds, or nearly.
const FAR: [(f32, f32); 5] =
    [(3e38, 3.2e38), (-3.2e38, -3e38), (f32::MAX, f32::MAX), (f32::MIN, f32::MAX), (1e38, f32::MAX)];

/// The float so many steps further, in the order of bits.
fn steps(x: f32, by: u32) -> f32 {
    f32::from_bits(x.to_bits().wrapping_add(by))
}

/// Min and max of an axis, finite: a cell of the map mostly; inverted, around zero, without
/// extent, a few floats wide, or far out.
fn side(rng: &mut Rng) -> (f32, f32) {
    let lo = -6000.0 + 150.0 * rng.below(80) as f32;
    match rng.below(20) {
        0 | 1 => (lo + 150.0, lo),
        2 => (floats::usual(rng), floats::usual(rng)),
        3 => rng.pick(&[(-75.0, 75.0), (-0.0, 0.0), (0.0, -0.0), (-150.0, 0.0)]),
        4 => (lo, lo),
        5 => (lo + 1.0, steps(lo + 1.0, rng.below(7) as u32)),
        6 => rng.pick(&FAR),
        _ => (lo, lo + 150.0),
    }
}

/// Where an axis is cut, its ends included: each part at (min + max) × 0.5.
fn lines(min: f32, max: f32) -> [f32; 5] {
    let middle = |a: f32, b: f32| (a + b) * 0.5;
    let centre = middle(min, max);
    [min, middle(min, centre), centre, middle(centre, max), max]
}

/// A coordinate: on a line or a float beside one, between, outside, no number, or any.
fn coordinate(rng: &mut Rng, (min, max): (f32, f32)) -> f32 {
    let line = rng.pick(&lines(min, max));
    match rng.below(20) {
        0..=6 => line,
        7 => steps(line, 1),
        8 => steps(line, u32::MAX),
        9 => max + rng.unit() * 20.0,
        10 => min - rng.unit() * 20.0,
        11 => rng.pick(&[f32::NAN, f32::INFINITY, f32::NEG_INFINITY, -0.0]),
        12 => floats::any(rng),
        _ => min + rng.unit() * (max - min),
    }
}

/// A cell with up to forty such points, now and then with a leaf that is about full.
pub fn about_leaves(rng: &mut Rng) -> Vec<u32> {
    let mut cell = small_vehicle(rng);
    cell.content_flags = rng.pick(&[1, 1, 1, 3, 4, 0xFFFF_FFFB]);
    let (x, y, z) = (side(rng), side(rng), side(rng));
    let extent = |(min, max): (f32, f32)| Some(max - min).filter(|side| side.is_finite()).unwrap_or(1.0);
    (cell.bb_min, cell.bb_max) = (vec3(x.0, y.0, z.0), vec3(x.1, y.1, z.1));
    cell.bb_size = vec3(extent(x), extent(y), extent(z));
    let position = |rng: &mut Rng| vec3(coordinate(rng, x), coordinate(rng, y), floats::any(rng));
    let point = |position: Vec3, n: usize| NavPoint { position, angle: n as u8, kind: 5 };
    cell.points = (0..rng.pick(&[1, 3, 10, 40])).map(|n| point(position(rng), n)).collect();
    if rng.once_in(60) {
        let at = position(rng);
        cell.points.extend((0..2049 - rng.below(6)).map(|n| point(at, n)));
    }
    encode(&cell)
}
