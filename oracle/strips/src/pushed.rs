//! No. 6: the coordinates pushed to the border, of a whole cell.
//!
//! Holds: `coordinate_pushed`, the flag of one coordinate; `pushed`, the sum that "stands
//! in the writer's answer".
//! Called: `pushed(&cell)` with the cell that `strips::scan` makes of a strip. It is a
//! number for every cell; it is the writer's only where the writer accepts the strip
//! (a box that is not finite meets 10 there and has no answer).
//! Written from document 02 (and 01) alone, without a look at the implementation.
//!
//! Readings taken: "the fraction" is (a - lo) / extent of document 01's module 2, before
//! the clamp, both steps rounded to f32: what rounds to 0, -0 or 1 is inside. "all
//! vertices" are those of the polygons as drawn, a shared one as often as it is drawn.

use rage::math::Vec3;
use rage::ynv::Ynv;

/// "whether the fraction was below 0, above 1 or a NaN."
pub fn coordinate_pushed(a: f32, lo: f32, extent: f32) -> bool {
    // "an extent under 2^-23 in magnitude never counts" (a NaN coordinate neither)
    if extent.abs() < f32::EPSILON {
        return false;
    }
    // Document 01, module 2: "(a − lo) / extent", in f32.
    let difference: f32 = a - lo;
    let fraction: f32 = difference / extent;
    // "below 0, above 1 or a NaN. Negative zero is inside": -0.0 < 0.0 is false.
    fraction < 0.0 || fraction > 1.0 || fraction.is_nan()
}

/// "Counted coordinate by coordinate": 0 to 3 for one position.
fn position_pushed(cell: &Ynv, v: Vec3) -> u64 {
    // Document 01: "by axis, lo from bb_min and extent from bb_size"
    let x = coordinate_pushed(v.x, cell.bb_min.x, cell.bb_size.x);
    let y = coordinate_pushed(v.y, cell.bb_min.y, cell.bb_size.y);
    let z = coordinate_pushed(v.z, cell.bb_min.z, cell.bb_size.z);
    x as u64 + y as u64 + z as u64
}

/// "the sum over all vertices, both portal ends and all points of the strip, dropped ones
/// too"
pub fn pushed(cell: &Ynv) -> u64 {
    let mut sum = 0;
    // "all vertices"
    for polygon in &cell.polys {
        for v in &polygon.vertices {
            sum += position_pushed(cell, *v);
        }
    }
    // "both portal ends"
    for portal in &cell.portals {
        sum += position_pushed(cell, portal.from);
        sum += position_pushed(cell, portal.to);
    }
    // "all points of the strip, dropped ones too": no leaf is asked.
    for point in &cell.points {
        sum += position_pushed(cell, point.position);
    }
    sum
}

#[cfg(test)]
mod tests {
    use super::*;
    use rage::ynv::{NavPoint, NavPoly, NavPortal};

    const TWO_TO_MINUS_23: f32 = 1.0 / 8388608.0;
    const LEAST: f32 = f32::from_bits(1);

    #[test]
    fn below_above_and_the_ends() {
        assert!(!coordinate_pushed(0.0, 0.0, 2.0));
        assert!(!coordinate_pushed(1.0, 0.0, 2.0));
        assert!(!coordinate_pushed(2.0, 0.0, 2.0));
        assert!(coordinate_pushed(2.0000002, 0.0, 2.0));
        assert!(coordinate_pushed(-0.0000001, 0.0, 2.0));
        assert!(coordinate_pushed(f32::INFINITY, 0.0, 2.0));
        assert!(coordinate_pushed(f32::NEG_INFINITY, 0.0, 2.0));
        // The greatest f32 less the least one is infinite: above 1.
        assert!(coordinate_pushed(f32::MAX, f32::MIN, f32::MAX));
    }

    #[test]
    fn negative_zero_is_inside() {
        assert!(!coordinate_pushed(-0.0, 0.0, 2.0));
        assert!(!coordinate_pushed(0.0, 0.0, -2.0)); // 0 / -2 is -0
        assert!(!coordinate_pushed(7.0, 7.0, -2.0));
        // -2^-149 / 4 rounds to -0: inside; / 1 does not: below 0.
        assert!(!coordinate_pushed(-LEAST, 0.0, 4.0));
        assert!(coordinate_pushed(-LEAST, 0.0, 1.0));
        // -2^-149 / 2 is halfway between -0 and -2^-149, and goes to the even one, -0.
        assert!(!coordinate_pushed(-LEAST, 0.0, 2.0));
    }

    #[test]
    fn nan_is_outside() {
        assert!(coordinate_pushed(f32::NAN, 0.0, 2.0));
        assert!(coordinate_pushed(f32::from_bits(0x7F80_0001), 0.0, 2.0)); // signalling
        assert!(coordinate_pushed(-f32::NAN, 0.0, 2.0));
    }

    #[test]
    fn extents() {
        // "under 2^-23 in magnitude never": 2^-24, both signs, 0, the next below 2^-23.
        let below = f32::from_bits(TWO_TO_MINUS_23.to_bits() - 1);
        for extent in [below, -below, TWO_TO_MINUS_23 / 2.0, 0.0, -0.0] {
            for a in [5.0, -5.0, f32::NAN, f32::INFINITY] {
                assert!(!coordinate_pushed(a, 0.0, extent));
            }
        }
        // 2^-23 itself is not under it. P3's a is inside.
        assert!(!coordinate_pushed(TWO_TO_MINUS_23, 0.0, TWO_TO_MINUS_23));
        assert!(coordinate_pushed(1.0, 0.0, TWO_TO_MINUS_23));
        assert!(coordinate_pushed(1.0, 0.0, -TWO_TO_MINUS_23));
        // A negative extent turns the axis round: lo 0, extent -2 is 0 down to -2.
        assert!(!coordinate_pushed(-1.0, 0.0, -2.0));
        assert!(!coordinate_pushed(-2.0, 0.0, -2.0));
        assert!(coordinate_pushed(1.0, 0.0, -2.0));
        assert!(coordinate_pushed(-3.0, 0.0, -2.0));
    }

    #[test]
    fn steps_round_to_f32() {
        // 1 - (-16777216) = 16777217 is no f32 and rounds to 16777216: fraction 1, inside.
        assert!(!coordinate_pushed(1.0, -16777216.0, 16777216.0));
        assert!(coordinate_pushed(2.0, -16777216.0, 16777216.0));
    }

    fn vec3(x: f32, y: f32, z: f32) -> Vec3 {
        Vec3 { x, y, z }
    }

    #[test]
    fn the_sum() {
        // Box 0 to 10 in x and y; z has extent 0 and never counts.
        let mut cell = Ynv::new_cell(5, vec3(0.0, 0.0, 0.0), vec3(10.0, 10.0, 0.0));
        assert_eq!(pushed(&cell), 0);
        // 1 + 2 + 0, and the first vertex once more for a second polygon.
        let v = vec![vec3(-1.0, 5.0, 99.0), vec3(11.0, -1.0, f32::NAN), vec3(10.0, 0.0, 0.0)];
        cell.polys.push(NavPoly::new(v.clone()));
        assert_eq!(pushed(&cell), 3);
        cell.polys.push(NavPoly::new(v[..1].to_vec()));
        assert_eq!(pushed(&cell), 4);
        // Both ends of a portal: 1 + 2.
        cell.portals.push(NavPortal {
            kind: 0,
            angle: 0,
            flags_unk: 0,
            from: vec3(5.0, 12.0, 0.0),
            to: vec3(f32::NAN, 12.0, 0.0),
            poly_from: 0,
            poly_to: 0,
            area_from: 0,
            area_to: 0,
            area_unk: 0,
        });
        assert_eq!(pushed(&cell), 7);
        // A point inside, and one that no leaf takes: 0 + 2.
        cell.points.push(NavPoint { position: vec3(1.0, 1.0, 1.0), angle: 0, kind: 0 });
        cell.points.push(NavPoint { position: vec3(-9.0, 99.0, 1.0), angle: 0, kind: 0 });
        assert_eq!(pushed(&cell), 9);
        // The extent is bb_size, whatever bb_max says.
        cell.bb_size = vec3(0.0, 0.0, 0.0);
        assert_eq!(pushed(&cell), 0);
    }
}
