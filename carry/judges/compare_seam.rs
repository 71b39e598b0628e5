//! No. 13: two cells tell of one seam. Its checks as before No. 11: 3 for A; 46 for B; 47.
//!
//! Holds: `compare_seam`, the halves of A met and unmet in B.
//! Called: `compare_seam(&a, &b)` gives `Ok((met, unmet, first polygon of A with an unmet
//! half or None))`, or `Err((3, place in A))`, `Err((46, place in B))`, `Err((47, 0))`.
//! After No. 11 both strips may be of kind 6: make them kind 2 by `numbered::as_kind_2`
//! first, as `numbered::compare_seam_either` does; its 3 and 44 stand where `scan` stands
//! below.
//! Time: each half of A looks through one polygon of B: at most halves of A x halves of
//! B's greatest polygon.
//! Written from document 02 (and 01) alone, without a look at the implementation.
//!
//! Readings taken: "the polygon of that number in B": the number is the half's poly cut to
//! 14 bits; beyond B's last polygon the half is unmet. "such a half": below B's polygon's
//! vertex count, its cut poly not 16383, its area A's id, its cut poly A's polygon number.
//! "A's polygon number" is the whole number and isn't cut, hence "Polygons of A from 16383
//! upwards can't be met". Halves a and b count one by one, met by either half in B. The
//! places of 46 are in B, from 0.

use rage::ynv::{NavEdgeEnd, NavPoly};
use strips::scan;

/// "it lies below the vertex count, its poly cut to 14 bits isn't 16383, and its area is"
/// that id: such halves of a polygon, in order.
fn halves_that_count(polygon: &NavPoly, id: u32) -> Vec<NavEdgeEnd> {
    let mut halves = Vec::new();
    for (i, edge) in polygon.edges.iter().enumerate() {
        for half in [edge.a, edge.b] {
            // "below the vertex count", "cut to 14 bits isn't 16383", "its area is B's id"
            if i < polygon.vertices.len() && half.poly % 16384 != 16383 && half.area_id == id {
                halves.push(half);
            }
        }
    }
    halves
}

#[allow(clippy::type_complexity)]
pub fn compare_seam(a: &[u32], b: &[u32]) -> Result<(u64, u64, Option<u64>), (u32, u64)> {
    // "Checks: 3 and 44 for A": No. 11's 44 for A comes directly after this 3, before B.
    let a = scan(a).map_err(|place| (3, place as u64))?;
    // "46 B is badly formed or wrongly numbered (place: as 3 or 44 would give in B)": No.
    // 11's 44 in B comes directly after this one, and is 46 too, with 44's place.
    let b = scan(b).map_err(|place| (46, place as u64))?;
    // "47 the two ids are equal"
    if a.area_id == b.area_id {
        return Err((47, 0));
    }

    let mut met = 0;
    let mut unmet = 0;
    let mut first_unmet = None;
    for (number, polygon) in a.polys.iter().enumerate() {
        // "A half in A counts when ... its area is B's id."
        for half in halves_that_count(polygon, b.area_id) {
            let mut is_met = false;
            // "the polygon of that number in B"
            if let Some(other) = b.polys.get((half.poly % 16384) as usize) {
                // "has such a half with A's id and A's polygon number"
                for back in halves_that_count(other, a.area_id) {
                    if (back.poly % 16384) as usize == number {
                        is_met = true;
                    }
                }
            }
            if is_met {
                met += 1;
            } else {
                unmet += 1;
                // "the first polygon of A with an unmet half, or none"
                if first_unmet.is_none() {
                    first_unmet = Some(number as u64);
                }
            }
        }
    }
    Ok((met, unmet, first_unmet))
}

#[cfg(test)]
mod tests {
    use super::*;

    const NONE: (u32, u32) = (16383, 16383);

    /// A polygon of so many vertices (all zero), with these edges: (area, poly) of a and b.
    fn polygon(vertices: u32, edges: &[[(u32, u32); 2]]) -> Vec<u32> {
        let mut w = vec![0x2000_0000 | vertices | (edges.len() as u32) << 12, 0, 0, 0];
        w.resize(4 + 3 * vertices as usize, 0);
        for edge in edges {
            for (area, poly) in edge {
                w.extend([*area, *poly, 0]);
            }
        }
        w
    }

    fn strip(area: u32, polygons: &[Vec<u32>]) -> Vec<u32> {
        let mut w = vec![0x1000_0000, 1, area];
        w.resize(14, 0);
        for p in polygons {
            w.extend(p);
        }
        w.push(0x5000_0000);
        w
    }

    /// A one-vertex polygon with one edge of these halves.
    fn one(a: (u32, u32), b: (u32, u32)) -> Vec<u32> {
        polygon(1, &[[a, b]])
    }

    #[test]
    fn met_and_unmet() {
        // A is 5, B is 6. A's 0 tells of B's 1, which tells of A's 0 in its half b.
        let a = strip(5, &[one((6, 1), NONE)]);
        let b = strip(6, &[one(NONE, NONE), one(NONE, (5, 0))]);
        assert_eq!(compare_seam(&a, &b), Ok((1, 0, None)));
        assert_eq!(compare_seam(&b, &a), Ok((1, 0, None)));
        // Both halves count, both are met by one half.
        let both = strip(5, &[one((6, 1), (6, 1))]);
        assert_eq!(compare_seam(&both, &b), Ok((2, 0, None)));
        // One met, one to a polygon that tells nothing, one beyond B's last.
        let three = strip(5, &[polygon(2, &[[(6, 1), (6, 0)], [(6, 2), NONE]])]);
        assert_eq!(compare_seam(&three, &b), Ok((1, 2, Some(0))));
        // B's polygon names another polygon of A: A's 1 is the first unmet.
        let two = strip(5, &[one((6, 1), NONE), one((6, 1), NONE), one((6, 1), NONE)]);
        assert_eq!(compare_seam(&two, &b), Ok((1, 2, Some(1))));
        // Nothing counts: another area, no polygons.
        assert_eq!(compare_seam(&strip(5, &[one((7, 1), (5, 1))]), &b), Ok((0, 0, None)));
        assert_eq!(compare_seam(&strip(5, &[]), &strip(6, &[])), Ok((0, 0, None)));
        // No polygon in B.
        assert_eq!(compare_seam(&a, &strip(6, &[])), Ok((0, 1, Some(0))));
        // Not only neighbours of the grid: any two different ids.
        let far = strip(u32::MAX, &[one((20000, 0), NONE)]);
        assert_eq!(compare_seam(&far, &strip(20000, &[one((u32::MAX, 0), NONE)])), Ok((1, 0, None)));
    }

    #[test]
    fn what_counts_in_a() {
        let b = strip(6, &[one((5, 0), NONE)]);
        let a = |vertices, poly| compare_seam(&strip(5, &[polygon(vertices, &[[(6, poly), NONE]])]), &b);
        assert_eq!(a(1, 0), Ok((1, 0, None)));
        // "below the vertex count"
        assert_eq!(a(0, 0), Ok((0, 0, None)));
        // "its poly cut to 14 bits isn't 16383"
        assert_eq!(a(1, 16383), Ok((0, 0, None)));
        assert_eq!(a(1, 32767), Ok((0, 0, None)));
        assert_eq!(a(1, 16384), Ok((1, 0, None))); // cut: 0
        assert_eq!(a(1, 16382), Ok((0, 1, Some(0))));
    }

    #[test]
    fn such_a_half_in_b() {
        let a = strip(5, &[one((6, 0), NONE)]);
        let b = |vertices, half| compare_seam(&a, &strip(6, &[polygon(vertices, &[[half, NONE]])]));
        assert_eq!(b(1, (5, 0)), Ok((1, 0, None)));
        assert_eq!(b(0, (5, 0)), Ok((0, 1, Some(0)))); // a surplus edge
        assert_eq!(b(1, (5, 16384)), Ok((1, 0, None))); // cut: 0
        assert_eq!(b(1, (5, 1)), Ok((0, 1, Some(0))));
        assert_eq!(b(1, (7, 0)), Ok((0, 1, Some(0))));
        assert_eq!(b(1, (5, 16383)), Ok((0, 1, Some(0))));
    }

    #[test]
    fn polygons_of_a_from_16383_upwards_cannot_be_met() {
        // A's polygons 16382 to 16384 tell of B's 0, and B's 0 of each of them, cut or not.
        let mut polygons = vec![polygon(0, &[]); 16382];
        for _ in 0..3 {
            polygons.push(one((6, 0), NONE));
        }
        let a = strip(5, &polygons);
        let b = strip(6, &[polygon(2, &[[(5, 16382), (5, 16383)], [(5, 16384), (5, 0)]])]);
        assert_eq!(compare_seam(&a, &b), Ok((1, 2, Some(16383))));
        // The other way round, each half of B finds its polygon of A, but only where the
        // cut poly is no more than 16382: 16382 is met; 16383 doesn't count; 16384 and 0
        // are polygon 0 of A, which tells nothing.
        assert_eq!(compare_seam(&b, &a), Ok((1, 2, Some(0))));
    }

    #[test]
    fn refusals_in_order() {
        let good5 = strip(5, &[]);
        let good6 = strip(6, &[]);
        let bad = |w: &[u32]| [w, &[0][..]].concat();
        assert_eq!(compare_seam(&bad(&good5), &good6), Err((3, 15)));
        assert_eq!(compare_seam(&bad(&good5), &[]), Err((3, 15)));
        assert_eq!(compare_seam(&good5, &bad(&good6)), Err((46, 15)));
        assert_eq!(compare_seam(&good5, &[]), Err((46, 0)));
        assert_eq!(compare_seam(&good5, &good6[..14]), Err((46, 14)));
        // 46 before 47.
        assert_eq!(compare_seam(&good5, &bad(&good5)), Err((46, 15)));
        assert_eq!(compare_seam(&good5, &good5), Err((47, 0)));
        assert_eq!(compare_seam(&good5, &good6), Ok((0, 0, None)));
    }
}
