//! The points that saving stores and those that it drops, written from document 02 (No. 2)
//! and document 01 (Sectors), since the Rust has no such counts.

use rage::math::Vec3;
use rage::ynv::Ynv;

use crate::write::leaf_boxes;

/// How many points of a cell are stored and how many dropped.
#[derive(Debug, Clone, Copy, PartialEq, Eq, Default)]
pub struct PointCounts {
    pub stored: usize,
    pub dropped: usize,
}

/// Whether a leaf contains a position: in x and y, borders included.
fn contains((min, max): &(Vec3, Vec3), at: Vec3) -> bool {
    min.x <= at.x && at.x <= max.x && min.y <= at.y && at.y <= max.y
}

/// How many leaves contain each point.
pub fn leaves_of_points(cell: &Ynv) -> Vec<usize> {
    let leaves = leaf_boxes(cell);
    let containing = |at: Vec3| leaves.iter().filter(|leaf| contains(leaf, at)).count();
    cell.points.iter().map(|point| containing(point.position)).collect()
}

/// Stored is the sum over the leaves, in writing order, of the points that are left and lie
/// in the leaf. Dropped is counted apart from it, point by point: those that lie in no leaf.
/// So it says something that the two make the points of the cell.
pub fn point_counts(cell: &Ynv) -> PointCounts {
    let mut left: Vec<Vec3> = cell.points.iter().map(|point| point.position).collect();
    let mut stored = 0;
    for leaf in leaf_boxes(cell) {
        let before = left.len();
        left.retain(|&at| !contains(&leaf, at));
        stored += before - left.len();
    }
    let dropped = leaves_of_points(cell).into_iter().filter(|&leaves| leaves == 0).count();
    PointCounts { stored, dropped }
}

#[cfg(test)]
mod tests {
    use super::*;
    use rage::ynv::NavPoint;

    fn counts(content_flags: u32, bb_min: f32, bb_max: f32, points: &[(f32, f32)]) -> (usize, usize) {
        let same = |side: f32| Vec3 { x: side, y: side, z: side };
        let point = |&(x, y): &(f32, f32)| NavPoint { position: Vec3 { x, y, z: f32::NAN }, angle: 0, kind: 0 };
        let cell = Ynv {
            content_flags,
            area_id: 0,
            bb_min: same(bb_min),
            bb_max: same(bb_max),
            bb_size: same(1.0),
            version_unk2: 0,
            vft: 0,
            polys: Vec::new(),
            portals: Vec::new(),
            points: points.iter().map(point).collect(),
        };
        let PointCounts { stored, dropped } = point_counts(&cell);
        (stored, dropped)
    }

    #[test]
    fn by_hand() {
        let borders = [(75.0, 75.0), (37.5, 112.5), (75.0, 1.0), (0.0, 150.0), (150.0, 150.0), (-0.0, 0.0)];
        let outside = [(-0.001, 75.0), (75.0, 150.001), (f32::NAN, 75.0), (75.0, f32::NAN), (f32::INFINITY, 0.0)];
        for content_flags in [1, 4] {
            assert_eq!(counts(content_flags, 0.0, 150.0, &[]), (0, 0));
            assert_eq!(counts(content_flags, 0.0, 150.0, &borders), (6, 0));
            assert_eq!(counts(content_flags, 0.0, 150.0, &outside), (0, 5));
            assert_eq!(counts(content_flags, 0.0, 150.0, &[borders.as_slice(), &outside].concat()), (6, 5));
            // An inverted box of such a size contains nothing, one without extent its only spot.
            assert_eq!(counts(content_flags, 150.0, 0.0, &borders), (0, 6));
            assert_eq!(counts(content_flags, 75.0, 75.0, &borders), (1, 5));
        }
        // Inverted by one float, a part's middle can be its end: there such a leaf has a spot.
        let above = f32::from_bits(1f32.to_bits() + 1);
        assert_eq!(counts(1, above, 1.0, &[(1.0, 1.0), (above, above)]), (1, 1));
        assert_eq!(counts(4, above, 1.0, &[(1.0, 1.0), (above, above)]), (0, 2));
        // Where min + max overflows, the lower leaves go on to infinity; the root alone doesn't.
        let far = [(3.1e38, 3.1e38), (3.3e38, 3.1e38), (f32::INFINITY, 3.1e38), (2.9e38, 3.1e38)];
        assert_eq!(counts(1, 3e38, 3.2e38, &far), (3, 1));
        assert_eq!(counts(4, 3e38, 3.2e38, &far), (1, 3));
    }
}
