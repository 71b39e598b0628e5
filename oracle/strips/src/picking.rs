//! The polygon under the cursor, written from document 02 (No. 1) and document 01 (shorts,
//! refusals), since the Rust has none; and the spot of a position.

use rage::math::Vec3;
use rage::ynv::Ynv;

use crate::strip::checked;
use crate::{short, Refusal};

/// The shorts of a position, by the cell's box.
fn shorts(cell: &Ynv, x: f32, y: f32) -> (u16, u16) {
    (short(x, cell.bb_min.x, cell.bb_size.x), short(y, cell.bb_min.y, cell.bb_size.y))
}

/// The corners of each polygon as shorts, by the cell's box.
pub fn outlines(cell: &Ynv) -> Vec<Vec<(u16, u16)>> {
    let outline = |vertices: &[Vec3]| vertices.iter().map(|v| shorts(cell, v.x, v.y)).collect();
    cell.polys.iter().map(|poly| outline(&poly.vertices)).collect()
}

/// Whether the side from (x1, y1) to (x2, y2) is crossed from the spot (x, y). At height y the
/// side stands at x1 + (y - y1) (x2 - x1) / (y2 - y1); the spot must be strictly left of that.
fn crossed((x1, y1): (i64, i64), (x2, y2): (i64, i64), (x, y): (i64, i64)) -> bool {
    if (y1 <= y) == (y2 <= y) {
        return false;
    }
    // Both sides of x - x1 < (y - y1) (x2 - x1) / (y2 - y1), times y2 - y1, which isn't 0.
    let (spot, side) = ((x - x1) * (y2 - y1), (y - y1) * (x2 - x1));
    if y2 > y1 {
        spot < side
    } else {
        spot > side
    }
}

/// Whether a polygon with these corners contains the spot.
fn contains(corners: &[(u16, u16)], spot: (u16, u16)) -> bool {
    if corners.len() < 3 {
        return false;
    }
    let whole = |(x, y): (u16, u16)| (i64::from(x), i64::from(y));
    let mut crossings = 0;
    for (n, &from) in corners.iter().enumerate() {
        let to = corners[(n + 1) % corners.len()];
        if crossed(whole(from), whole(to), whole(spot)) {
            crossings += 1;
        }
    }
    crossings % 2 == 1
}

/// The lowest-numbered polygon that contains the spot, if one does.
pub fn pick(strip: &[u32], x: u16, y: u16) -> Result<Option<usize>, Refusal> {
    let cell = checked(strip)?;
    Ok(outlines(&cell).iter().position(|corners| contains(corners, (x, y))))
}

/// The spot of a position: its two shorts.
pub fn spot(strip: &[u32], x: f32, y: f32) -> Result<(u16, u16), Refusal> {
    let cell = checked(strip)?;
    Ok(shorts(&cell, x, y))
}

#[cfg(test)]
mod tests {
    use super::*;

    const TRIANGLE: [(u16, u16); 3] = [(0, 0), (65535, 0), (0, 65535)];
    const RECTANGLE: [(u16, u16); 4] = [(10, 20), (30, 20), (30, 40), (10, 40)];

    #[test]
    fn corners_and_sides() {
        let inside = [(0, 0), (0, 65534), (65534, 0), (32767, 32767)];
        let outside = [(0, 65535), (65535, 0), (32768, 32767), (65535, 65535)];
        assert!(inside.iter().all(|&spot| contains(&TRIANGLE, spot)));
        assert!(!outside.iter().any(|&spot| contains(&TRIANGLE, spot)));
        // Of a rectangle the low and left sides belong to it, either way round.
        let mut turned = RECTANGLE;
        turned.reverse();
        for corners in [RECTANGLE, turned] {
            for (spot, within) in [((10, 20), true), ((29, 39), true), ((30, 20), false), ((10, 40), false)] {
                assert_eq!(contains(&corners, spot), within, "{spot:?}");
            }
            for (spot, within) in [((20, 20), true), ((10, 30), true), ((30, 30), false), ((20, 40), false)] {
                assert_eq!(contains(&corners, spot), within, "{spot:?}");
            }
        }
    }

    #[test]
    fn few_vertices() {
        for count in 0..3 {
            assert!(!contains(&TRIANGLE[..count], (0, 0)));
        }
    }
}
