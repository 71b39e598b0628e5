//! The seam count after No. 5 and before No. 9, since the Rust has none.
//!
//! Holds: `touch`, No. 5's sentence on two areas; `seams`, document 01's seam count with
//! that sentence in the place of "differs from the cell's by 1 or 100".
//! Written from documents 01 and 02 alone, by somebody who had not seen the implementation.
//!
//! Readings taken: none open. (The "row of a hundred" of an id is the id divided by 100,
//! rounded down; a poly of 16383 is not looked at before No. 9.)

use crate::{scan, Refusal};

/// "two areas below 10000 touch when their ids differ by 100, or differ by 1 within the
/// same row of a hundred; an area of 10000 or more touches none."
fn touch(a: u32, b: u32) -> bool {
    // "an area of 10000 or more touches none"
    if a >= 10000 || b >= 10000 {
        return false;
    }
    let differ = a.abs_diff(b);
    // "differ by 100, or differ by 1 within the same row of a hundred"
    differ == 100 || (differ == 1 && a / 100 == b / 100)
}

/// Document 01: "halves of all its edges, surplus ones too, whose area" touches the
/// cell's; "it refuses with 3 only".
pub fn seams(words: &[u32]) -> Result<u64, Refusal> {
    let cell = scan(words).map_err(|place| Refusal::new(3, place))?;
    let mut count = 0;
    for polygon in &cell.polys {
        // "all its edges, surplus ones too": the vertex count is not asked.
        for edge in &polygon.edges {
            for half in [edge.a, edge.b] {
                if touch(cell.area_id, half.area_id) {
                    count += 1;
                }
            }
        }
    }
    Ok(count)
}

#[cfg(test)]
mod tests {
    use super::*;

    /// A cell record of this area, without polygons and without its end.
    fn cell(area: u32) -> Vec<u32> {
        let mut w = vec![0x1000_0000, 1, area];
        w.resize(14, 0);
        w
    }

    /// A polygon of so many vertices (all zero), with these edges: (area, poly) of a and b.
    fn polygon(vertices: u32, edges: &[[(u32, u32); 2]]) -> Vec<u32> {
        let mut w = vec![0x2000_0000 | vertices | (edges.len() as u32) << 12, 0, 0, 0];
        w.resize(4 + 3 * vertices as usize, 0);
        for edge in edges {
            for (area, poly) in edge {
                w.extend([*area, *poly, 0]);
            }
        }
        w
    }

    fn strip(area: u32, polygons: &[Vec<u32>]) -> Vec<u32> {
        let mut w = cell(area);
        for p in polygons {
            w.extend(p);
        }
        w.push(0x5000_0000);
        w
    }

    #[test]
    fn the_sentence() {
        // "An author in cell 99 saw seams counted towards cell 100"
        assert!(!touch(99, 100));
        assert!(!touch(100, 99));
        assert!(touch(98, 99));
        assert!(touch(99, 98));
        assert!(touch(100, 101));
        assert!(touch(0, 1));
        // By 100: the row above and below, also from the east edge.
        assert!(touch(99, 199));
        assert!(touch(199, 99));
        assert!(touch(0, 100));
        assert!(touch(9899, 9999));
        assert!(touch(9998, 9999));
        // Neither.
        assert!(!touch(5, 5));
        assert!(!touch(5, 7));
        assert!(!touch(5, 104));
        assert!(!touch(5, 106));
        assert!(!touch(5, 205));
        // "an area of 10000 or more touches none"
        assert!(!touch(9999, 10000));
        assert!(!touch(10000, 9999));
        assert!(!touch(9900, 10000));
        assert!(!touch(9950, 10050));
        assert!(!touch(10000, 10001));
        assert!(!touch(10000, 10100));
        assert!(!touch(16383, 16384));
        // No wrapping: 0 and 4294967295, 4294967196.
        assert!(!touch(0, u32::MAX));
        assert!(!touch(0, 4294967196));
        assert!(!touch(u32::MAX, u32::MAX - 1));
    }

    #[test]
    fn touch_is_the_same_from_both_sides_and_every_cell_has_its_two_to_four() {
        for a in 0..10000 {
            let (x, y) = (a % 100, a / 100);
            let west = (x > 0) as u32;
            let east = (x < 99) as u32;
            let south = (y > 0) as u32;
            let north = (y < 99) as u32;
            let mut found = 0;
            for b in 0..10200 {
                assert_eq!(touch(a, b), touch(b, a));
                found += touch(a, b) as u32;
            }
            assert_eq!(found, west + east + south + north, "{a}");
        }
    }

    #[test]
    fn counts() {
        assert_eq!(seams(&strip(99, &[])), Ok(0));
        // Cell 99: 98 and 199 count, 100 and 99 and 16383 do not.
        let p = polygon(3, &[[(98, 0), (100, 0)], [(199, 0), (99, 0)], [(16383, 16383), (16383, 16383)]]);
        assert_eq!(seams(&strip(99, &[p.clone()])), Ok(2));
        assert_eq!(seams(&strip(99, &[p.clone(), p.clone()])), Ok(4));
        // From cell 100, of 98, 100, 199, 99: none (99 lies in another row).
        assert_eq!(seams(&strip(100, &[p.clone()])), Ok(0));
        // From 10000: none at all, though 9999 differs by 1.
        assert_eq!(seams(&strip(10000, &[polygon(0, &[[(9999, 0), (9900, 0)], [(10001, 0), (10100, 0)]])])), Ok(0));
        // Surplus edges count, and before No. 9 a poly of 16383 too.
        assert_eq!(seams(&strip(5, &[polygon(0, &[[(4, 16383), (6, 16383)]])])), Ok(2));
        // Fewer edges than vertices.
        assert_eq!(seams(&strip(5, &[polygon(3, &[[(105, 0), (105, 0)]])])), Ok(2));
    }

    #[test]
    fn refuses_with_3_only() {
        assert_eq!(seams(&[]), Err(Refusal::new(3, 0)));
        assert_eq!(seams(&cell(5)), Err(Refusal::new(3, 14)));
        let mut more = strip(5, &[]);
        more.push(0);
        assert_eq!(seams(&more), Err(Refusal::new(3, 15)));
        let p = polygon(0, &[[(4, 0), (6, 0)]]);
        // A polygon cut short: the strip's length.
        let cut = [cell(5), p[..9].to_vec()].concat();
        assert_eq!(seams(&cut), Err(Refusal::new(3, 23)));
        // An unnamed bit in its last word (unk3 and unk2 are 24 bits): its first word.
        let mut bad = p.clone();
        bad[9] = 0x0100_0000;
        assert_eq!(seams(&strip(5, &[p, bad])), Err(Refusal::new(3, 24)));
        // A box that is not finite is no matter here.
        let mut nan = strip(5, &[]);
        nan[5] = 0x7FC0_0000;
        assert_eq!(seams(&nan), Ok(0));
    }

    /// The column and the row of an area. An area of 10000 or more is no cell of the grid.
    fn cell_of(area: u32) -> Option<(i32, i32)> {
        let (row, column) = (area / 100, area % 100);
        (row < 100).then_some((column as i32, row as i32))
    }

    /// Whether one step goes from cell to cell: to the next column of the same row, or to the
    /// next row of the same column.
    fn side_by_side(one: u32, other: u32) -> bool {
        let (Some((x, y)), Some((u, v))) = (cell_of(one), cell_of(other)) else {
            return false;
        };
        matches!((u - x, v - y), (1 | -1, 0) | (0, 1 | -1))
    }

    /// All pairs up to a row behind the grid: by document 02's words ("two areas below 10000
    /// touch when their ids differ by 100, or differ by 1 within the same row of a hundred"), and
    /// by columns and rows.
    #[test]
    fn as_document_02_says_and_as_the_grid_lies() {
        for one in 0..10_100_u32 {
            for other in 0..10_100_u32 {
                let apart = one.abs_diff(other);
                let said = apart == 100 || apart == 1 && one / 100 == other / 100;
                let below = one < 10_000 && other < 10_000;
                assert_eq!(touch(one, other), below && said, "{one} and {other}");
                assert_eq!(touch(one, other), side_by_side(one, other), "{one} and {other}");
            }
        }
    }

    /// "An area of 10000 or more touches none", however its id differs.
    #[test]
    fn nothing_from_10000_on() {
        for one in [10_000, 10_001, 10_099, 10_100, 16_282, 16_383, 16_384, 1 << 31, u32::MAX - 99, u32::MAX] {
            for apart in [0, 1, 99, 100, 101, 10_000] {
                for other in [one.wrapping_add(apart), one.wrapping_sub(apart)] {
                    assert!(!touch(one, other) && !touch(other, one), "{one} and {other}");
                }
            }
        }
    }
}
