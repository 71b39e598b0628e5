//! No. 7: where a walker can get to.
//!
//! Holds: `reachable`, the marks and their number; `reach`, the same in bytes of its own.
//! Called: `reachable(&words, start, &mut marks)` gives `Ok(how many are marked)` and
//! fills the first bytes of `marks`, one per polygon, with 0 and 1; bytes past the
//! polygons stay. Refused with `Err((3, place))`, `Err((42, 0))` or `Err((43, 0))`, and
//! then no byte changes.
//! Time: each marked polygon is looked at once, and all portals with it: at most
//! polygons x portals, and once over all edges.
//! Written from document 02 (and 01) alone, without a look at the implementation.
//!
//! Readings taken: "below 16383" is said of edge halves only; a portal's poly_from and
//! poly_to are 16 bits, not cut, and 16383 and more serve where the strip has that many
//! polygons (42 and 43 are the only checks beside 3: 11 isn't made). The 16-bit areas of
//! a portal are held against the whole 32-bit id, so an id from 65536 on has no portal
//! steps. "Only edges below the vertex count serve" is of the polygon stepped from.

use crate::{scan, Refusal};

pub fn reachable(words: &[u32], start: u64, marks: &mut [u8]) -> Result<u64, (u32, u64)> {
    // "Checks: 3, then 42 start is no polygon, then 43 fewer bytes than polygons."
    let cell = scan(words).map_err(|place| (3, place as u64))?;
    let polygons = cell.polys.len();
    if start >= polygons as u64 {
        return Err((42, 0));
    }
    if marks.len() < polygons {
        return Err((43, 0));
    }

    // "mark 1 each polygon to which some chain of steps leads from there, the start
    // included"
    let mut marked = vec![false; polygons];
    let mut to_look_at = vec![start as usize];
    marked[start as usize] = true;
    while let Some(here) = to_look_at.pop() {
        let mut targets: Vec<u32> = Vec::new();
        let polygon = &cell.polys[here];
        for (i, edge) in polygon.edges.iter().enumerate() {
            // "Only edges below the vertex count serve."
            if i >= polygon.vertices.len() {
                continue;
            }
            for half in [edge.a, edge.b] {
                // "whose poly, cut to 14 bits, is below 16383"
                let poly = half.poly % 16384;
                // "an edge half whose area is the cell's own id"
                if half.area_id == cell.area_id && poly < 16383 {
                    targets.push(poly);
                }
            }
        }
        for portal in &cell.portals {
            // "A portal whose two areas, 16 bits as in the strip, equal the own id is a
            // step from poly_from to poly_to."
            let own = portal.area_from as u32 == cell.area_id && portal.area_to as u32 == cell.area_id;
            if own && portal.poly_from as usize == here {
                targets.push(portal.poly_to as u32);
            }
        }
        for target in targets {
            let target = target as usize;
            // "A target beyond the last polygon leads nowhere."
            if target < polygons && !marked[target] {
                marked[target] = true;
                to_look_at.push(target);
            }
        }
    }

    // "mark 1 ..., 0 the others, and return how many are marked"; "Bytes past the
    // polygons stay."
    let mut count = 0;
    for i in 0..polygons {
        marks[i] = marked[i] as u8;
        count += marked[i] as u64;
    }
    Ok(count)
}

/// What `reachable` marks where `room` bytes are lent, a byte for each polygon.
pub fn reach(words: &[u32], start: u64, room: usize) -> Result<Vec<u8>, Refusal> {
    let mut marks = vec![0xD1; room];
    let count = reachable(words, start, &mut marks).map_err(|(number, place)| Refusal::new(number, place as usize))?;
    let polygons = scan(words).expect("it was accepted").polys.len();
    assert!(marks[polygons..].iter().all(|&mark| mark == 0xD1), "bytes past the polygons stay");
    marks.truncate(polygons);
    assert_eq!(count, marks.iter().filter(|&&mark| mark == 1).count() as u64);
    Ok(marks)
}

#[cfg(test)]
mod tests {
    use super::*;

    const NONE: (u32, u32) = (16383, 16383);

    fn cell(area: u32) -> Vec<u32> {
        let mut w = vec![0x1000_0000, 1, area];
        w.resize(14, 0);
        w
    }

    /// A polygon of so many vertices (all zero), with these edges: (area, poly) of a and b.
    fn polygon(vertices: u32, edges: &[[(u32, u32); 2]]) -> Vec<u32> {
        let mut w = vec![0x2000_0000 | vertices | (edges.len() as u32) << 12, 0, 0, 0];
        w.resize(4 + 3 * vertices as usize, 0);
        for edge in edges {
            for (area, poly) in edge {
                w.extend([*area, *poly, 0]);
            }
        }
        w
    }

    fn portal(from: u32, to: u32, area_from: u32, area_to: u32) -> Vec<u32> {
        vec![0x3000_0000, 0, 0, 0, 0, 0, 0, 0, from + 65536 * to, area_from + 65536 * area_to, 0]
    }

    fn strip(area: u32, records: &[Vec<u32>]) -> Vec<u32> {
        let mut w = cell(area);
        for r in records {
            w.extend(r);
        }
        w.push(0x5000_0000);
        w
    }

    /// The marks of the polygons, in bytes lent one too many; the last one must stay.
    fn marks(words: &[u32], start: u64, polygons: usize) -> Vec<u8> {
        let mut m = vec![7; polygons + 1];
        let count = reachable(words, start, &mut m).unwrap();
        assert_eq!(m.pop(), Some(7), "bytes past the polygons stay");
        assert_eq!(count, m.iter().map(|&b| b as u64).sum::<u64>());
        assert!(m.iter().all(|&b| b <= 1));
        m
    }

    #[test]
    fn start_alone() {
        let alone = strip(5, &[polygon(3, &[]), polygon(3, &[])]);
        assert_eq!(marks(&alone, 0, 2), [1, 0]);
        assert_eq!(marks(&alone, 1, 2), [0, 1]);
    }

    #[test]
    fn a_chain_has_one_direction() {
        // 0 -> 1 by half a, 1 -> 2 by half b, 3 -> 0.
        let w = strip(
            5,
            &[
                polygon(1, &[[(5, 1), NONE]]),
                polygon(1, &[[NONE, (5, 2)]]),
                polygon(1, &[[NONE, NONE]]),
                polygon(1, &[[(5, 0), (5, 0)]]),
            ],
        );
        assert_eq!(marks(&w, 0, 4), [1, 1, 1, 0]);
        assert_eq!(marks(&w, 1, 4), [0, 1, 1, 0]);
        assert_eq!(marks(&w, 2, 4), [0, 0, 1, 0]);
        assert_eq!(marks(&w, 3, 4), [1, 1, 1, 1]);
    }

    #[test]
    fn area_poly_and_vertex_count() {
        let to = |vertices, half| strip(5, &[polygon(vertices, &[[half, NONE]]), polygon(0, &[])]);
        assert_eq!(marks(&to(1, (5, 1)), 0, 2), [1, 1]);
        // Another area.
        assert_eq!(marks(&to(1, (6, 1)), 0, 2), [1, 0]);
        assert_eq!(marks(&to(1, (5 + 65536, 1)), 0, 2), [1, 0]);
        // "Only edges below the vertex count serve": a surplus edge doesn't.
        assert_eq!(marks(&to(0, (5, 1)), 0, 2), [1, 0]);
        // "cut to 14 bits": 16384 + 1 is 1.
        assert_eq!(marks(&to(1, (5, 16385)), 0, 2), [1, 1]);
        assert_eq!(marks(&to(1, (5, 0xFFFF_C001)), 0, 2), [1, 1]);
        // Beyond the last polygon, and 16383.
        assert_eq!(marks(&to(1, (5, 2)), 0, 2), [1, 0]);
        assert_eq!(marks(&to(1, (5, 16383)), 0, 2), [1, 0]);
        assert_eq!(marks(&to(1, (5, 32767)), 0, 2), [1, 0]);
        // The second edge of two, with one vertex and with two.
        let second = |vertices| strip(5, &[polygon(vertices, &[[NONE, NONE], [NONE, (5, 1)]]), polygon(0, &[])]);
        assert_eq!(marks(&second(1), 0, 2), [1, 0]);
        assert_eq!(marks(&second(2), 0, 2), [1, 1]);
    }

    #[test]
    fn portals() {
        let with = |area, p: Vec<u32>| strip(area, &[polygon(0, &[]), polygon(0, &[]), p]);
        assert_eq!(marks(&with(5, portal(0, 1, 5, 5)), 0, 2), [1, 1]);
        // From poly_from to poly_to, not back.
        assert_eq!(marks(&with(5, portal(0, 1, 5, 5)), 1, 2), [0, 1]);
        // Both areas must be the own one.
        assert_eq!(marks(&with(5, portal(0, 1, 5, 6)), 0, 2), [1, 0]);
        assert_eq!(marks(&with(5, portal(0, 1, 6, 5)), 0, 2), [1, 0]);
        // "16 bits as in the strip": not cut to the 14 of the pages.
        assert_eq!(marks(&with(5, portal(0, 1, 16384 + 5, 5)), 0, 2), [1, 0]);
        assert_eq!(marks(&with(16384 + 5, portal(0, 1, 16384 + 5, 16384 + 5)), 0, 2), [1, 1]);
        // An id of more than 16 bits is no portal's.
        assert_eq!(marks(&with(65536 + 5, portal(0, 1, 5, 5)), 0, 2), [1, 0]);
        // poly_to is not cut either: 16385 is beyond the last polygon; so is poly_from.
        assert_eq!(marks(&with(5, portal(0, 16385, 5, 5)), 0, 2), [1, 0]);
        assert_eq!(marks(&with(5, portal(0, 2, 5, 5)), 0, 2), [1, 0]);
        assert_eq!(marks(&with(5, portal(16384, 1, 5, 5)), 0, 2), [1, 0]);
    }

    #[test]
    fn polygon_16383_by_portal_but_by_no_edge() {
        let mut w = cell(5);
        w.extend(polygon(1, &[[(5, 16383), (5, 16382)]]));
        for _ in 1..16385 {
            w.extend(polygon(0, &[]));
        }
        let by_edge = [w.clone(), vec![0x5000_0000]].concat();
        let mut m = vec![7; 16385];
        assert_eq!(reachable(&by_edge, 0, &mut m), Ok(2));
        assert_eq!((m[16382], m[16383], m[16384]), (1, 0, 0));
        w.extend(portal(0, 16383, 5, 5));
        w.extend(portal(16383, 16384, 5, 5));
        w.push(0x5000_0000);
        assert_eq!(reachable(&w, 0, &mut m), Ok(4));
        assert_eq!((m[16382], m[16383], m[16384]), (1, 1, 1));
    }

    #[test]
    fn a_long_chain_backwards() {
        let mut w = cell(5);
        w.extend(polygon(0, &[]));
        for i in 1..16383 {
            w.extend(polygon(1, &[[(5, i - 1), NONE]]));
        }
        w.push(0x5000_0000);
        let mut m = vec![0; 16383];
        assert_eq!(reachable(&w, 16382, &mut m), Ok(16383));
        assert!(m.iter().all(|&b| b == 1));
        assert_eq!(reachable(&w, 100, &mut m), Ok(101));
        assert!((0..16383).all(|i| m[i] == (i <= 100) as u8));
    }

    #[test]
    fn refusals_in_order_and_no_byte_changed() {
        let good = strip(5, &[polygon(0, &[]), polygon(0, &[])]);
        let mut bad = good.clone();
        bad.push(0);
        let refused = |words: &[u32], start, bytes: usize| {
            let mut m = vec![7; bytes];
            let answer = reachable(words, start, &mut m).err();
            if answer.is_some() {
                assert_eq!(m, vec![7; bytes]);
            }
            answer
        };
        // 3 before 42 and 43.
        assert_eq!(refused(&bad, 2, 1), Some((3, 23)));
        assert_eq!(refused(&[], 0, 0), Some((3, 0)));
        // 42 before 43.
        assert_eq!(refused(&good, 2, 1), Some((42, 0)));
        assert_eq!(refused(&good, u64::MAX, 2), Some((42, 0)));
        assert_eq!(refused(&good, 1, 1), Some((43, 0)));
        assert_eq!(refused(&good, 1, 0), Some((43, 0)));
        assert_eq!(refused(&good, 1, 2), None);
        // No polygon at all: each start is none.
        assert_eq!(refused(&strip(5, &[]), 0, 0), Some((42, 0)));
    }
}
