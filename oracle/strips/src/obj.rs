//! The drawing for a modelling program, Wavefront OBJ text, written from document 02 (No. 3)
//! and document 01 (shorts, refusals), since the Rust has none.

use std::fmt::Write;

use rage::ynv::Ynv;

use crate::strip::checked;
use crate::{short, Refusal};

/// The text of a cell: a line for every vertex of every polygon, in order, then a line for
/// every polygon with its vertices' numbers, counted from 1 through the whole text.
fn text(cell: &Ynv) -> String {
    let (lo, extent) = (cell.bb_min, cell.bb_size);
    let mut text = String::new();
    for v in cell.polys.iter().flat_map(|poly| &poly.vertices) {
        let (x, y, z) = (short(v.x, lo.x, extent.x), short(v.y, lo.y, extent.y), short(v.z, lo.z, extent.z));
        writeln!(text, "v {x} {y} {z}").unwrap();
    }
    let mut numbers = 1u64..;
    for poly in &cell.polys {
        text.push('f');
        for number in numbers.by_ref().take(poly.vertices.len()) {
            write!(text, " {number}").unwrap();
        }
        text.push('\n');
    }
    text
}

/// The text of a strip, where `room` bytes are lent for it: 3, 10, then 41 at the first polygon
/// with fewer than 3 vertices, then 2 against the text's length.
pub fn obj(strip: &[u32], room: usize) -> Result<Vec<u8>, Refusal> {
    let cell = checked(strip)?;
    if let Some(number) = cell.polys.iter().position(|poly| poly.vertices.len() < 3) {
        return Err(Refusal::new(41, number));
    }
    let text = text(&cell);
    if text.len() > room {
        return Err(Refusal::new(2, 0));
    }
    Ok(text.into_bytes())
}

#[cfg(test)]
mod tests {
    use super::*;
    use crate::encode;
    use rage::math::Vec3;
    use rage::ynv::{NavEdge, NavPoint, NavPoly, NavPortal};

    /// A vertex, in shorts.
    type Corner = (u16, u16, u16);

    const TRIANGLE: [Corner; 3] = [(0, 0, 0), (65535, 0, 0), (0, 65535, 0)];
    const TRIANGLE_TEXT: &str = "v 0 0 0\nv 65535 0 0\nv 0 65535 0\nf 1 2 3\n";

    fn same(side: f32) -> Vec3 {
        Vec3 { x: side, y: side, z: side }
    }

    fn polygon(corners: &[Corner]) -> NavPoly {
        let position = |&(x, y, z): &Corner| Vec3 { x: x.into(), y: y.into(), z: z.into() };
        NavPoly {
            vertices: corners.iter().map(position).collect(),
            edges: Vec::new(),
            flags0: 0,
            flags1: 0,
            flags2: 0,
            portal_links: Vec::new(),
        }
    }

    /// Polygons in a box that has a short to the unit on each axis.
    fn cell(polys: Vec<NavPoly>) -> Ynv {
        Ynv {
            content_flags: 1,
            area_id: 4040,
            bb_min: same(0.0),
            bb_max: same(65535.0),
            bb_size: same(65535.0),
            version_unk2: 0,
            vft: 0,
            polys,
            portals: Vec::new(),
            points: Vec::new(),
        }
    }

    fn drawn(cell: &Ynv) -> String {
        String::from_utf8(obj(&encode(cell), usize::MAX).unwrap()).unwrap()
    }

    fn refused(cell: &Ynv, room: usize) -> Option<(u32, usize)> {
        obj(&encode(cell), room).err().map(|refusal| (refusal.number, refusal.place))
    }

    #[test]
    fn document_02() {
        assert_eq!(drawn(&cell(vec![polygon(&TRIANGLE)])), TRIANGLE_TEXT);
    }

    #[test]
    fn by_hand() {
        assert_eq!(drawn(&cell(Vec::new())), "");
        assert_eq!(obj(&encode(&cell(Vec::new())), 0), Ok(Vec::new()));
        // All vertices come before the first face; equal ones are printed again, and numbers go on.
        let square = [(1, 2, 3), (10, 20, 30), (999, 1000, 9), (99, 100, 10000)];
        let two = cell(vec![polygon(&square), polygon(&TRIANGLE), polygon(&square[..3])]);
        let text = "v 1 2 3\nv 10 20 30\nv 999 1000 9\nv 99 100 10000\nv 0 0 0\nv 65535 0 0\nv 0 65535 0\n\
                    v 1 2 3\nv 10 20 30\nv 999 1000 9\nf 1 2 3 4\nf 5 6 7\nf 8 9 10\n";
        assert_eq!(drawn(&two), text);
    }

    /// Edges, links, portals and points are left behind.
    #[test]
    fn left_behind() {
        let mut full = cell(vec![polygon(&TRIANGLE)]);
        full.polys[0].edges = vec![NavEdge::NONE; 5];
        full.polys[0].portal_links = vec![7; 15];
        full.points = vec![NavPoint { position: same(5.0), angle: 1, kind: 2 }];
        full.portals = vec![NavPortal {
            kind: 1,
            angle: 2,
            flags_unk: 3,
            from: same(1.0),
            to: same(2.0),
            poly_from: 0,
            poly_to: 0,
            area_from: 0,
            area_to: 0,
            area_unk: 0,
        }];
        assert_eq!(drawn(&full), TRIANGLE_TEXT);
    }

    /// Each axis goes by its own side of the box: P1 and P2 of document 01, and what lies outside.
    #[test]
    fn by_the_box() {
        let mut other = cell(vec![polygon(&TRIANGLE)]);
        (other.bb_min, other.bb_size) = (Vec3 { x: 0.0, y: -100.0, z: 4.0 }, Vec3 { x: 2.0, y: -50.0, z: 1e-7 });
        other.polys[0].vertices =
            vec![Vec3 { x: 1.0, y: -150.0, z: 9.0 }, Vec3 { x: f32::NAN, y: -125.0, z: 4.0 }, same(1e30)];
        assert_eq!(drawn(&other), "v 32768 65535 0\nv 0 32768 0\nv 65535 0 0\nf 1 2 3\n");
    }

    #[test]
    fn checks_in_order() {
        let few = |count: usize| cell(vec![polygon(&TRIANGLE), polygon(&TRIANGLE[..count]), polygon(&[])]);
        for count in 0..3 {
            // 41 before 2, whatever is lent.
            assert_eq!(refused(&few(count), 0), Some((41, 1)));
            assert_eq!(refused(&few(count), 1000), Some((41, 1)));
        }
        assert_eq!(refused(&few(3), 0), Some((41, 2)));
        let mut odd = few(0);
        odd.bb_max.z = f32::INFINITY;
        assert_eq!(refused(&odd, 0), Some((10, 0)));
        let strip = encode(&odd);
        assert_eq!(obj(&strip[..strip.len() - 1], 0), Err(Refusal::new(3, strip.len() - 1)));

        let triangle = cell(vec![polygon(&TRIANGLE)]);
        assert_eq!(refused(&triangle, TRIANGLE_TEXT.len() - 1), Some((2, 0)));
        assert_eq!(refused(&triangle, TRIANGLE_TEXT.len()), None);
    }

    /// More vertices and links than saving takes, and numbers of more digits.
    #[test]
    fn beyond_saving() {
        for count in [2047, 2048, 4095] {
            let mut large = cell(vec![polygon(&vec![(7, 8, 9); count]); 3]);
            large.polys[1].portal_links = vec![1; 8];
            let text = drawn(&large);
            let lines: Vec<&str> = text.lines().collect();
            assert_eq!(lines.len(), 3 * count + 3);
            assert!(lines[..3 * count].iter().all(|line| *line == "v 7 8 9"));
            let numbers = lines[3 * count..].iter().flat_map(|line| line[2..].split(' ')).map(str::to_string);
            assert!(numbers.eq((1..=3 * count).map(|number| number.to_string())));
        }
    }
}
