//! Strip words to cells and back. Floats stand as their bits.

use rage::math::Vec3;
use rage::ynv::{NavEdge, NavEdgeEnd, NavPoint, NavPoly, NavPortal, Ynv};

use crate::Refusal;

const CELL: u32 = 1;
const POLYGON: u32 = 2;
const PORTAL: u32 = 3;
const POINT: u32 = 4;
const END: u32 = 5;

/// How many records of each kind a strip holds.
#[derive(Debug, Clone, Copy, PartialEq, Eq, Default)]
pub struct Counts {
    pub polys: usize,
    pub portals: usize,
    pub points: usize,
}

pub fn counts(cell: &Ynv) -> Counts {
    Counts { polys: cell.polys.len(), portals: cell.portals.len(), points: cell.points.len() }
}

/// The words that follow a record's first word.
fn follow_up(first: u32) -> usize {
    match first >> 28 {
        CELL => 13,
        POLYGON => {
            let (vertices, edges, links) = (first & 0xFFF, first >> 12 & 0xFFF, first >> 24 & 0xF);
            3 + links as usize + 3 * vertices as usize + 6 * edges as usize
        }
        PORTAL => 10,
        POINT => 3,
        _ => 0,
    }
}

/// The bits of a first word that document 01 names.
fn named_bits(kind: u32) -> u32 {
    match kind {
        POLYGON => 0xFFFF_FFFF,
        PORTAL | POINT => 0xF000_FFFF,
        _ => 0xF000_0000,
    }
}

/// The words of one record, taken in turn; `None` for a word with an unnamed bit set.
struct Words<'a>(&'a [u32]);

impl Words<'_> {
    fn next(&mut self) -> u32 {
        let w = self.0[0];
        self.0 = &self.0[1..];
        w
    }

    fn bits(&mut self, width: u32) -> Option<u32> {
        let w = self.next();
        (w >> width == 0).then_some(w)
    }

    fn vec3(&mut self) -> Vec3 {
        let mut axis = || f32::from_bits(self.next());
        Vec3 { x: axis(), y: axis(), z: axis() }
    }

    fn edge_end(&mut self) -> Option<NavEdgeEnd> {
        let (area_id, poly) = (self.next(), self.next());
        let unk = self.bits(24)?;
        Some(NavEdgeEnd { area_id, poly, unk2: (unk >> 16) as u8, unk3: unk as u16 })
    }
}

fn polygon(first: u32, w: &mut Words<'_>) -> Option<NavPoly> {
    let flags0 = w.bits(16)? as u16;
    let (flags1, flags2) = (w.next(), w.next());
    let portal_links = (0..first >> 24 & 0xF).map(|_| w.bits(16).map(|l| l as u16)).collect::<Option<Vec<u16>>>()?;
    let vertices = (0..first & 0xFFF).map(|_| w.vec3()).collect();
    let mut edges = Vec::new();
    for _ in 0..first >> 12 & 0xFFF {
        edges.push(NavEdge { a: w.edge_end()?, b: w.edge_end()? });
    }
    Some(NavPoly { vertices, edges, flags0, flags1, flags2, portal_links })
}

fn portal(first: u32, w: &mut Words<'_>) -> Option<NavPortal> {
    let flags_unk = w.bits(16)? as u16;
    let (from, to) = (w.vec3(), w.vec3());
    let (polys, areas) = (w.next(), w.next());
    let area_unk = w.bits(8)? as u8;
    Some(NavPortal {
        kind: first as u8,
        angle: (first >> 8) as u8,
        flags_unk,
        from,
        to,
        poly_from: polys as u16,
        poly_to: (polys >> 16) as u16,
        area_from: areas as u16,
        area_to: (areas >> 16) as u16,
        area_unk,
    })
}

/// The cell that a strip stands for, or the place of refusal 3: the first word of the
/// bad record, the strip's length if it ends early or lacks its end, the first word
/// after the end if more follow. A record's first word is judged (kind, order, unnamed
/// bits), then whether all its words are there, then the rest.
pub fn scan(strip: &[u32]) -> Result<Ynv, usize> {
    let zero = Vec3 { x: 0.0, y: 0.0, z: 0.0 };
    let mut cell = Ynv {
        content_flags: 0,
        area_id: 0,
        bb_min: zero,
        bb_max: zero,
        bb_size: zero,
        version_unk2: 0,
        vft: 0,
        polys: Vec::new(),
        portals: Vec::new(),
        points: Vec::new(),
    };
    let mut at = 0;
    let mut last = 0;
    loop {
        let &first = strip.get(at).ok_or(strip.len())?;
        let kind = first >> 28;
        let in_order = match kind {
            CELL => last == 0,
            POLYGON..=END => last >= CELL && kind >= last,
            _ => false,
        };
        if !in_order || first & !named_bits(kind) != 0 {
            return Err(at);
        }
        let rest = &strip[at + 1..];
        let length = follow_up(first);
        if length > rest.len() {
            return Err(strip.len());
        }
        let w = &mut Words(&rest[..length]);
        match kind {
            CELL => {
                (cell.content_flags, cell.area_id) = (w.next(), w.next());
                (cell.version_unk2, cell.vft) = (w.next(), w.next());
                (cell.bb_min, cell.bb_max, cell.bb_size) = (w.vec3(), w.vec3(), w.vec3());
            }
            POLYGON => cell.polys.push(polygon(first, w).ok_or(at)?),
            PORTAL => cell.portals.push(portal(first, w).ok_or(at)?),
            POINT => cell.points.push(NavPoint { position: w.vec3(), angle: first as u8, kind: (first >> 8) as u8 }),
            _ => return if rest.is_empty() { Ok(cell) } else { Err(at + 1) },
        }
        at += 1 + length;
        last = kind;
    }
}

fn finite(v: Vec3) -> bool {
    v.x.is_finite() && v.y.is_finite() && v.z.is_finite()
}

/// The cell of a strip whose shorts are asked for: 3, then 10.
pub(crate) fn checked(strip: &[u32]) -> Result<Ynv, Refusal> {
    let cell = scan(strip).map_err(|place| Refusal::new(3, place))?;
    if finite(cell.bb_min) && finite(cell.bb_max) && finite(cell.bb_size) {
        Ok(cell)
    } else {
        Err(Refusal::new(10, 0))
    }
}

fn put_vec3(out: &mut Vec<u32>, v: Vec3) {
    out.extend([v.x.to_bits(), v.y.to_bits(), v.z.to_bits()]);
}

fn put_end(out: &mut Vec<u32>, end: &NavEdgeEnd) {
    out.extend([end.area_id, end.poly, end.unk3 as u32 | (end.unk2 as u32) << 16]);
}

/// The strip of a cell. A polygon must fit its first word: at most 4,095 vertices
/// and edges, 15 links.
pub fn encode(cell: &Ynv) -> Vec<u32> {
    let mut out = vec![CELL << 28, cell.content_flags, cell.area_id, cell.version_unk2, cell.vft];
    for v in [cell.bb_min, cell.bb_max, cell.bb_size] {
        put_vec3(&mut out, v);
    }
    for p in &cell.polys {
        assert!(
            p.vertices.len() < 4096 && p.edges.len() < 4096 && p.portal_links.len() < 16,
            "no strip holds this polygon"
        );
        let counts = p.vertices.len() | p.edges.len() << 12 | p.portal_links.len() << 24;
        out.extend([POLYGON << 28 | counts as u32, p.flags0 as u32, p.flags1, p.flags2]);
        out.extend(p.portal_links.iter().map(|&l| l as u32));
        for &v in &p.vertices {
            put_vec3(&mut out, v);
        }
        for e in &p.edges {
            put_end(&mut out, &e.a);
            put_end(&mut out, &e.b);
        }
    }
    for p in &cell.portals {
        out.extend([PORTAL << 28 | p.kind as u32 | (p.angle as u32) << 8, p.flags_unk as u32]);
        put_vec3(&mut out, p.from);
        put_vec3(&mut out, p.to);
        out.push(p.poly_from as u32 | (p.poly_to as u32) << 16);
        out.push(p.area_from as u32 | (p.area_to as u32) << 16);
        out.push(p.area_unk as u32);
    }
    for p in &cell.points {
        out.push(POINT << 28 | p.angle as u32 | (p.kind as u32) << 8);
        put_vec3(&mut out, p.position);
    }
    out.push(END << 28);
    out
}

#[cfg(test)]
mod tests {
    use super::*;

    fn place(strip: &[u32]) -> Option<usize> {
        scan(strip).err()
    }

    #[test]
    fn places_of_refusal_3() {
        let mut cell = vec![0x1000_0000];
        cell.resize(14, 0);
        assert_eq!(place(&[]), Some(0));
        assert_eq!(place(&[0x1000_0001]), Some(0));
        assert_eq!(place(&[0x1000_0000]), Some(1));
        assert_eq!(place(&[0x5000_0000]), Some(0));
        assert_eq!(place(&cell), Some(14));
        let with = |more: &[u32]| [&cell[..], more].concat();
        assert_eq!(place(&with(&[0x5000_0000])), None);
        assert_eq!(place(&with(&[0x5000_0000, 0])), Some(15));
        assert_eq!(place(&with(&[0x5000_0001])), Some(14));
        assert_eq!(place(&with(&cell)), Some(14));
        // A portal's follow-up words, cut short behind a bad flags_unk.
        assert_eq!(place(&with(&[0x3000_0000, 0x1_0000])), Some(16));
        // A point, then a polygon without anything.
        assert_eq!(place(&with(&[0x4000_0000, 0, 0, 0, 0x2000_0000, 0, 0, 0, 0x5000_0000])), Some(18));
    }
}
