//! The cell grammar of document 01: which pages derive a strip, which refusal the
//! others meet, and the Rust's cell for those that do.

use rage::math::Vec3;
use rage::ynv::{NavEdge, NavEdgeEnd, NavPoint, NavPoly, NavPortal, Ynv};

use crate::guard::{rust_read, RustRead};
use crate::leaf::back;
use crate::messages::refuses_reading;
use crate::strip::encode;
use crate::Refusal;

/// Bytes of list items and of points that the judge gathers. Pages that bear out more
/// are not for it (a program error, not a refusal).
const GATHER_LIMIT: u64 = 1 << 28;

/// What the pages derive, and the sectors of their tree.
#[derive(Debug, Clone, PartialEq)]
pub struct Derived {
    pub cell: Ynv,
    pub sectors: usize,
}

#[derive(Debug, Clone, PartialEq)]
pub enum ReadAnswer {
    Refused(Refusal),
    Strip { words: Vec<u32>, sectors: usize },
}

/// The two lent sections.
#[derive(Clone, Copy)]
struct Pages<'a> {
    system: &'a [u8],
    graphics: &'a [u8],
}

impl<'a> Pages<'a> {
    /// The good part of `len` bytes at an address.
    fn part(&self, address: u64, len: u64) -> Option<&'a [u8]> {
        let bit = |n: u32| address >> n & 1 == 1;
        let (section, offset) = if bit(29) && bit(30) {
            (self.graphics, address - 0x6000_0000)
        } else if bit(28) && bit(30) {
            (self.system, address - 0x5000_0000)
        } else {
            return None;
        };
        let end = offset as u128 + len as u128;
        if end > section.len() as u128 {
            return None;
        }
        Some(&section[offset as usize..end as usize])
    }
}

/// The little-endian number in bytes `at .. at + n`.
fn le(b: &[u8], at: usize, n: usize) -> u64 {
    b[at..at + n].iter().rev().fold(0, |v, &byte| v << 8 | byte as u64)
}

fn u16_at(b: &[u8], at: usize) -> u16 {
    le(b, at, 2) as u16
}

fn u32_at(b: &[u8], at: usize) -> u32 {
    le(b, at, 4) as u32
}

fn vec3_at(b: &[u8], at: usize) -> Vec3 {
    let axis = |i: usize| f32::from_bits(u32_at(b, at + 4 * i));
    Vec3 { x: axis(0), y: axis(1), z: axis(2) }
}

fn finite(v: Vec3) -> bool {
    v.x.is_finite() && v.y.is_finite() && v.z.is_finite()
}

/// Preorder over subs 3, 2, 1, 0: the points' bytes, and the sectors visited.
struct Walk<'a> {
    pages: Pages<'a>,
    sectors: usize,
    points: Vec<u8>,
}

impl Walk<'_> {
    fn tree(&mut self, root: u64) -> Result<(), Refusal> {
        let mut waiting = vec![root];
        while let Some(address) = waiting.pop() {
            if self.sectors == 4096 {
                return Err(Refusal::new(33, 0));
            }
            self.sectors += 1;
            let sector = self.pages.part(address, 96).ok_or(Refusal::new(32, 0))?;
            self.data(le(sector, 0x2C, 8)).ok_or(Refusal::new(34, 0))?;
            waiting.extend((0..4).map(|i| le(sector, 0x34 + 8 * i, 8)).filter(|&sub| sub != 0));
        }
        Ok(())
    }

    /// A sector's data and points, `None` if one isn't good.
    fn data(&mut self, address: u64) -> Option<()> {
        if address != 0 {
            let data = self.pages.part(address, 32)?;
            let count = le(data, 0x1A, 2);
            if count != 0 {
                let points = self.pages.part(le(data, 0x10, 8), 8 * count)?;
                self.points.extend_from_slice(points);
            }
        }
        Some(())
    }
}

/// The items of a list: refusal 35 for a part that isn't good, 36 for counts.
fn list(pages: Pages<'_>, address: u64, item_size: u64, place: usize) -> Result<Vec<u8>, Refusal> {
    if address == 0 {
        return Ok(Vec::new());
    }
    let not_good = Refusal::new(35, place);
    let header = pages.part(address, 48).ok_or(not_good)?;
    let part_count = le(header, 0x20, 4);
    let mut found: Vec<&[u8]> = Vec::new();
    let mut sum = 0;
    if part_count != 0 {
        for part in pages.part(le(header, 0x10, 8), 16 * part_count).ok_or(not_good)?.chunks_exact(16) {
            let count = le(part, 8, 4);
            if count != 0 {
                found.push(pages.part(le(part, 0, 8), count * item_size).ok_or(not_good)?);
                sum += count;
            }
        }
    }
    if sum != le(header, 8, 4) {
        return Err(Refusal::new(36, place));
    }
    assert!(sum * item_size <= GATHER_LIMIT, "the pages bear out more items than the judge gathers");
    Ok(found.concat())
}

/// The links of a polygon: a table that isn't good is empty, a run outside it gives none.
fn link_run(table: &[u8], start: usize, count: usize) -> Vec<u16> {
    if 2 * (start + count) > table.len() {
        return Vec::new();
    }
    (start..start + count).map(|i| u16_at(table, 2 * i)).collect()
}

/// The cell that the pages derive, or the refusal: 30, 31, 32 for the root, 40; each
/// sector 33, 32, 34; list by list 35, 36; per polygon 37, 38; 39.
pub fn derive(system: &[u8], graphics: &[u8]) -> Result<Derived, Refusal> {
    let pages = Pages { system, graphics };
    let refusal = |number| Refusal::new(number, 0);
    let h = pages.part(0x5000_0000, 368).ok_or(refusal(30))?;
    let address = |at: usize| le(h, at, 8);
    let root = address(0x120);
    if root == 0 {
        return Err(refusal(31));
    }
    let root_sector = pages.part(root, 96).ok_or(refusal(32))?;
    let (bb_min, bb_max, bb_size) = (vec3_at(root_sector, 0), vec3_at(root_sector, 16), vec3_at(h, 0x60));
    if !(finite(bb_min) && finite(bb_max) && finite(bb_size)) {
        return Err(refusal(40));
    }
    let mut walk = Walk { pages, sectors: 0, points: Vec::new() };
    walk.tree(root)?;

    let vertices = list(pages, address(0x70), 6, 1)?;
    let indices = list(pages, address(0x80), 2, 2)?;
    let edges = list(pages, address(0x88), 8, 3)?;
    let polygons = list(pages, address(0x118), 48, 4)?;
    let position = |b: &[u8], at: usize| Vec3 {
        x: back(u16_at(b, at), bb_min.x, bb_size.x),
        y: back(u16_at(b, at + 2), bb_min.y, bb_size.y),
        z: back(u16_at(b, at + 4), bb_min.z, bb_size.z),
    };
    let area = |index: u32| if index < u32_at(h, 0x94) { u32_at(h, 0x98 + 4 * index as usize) } else { 16383 };
    let edge_end = |raw: u32| NavEdgeEnd {
        area_id: area(raw % 32),
        poly: raw >> 5 & 0x3FFF,
        unk2: (raw >> 19 & 3) as u8,
        unk3: (raw >> 21) as u16,
    };
    let links = match address(0x130) {
        0 => &[][..],
        links => pages.part(links, 2 * le(h, 0x150, 4)).unwrap_or(&[]),
    };

    let mut polys = Vec::new();
    for (n, p) in polygons.chunks_exact(48).enumerate() {
        let (start, count) = (u16_at(p, 4) as usize, (u16_at(p, 2) >> 5) as usize);
        if 2 * (start + count) > indices.len() || 8 * (start + count) > edges.len() {
            return Err(Refusal::new(37, n));
        }
        let run = start..start + count;
        if run.clone().any(|i| 6 * (u16_at(&indices, 2 * i) as usize) >= vertices.len()) {
            return Err(Refusal::new(38, n));
        }
        let word = u32_at(p, 0x2C);
        polys.push(NavPoly {
            vertices: run.clone().map(|i| position(&vertices, 6 * u16_at(&indices, 2 * i) as usize)).collect(),
            edges: run
                .map(|i| NavEdge { a: edge_end(u32_at(&edges, 8 * i)), b: edge_end(u32_at(&edges, 8 * i + 4)) })
                .collect(),
            flags0: u16_at(p, 0),
            flags1: u32_at(p, 0x24),
            flags2: u32_at(p, 0x28),
            portal_links: link_run(links, (word >> 15) as usize, (word >> 12 & 7) as usize),
        });
    }

    let mut portals = Vec::new();
    let portal_count = le(h, 0x14C, 4);
    if portal_count != 0 {
        for b in pages.part(address(0x128), 28 * portal_count).ok_or(refusal(39))?.chunks_exact(28) {
            let areas = u32_at(b, 24);
            portals.push(NavPortal {
                kind: b[0],
                angle: b[1],
                flags_unk: u16_at(b, 2),
                from: position(b, 4),
                to: position(b, 10),
                poly_from: u16_at(b, 16),
                poly_to: u16_at(b, 20),
                area_from: (areas & 0x3FFF) as u16,
                area_to: (areas >> 14 & 0x3FFF) as u16,
                area_unk: (areas >> 28) as u8,
            });
        }
    }
    let points =
        walk.points.chunks_exact(8).map(|b| NavPoint { position: position(b, 0), angle: b[6], kind: b[7] }).collect();
    let cell = Ynv {
        content_flags: u32_at(h, 0x10),
        area_id: u32_at(h, 0x140),
        bb_min,
        bb_max,
        bb_size,
        version_unk2: u32_at(h, 0x160),
        vft: u32_at(h, 0),
        polys,
        portals,
        points,
    };
    Ok(Derived { cell, sectors: walk.sectors })
}

/// The words of a cell's strip.
pub fn derived_words(cell: &Ynv) -> usize {
    let polygons = cell.polys.iter().map(|p| 4 + p.portal_links.len() + 3 * p.vertices.len() + 6 * p.edges.len());
    15 + polygons.sum::<usize>() + 11 * cell.portals.len() + 4 * cell.points.len()
}

/// The reader's answer on two sections and a strip of `strip_len` words. Where it refuses, the Rust must agree.
pub fn expected_read(system: &[u8], graphics: &[u8], strip_len: usize) -> ReadAnswer {
    let derived = match derive(system, graphics) {
        Ok(derived) => derived,
        Err(refusal) => {
            let done = rust_read(system, graphics);
            assert!(refuses_reading(refusal, &done), "document 01 refuses with {refusal:?}, the Rust {done:?}");
            return ReadAnswer::Refused(refusal);
        }
    };
    if strip_len < derived_words(&derived.cell) {
        return ReadAnswer::Refused(Refusal::new(2, 0));
    }
    match rust_read(system, graphics) {
        RustRead::Cell(cell) => ReadAnswer::Strip { words: encode(&cell), sectors: derived.sectors },
        other => panic!("document 01 derives what the Rust does not read: {other:?}"),
    }
}
