//! Seeded cells for the tests. Each test file compiles it for itself, and none uses all of it.

#![allow(dead_code)]

use ynv::{NavEdge, NavEdgeEnd, NavPoint, NavPoly, NavPortal, Vec3, Ynv};

/// Numbers from a seed, by splitmix64.
pub struct Seeded(pub u64);

impl Seeded {
    pub fn next(&mut self) -> u64 {
        self.0 = self.0.wrapping_add(0x9E37_79B9_7F4A_7C15);
        let mut mixed = self.0;
        mixed = (mixed ^ mixed >> 30).wrapping_mul(0xBF58_476D_1CE4_E5B9);
        mixed = (mixed ^ mixed >> 27).wrapping_mul(0x94D0_49BB_1331_11EB);
        mixed ^ mixed >> 31
    }

    /// A number below this one.
    pub fn below(&mut self, end: usize) -> usize {
        (self.next() % end as u64) as usize
    }

    pub fn word(&mut self) -> u32 {
        self.next() as u32
    }

    /// The bits of a float: now any, now one of those that arithmetic would not keep, mostly a number of a map.
    pub fn float(&mut self) -> u32 {
        const ODD: [u32; 7] =
            [0x8000_0000, 0x7F80_0000, 0xFF80_0000, 0x7FC0_0000, 0x7F80_0001, 0xFFFF_FFFF, 0x0000_0001];
        match self.below(8) {
            0 => self.word(),
            1 => ODD[self.below(ODD.len())],
            _ => self.coordinate().to_bits(),
        }
    }

    /// A float from 0 to 150.
    pub fn coordinate(&mut self) -> f32 {
        self.below(150_001) as f32 / 1000.0
    }

    pub fn list<T>(&mut self, items: usize, mut item: impl FnMut(&mut Self) -> T) -> Vec<T> {
        (0..items).map(|_| item(self)).collect()
    }

    pub fn vec3(&mut self) -> Vec3 {
        Vec3::from_bits([self.float(), self.float(), self.float()])
    }

    pub fn end(&mut self) -> NavEdgeEnd {
        let [area_id, poly, unk] = [self.word(), self.word(), self.word()];
        NavEdgeEnd { area_id, poly, unk2: unk as u8, unk3: (unk >> 16) as u16 }
    }

    /// A polygon of any numbers; the rare long one fills its counts.
    pub fn poly(&mut self) -> NavPoly {
        let most = if self.below(200) == 0 { 4096 } else { 9 };
        let [vertices, edges, links] = [self.below(most), self.below(most), self.below(16)];
        NavPoly {
            vertices: self.list(vertices, Self::vec3),
            edges: self.list(edges, |seeded| NavEdge { a: seeded.end(), b: seeded.end() }),
            flags0: self.word() as u16,
            flags1: self.word(),
            flags2: self.word(),
            portal_links: self.list(links, |seeded| seeded.word() as u16),
        }
    }

    pub fn portal(&mut self) -> NavPortal {
        let [kind, angle, area_unk, ..] = self.word().to_le_bytes();
        let [polys, areas, flags] = [self.word(), self.word(), self.word()];
        let halves = |word: u32| (word as u16, (word >> 16) as u16);
        let ((poly_from, poly_to), (area_from, area_to)) = (halves(polys), halves(areas));
        let (from, to, flags_unk) = (self.vec3(), self.vec3(), flags as u16);
        NavPortal { kind, angle, flags_unk, from, to, poly_from, poly_to, area_from, area_to, area_unk }
    }

    pub fn point(&mut self) -> NavPoint {
        let [angle, kind, ..] = self.word().to_le_bytes();
        NavPoint { position: self.vec3(), angle, kind }
    }

    /// A cell of any numbers, most of which can't be saved.
    pub fn cell(&mut self) -> Ynv {
        let [polys, portals, points] = [self.below(6), self.below(4), self.below(4)];
        Ynv {
            content_flags: self.word(),
            area_id: self.word(),
            bb_min: self.vec3(),
            bb_max: self.vec3(),
            bb_size: self.vec3(),
            version_unk2: self.word(),
            vft: self.word(),
            polys: self.list(polys, Self::poly),
            portals: self.list(portals, Self::portal),
            points: self.list(points, Self::point),
        }
    }

    /// A cell that can be saved: a finite box, polygons of 3 to 8 vertices, few areas, at most 7 links.
    pub fn savable(&mut self) -> Ynv {
        let mut cell = self.cell();
        let top = Vec3::new(150.0, 150.0, 150.0);
        (cell.bb_min, cell.bb_max, cell.bb_size) = (Vec3::ZERO, top, top);
        for poly in &mut cell.polys {
            let corners = 3 + self.below(6);
            poly.vertices = self.list(corners, Self::vec3);
            poly.portal_links.truncate(7);
            let ends = poly.edges.iter_mut().flat_map(|edge| [&mut edge.a, &mut edge.b]);
            ends.for_each(|end| end.area_id %= 16);
        }
        cell
    }
}
