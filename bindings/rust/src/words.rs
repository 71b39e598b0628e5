//! Typed cells to strips and back. The strip's layout is in include/ynv.h of the repository.

use crate::{count_seams, NavEdge, NavEdgeEnd, NavPoint, NavPoly, NavPortal, Refusal, Vec3, Ynv};

/// Kinds of records: the top four bits of a record's first word.
const CELL: u32 = 1;
const POLYGON: u32 = 2;
const PORTAL: u32 = 3;
const POINT: u32 = 4;
const END: u32 = 5;

/// The most that a polygon's first word can count: 12 bits of vertices and of edges, 4 of links.
const MOST_CORNERS: usize = 0xFFF;
const MOST_LINKS: usize = 0xF;

/// How many polygons a strip has that the library takes.
pub(crate) fn polygons(strip: &[u32]) -> usize {
    let (mut count, mut at) = (0, 14);
    while strip[at] >> 28 == POLYGON {
        let (vertices, edges, links) = (strip[at] & 0xFFF, strip[at] >> 12 & 0xFFF, strip[at] >> 24 & 0xF);
        at += 4 + links as usize + 3 * vertices as usize + 6 * edges as usize;
        count += 1;
    }
    count
}

impl Ynv {
    /// The typed cell of a strip. Whatever the strip's floats are, they keep their bits.
    ///
    /// # Errors
    /// [`Refusal::BAD_STRIP`] with its word, as the library judges it, and [`Refusal::NO_MEMORY`].
    ///
    /// ```
    /// use ynv::{Refusal, Ynv};
    /// let mut strip = vec![0; 15];
    /// (strip[0], strip[2], strip[14]) = (1 << 28, 4040, 5 << 28);
    /// let cell = Ynv::from_strip(&strip)?;
    /// assert_eq!(cell.cell(), Some((40, 40)));
    /// assert_eq!(cell.to_strip()?, strip);
    /// assert_eq!(Ynv::from_strip(&strip[..14]).unwrap_err(), Refusal::new(Refusal::BAD_STRIP, 14));
    /// # Ok::<(), ynv::Refusal>(())
    /// ```
    pub fn from_strip(strip: &[u32]) -> Result<Ynv, Refusal> {
        // The library alone says what a strip is: after this call every record is whole, and in its place.
        count_seams(strip)?;
        let mut words = Words(strip);
        let mut cell = words.cell();
        loop {
            let first = words.next();
            match first >> 28 {
                POLYGON => push(&mut cell.polys, words.polygon(first)?)?,
                PORTAL => push(&mut cell.portals, words.portal(first))?,
                POINT => push(&mut cell.points, words.point(first))?,
                _ => return Ok(cell),
            }
        }
    }

    /// The strip of a typed cell. It calls nothing: whether the cell can be saved is for saving to say.
    ///
    /// # Errors
    /// With the polygon as their place [`Refusal::VERTICES_UNFIT`], [`Refusal::EDGES_UNFIT`] and
    /// [`Refusal::LINKS_UNFIT`], for what a strip has no room for; and [`Refusal::NO_MEMORY`].
    ///
    /// ```
    /// use ynv::{NavPoly, Refusal, Vec3, Ynv};
    /// let mut cell = Ynv::new_cell(4040, Vec3::ZERO, Vec3::new(150.0, 150.0, 150.0));
    /// cell.polys.push(NavPoly::new(vec![Vec3::ZERO; 4096]));
    /// assert_eq!(cell.to_strip().unwrap_err(), Refusal::new(Refusal::VERTICES_UNFIT, 0));
    /// ```
    pub fn to_strip(&self) -> Result<Vec<u32>, Refusal> {
        let mut counted = 15 + 11 * self.portals.len() + 4 * self.points.len();
        for (number, poly) in self.polys.iter().enumerate() {
            fits(number, poly)?;
            counted += 4 + poly.portal_links.len() + 3 * poly.vertices.len() + 6 * poly.edges.len();
        }
        let mut words = room(counted)?;
        words.extend([CELL << 28, self.content_flags, self.area_id, self.version_unk2, self.vft]);
        words.extend([self.bb_min, self.bb_max, self.bb_size].into_iter().flat_map(Vec3::to_bits));
        self.polys.iter().for_each(|poly| put_polygon(&mut words, poly));
        self.portals.iter().for_each(|portal| put_portal(&mut words, portal));
        self.points.iter().for_each(|point| put_point(&mut words, point));
        words.push(END << 28);
        Ok(words)
    }
}

/// A vector with room for so many items, or the refusal where there is no memory.
fn room<T>(items: usize) -> Result<Vec<T>, Refusal> {
    let mut list = Vec::new();
    list.try_reserve_exact(items).map_err(no_memory)?;
    Ok(list)
}

fn push<T>(list: &mut Vec<T>, item: T) -> Result<(), Refusal> {
    list.try_reserve(1).map_err(no_memory)?;
    list.push(item);
    Ok(())
}

fn no_memory<E>(_: E) -> Refusal {
    Refusal::new(Refusal::NO_MEMORY, 0)
}

/// Refuses a polygon whose counts would spill over their bits.
fn fits(number: usize, poly: &NavPoly) -> Result<(), Refusal> {
    let refused = |why| Err(Refusal::new(why, number as u64));
    if poly.vertices.len() > MOST_CORNERS {
        return refused(Refusal::VERTICES_UNFIT);
    }
    if poly.edges.len() > MOST_CORNERS {
        return refused(Refusal::EDGES_UNFIT);
    }
    if poly.portal_links.len() > MOST_LINKS {
        return refused(Refusal::LINKS_UNFIT);
    }
    Ok(())
}

fn put_polygon(words: &mut Vec<u32>, poly: &NavPoly) {
    let [vertices, edges, links] =
        [poly.vertices.len(), poly.edges.len(), poly.portal_links.len()].map(|count| count as u32);
    words.push(POLYGON << 28 | links << 24 | edges << 12 | vertices);
    words.extend([u32::from(poly.flags0), poly.flags1, poly.flags2]);
    words.extend(poly.portal_links.iter().map(|&link| u32::from(link)));
    words.extend(poly.vertices.iter().flat_map(|vertex| vertex.to_bits()));
    let ends = poly.edges.iter().flat_map(|edge| [edge.a, edge.b]);
    words.extend(ends.flat_map(|end| [end.area_id, end.poly, u32::from(end.unk2) << 16 | u32::from(end.unk3)]));
}

fn put_portal(words: &mut Vec<u32>, portal: &NavPortal) {
    let pair = |low, high| u32::from(low) | u32::from(high) << 16;
    words.push(PORTAL << 28 | u32::from(portal.angle) << 8 | u32::from(portal.kind));
    words.push(u32::from(portal.flags_unk));
    words.extend(portal.from.to_bits());
    words.extend(portal.to.to_bits());
    words.extend([pair(portal.poly_from, portal.poly_to), pair(portal.area_from, portal.area_to)]);
    words.push(u32::from(portal.area_unk));
}

fn put_point(words: &mut Vec<u32>, point: &NavPoint) {
    words.push(POINT << 28 | u32::from(point.kind) << 8 | u32::from(point.angle));
    words.extend(point.position.to_bits());
}

/// The words of a strip that are still to be read. The strip is well formed, so that each word a record claims is
/// there, and the bits that nothing names are 0: what is cast below loses nothing.
struct Words<'a>(&'a [u32]);

impl Words<'_> {
    fn next(&mut self) -> u32 {
        let (word, rest) = self.0.split_first().expect("a record is whole");
        self.0 = rest;
        *word
    }

    fn vec3(&mut self) -> Vec3 {
        Vec3::from_bits([self.next(), self.next(), self.next()])
    }

    /// Two shorts, the lower half first.
    fn pair(&mut self) -> (u16, u16) {
        let word = self.next();
        (word as u16, (word >> 16) as u16)
    }

    fn list<T>(&mut self, items: u32, mut item: impl FnMut(&mut Self) -> T) -> Result<Vec<T>, Refusal> {
        let mut list = room(items as usize)?;
        list.extend((0..items).map(|_| item(self)));
        Ok(list)
    }

    fn cell(&mut self) -> Ynv {
        self.next(); // the kind
        let [content_flags, area_id, version_unk2, vft] = [self.next(), self.next(), self.next(), self.next()];
        let [bb_min, bb_max, bb_size] = [self.vec3(), self.vec3(), self.vec3()];
        let (polys, portals, points) = Default::default();
        Ynv { content_flags, area_id, bb_min, bb_max, bb_size, version_unk2, vft, polys, portals, points }
    }

    fn polygon(&mut self, first: u32) -> Result<NavPoly, Refusal> {
        let (vertices, edges, links) = (first & 0xFFF, first >> 12 & 0xFFF, first >> 24 & 0xF);
        let (flags0, flags1, flags2) = (self.next() as u16, self.next(), self.next());
        let portal_links = self.list(links, |words| words.next() as u16)?;
        let vertices = self.list(vertices, Self::vec3)?;
        let edges = self.list(edges, |words| NavEdge { a: words.end(), b: words.end() })?;
        Ok(NavPoly { vertices, edges, flags0, flags1, flags2, portal_links })
    }

    fn end(&mut self) -> NavEdgeEnd {
        let (area_id, poly, (unk3, unk2)) = (self.next(), self.next(), self.pair());
        NavEdgeEnd { area_id, poly, unk2: unk2 as u8, unk3 }
    }

    fn portal(&mut self, first: u32) -> NavPortal {
        let [kind, angle, ..] = first.to_le_bytes();
        let (flags_unk, from, to) = (self.next() as u16, self.vec3(), self.vec3());
        let ((poly_from, poly_to), (area_from, area_to)) = (self.pair(), self.pair());
        let area_unk = self.next() as u8;
        NavPortal { kind, angle, flags_unk, from, to, poly_from, poly_to, area_from, area_to, area_unk }
    }

    fn point(&mut self, first: u32) -> NavPoint {
        let [angle, kind, ..] = first.to_le_bytes();
        NavPoint { position: self.vec3(), angle, kind }
    }
}
