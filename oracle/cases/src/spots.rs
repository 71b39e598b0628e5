//! Strips and spots for the polygon under the cursor: polygons on small lattices of shorts,
//! whose corners and sides meet, and spots that lie on them.

use rage::ynv::{NavEdge, NavEdgeEnd, NavPoly, Ynv};
use strips::{back, encode};

use crate::cells::{self, vec3};
use crate::{damage, floats, Rng};

/// A corner of a polygon, or a spot, in shorts.
pub type Spot = (u16, u16);

/// Shorts in equal steps along both axes.
struct Lattice {
    from: [usize; 2],
    step: [usize; 2],
    /// Steps along each axis.
    across: usize,
}

impl Lattice {
    /// Anywhere in the range, often at its ends or all over it. Steps have many divisors, so
    /// that other shorts than its own lie on slanted sides.
    fn any(rng: &mut Rng) -> Lattice {
        let across = 1 + rng.below(6);
        let widest = 65535 / across;
        let mut axis = || {
            let step = rng.pick(&[1, 2, 3, 4, 6, 12, 60, 720, 5040, widest]).min(widest);
            let room = 65535 - across * step;
            let some = rng.below(room + 1);
            (rng.pick(&[0, room, some]), step)
        };
        let (x, y) = (axis(), axis());
        Lattice { from: [x.0, y.0], step: [x.1, y.1], across }
    }

    fn at(&self, i: usize, j: usize) -> Spot {
        ((self.from[0] + i * self.step[0]) as u16, (self.from[1] + j * self.step[1]) as u16)
    }

    fn corner(&self, rng: &mut Rng) -> Spot {
        self.at(rng.below(self.across + 1), rng.below(self.across + 1))
    }

    fn corners(&self, rng: &mut Rng, count: usize) -> Vec<Spot> {
        (0..count).map(|_| self.corner(rng)).collect()
    }

    fn rectangle(&self, rng: &mut Rng) -> Vec<Spot> {
        let (a, b) = (self.corner(rng), self.corner(rng));
        vec![a, (b.0, a.1), b, (a.0, b.1)]
    }

    /// Rectangles side by side: all squares of the lattice.
    fn tiles(&self) -> Vec<Vec<Spot>> {
        let tile =
            |i: usize, j: usize| vec![self.at(i, j), self.at(i + 1, j), self.at(i + 1, j + 1), self.at(i, j + 1)];
        (0..self.across * self.across).map(|n| tile(n % self.across, n / self.across)).collect()
    }

    /// Up and down between two rows, the columns in turn or at random.
    fn zigzag(&self, rng: &mut Rng, count: usize) -> Vec<Spot> {
        let (low, high) = (rng.below(self.across + 1), rng.below(self.across + 1));
        let in_turn = rng.once_in(2);
        let column = |rng: &mut Rng, n: usize| if in_turn { n % (self.across + 1) } else { rng.below(self.across + 1) };
        (0..count).map(|n| self.at(column(rng, n), if n % 2 == 0 { low } else { high })).collect()
    }

    /// Most of them cross themselves.
    fn outline(&self, rng: &mut Rng) -> Vec<Spot> {
        match rng.below(16) {
            0..=3 => self.rectangle(rng),
            4 | 5 => self.corners(rng, 3),
            6 => {
                let count = rng.below(3);
                self.corners(rng, count)
            }
            7 | 8 => {
                let count = 3 + rng.below(12);
                self.zigzag(rng, count)
            }
            _ => {
                let count = 3 + rng.below(6);
                self.corners(rng, count)
            }
        }
    }
}

/// The outline from another corner, the other way round, or with corners repeated.
fn turned(rng: &mut Rng, mut outline: Vec<Spot>) -> Vec<Spot> {
    if outline.is_empty() {
        return outline;
    }
    let first = rng.below(outline.len());
    outline.rotate_left(first);
    match rng.below(6) {
        0 | 1 => outline.reverse(),
        2 => (0..1 + rng.below(3)).for_each(|_| outline.insert(first, outline[first])),
        3 => outline.extend_from_within(..first),
        4 if rng.once_in(4) => outline = outline.repeat(2),
        _ => {}
    }
    outline
}

/// The outlines of a cell's polygons.
fn outlines(rng: &mut Rng) -> Vec<Vec<Spot>> {
    let lattice = Lattice::any(rng);
    let mut all = match rng.below(4) {
        0 => lattice.tiles(),
        _ => (0..1 + rng.below(5)).map(|_| lattice.outline(rng)).collect(),
    };
    if rng.once_in(400) {
        let long = if rng.once_in(2) { lattice.zigzag(rng, 4095) } else { lattice.corners(rng, 4095) };
        all.insert(rng.below(all.len() + 1), long);
    }
    if rng.once_in(8) {
        let n = rng.below(all.len());
        all.push(all[n].clone());
    }
    all.into_iter().map(|outline| turned(rng, outline)).collect()
}

/// The axes' lo and extent: mostly a short to the unit, or of any sign and size.
fn axes(rng: &mut Rng) -> [(f32, f32); 2] {
    let axis = |rng: &mut Rng| match rng.below(8) {
        0 => (floats::usual(rng), -1.0 - floats::usual(rng).abs()),
        1 => (floats::usual(rng), rng.pick(&[1e-7, -1e-7, 1.2e-7, 1.1920929e-7, -1.1920929e-7, 0.0, 1e-30])),
        2 => (-1e38, rng.pick(&[2e38, 3e38, -1e38])),
        3 => floats::axis(rng),
        _ => (floats::usual(rng), floats::usual(rng).abs() + 1.0),
    };
    match rng.below(3) {
        0 => [axis(rng), axis(rng)],
        _ => [(0.0, 65535.0); 2],
    }
}

fn polygon(rng: &mut Rng, [x, y]: [(f32, f32); 2], outline: &[Spot]) -> NavPoly {
    let corner = |&(i, j): &Spot| vec3(back(i, x.0, x.1), back(j, y.0, y.1), floats::any(rng));
    let vertices: Vec<_> = outline.iter().map(corner).collect();
    let edges = match rng.below(4) {
        0 => 0,
        1 => vertices.len() + 1 + rng.below(4),
        _ => vertices.len(),
    };
    NavPoly {
        edges: vec![NavEdge { a: cells::edge_end(rng.u32(), rng.u32()), b: NavEdgeEnd::NONE }; edges.min(4095)],
        vertices,
        flags0: rng.u32() as u16,
        flags1: rng.u32(),
        flags2: rng.u32(),
        portal_links: (0..rng.pick(&[0, 0, 0, 1, 7, 8, 15])).map(|_| rng.u32() as u16).collect(),
    }
}

/// A cell whose polygons have these corners and no edges, in a box that has a short to the unit.
pub fn of_outlines(outlines: &[Vec<Spot>]) -> Ynv {
    let corner = |&(x, y): &Spot| vec3(f32::from(x), f32::from(y), 0.0);
    let poly = |corners: &Vec<Spot>| NavPoly {
        vertices: corners.iter().map(corner).collect(),
        edges: Vec::new(),
        flags0: 0,
        flags1: 0,
        flags2: 0,
        portal_links: Vec::new(),
    };
    let cell = cells::empty(1, 4040, vec3(0.0, 0.0, 0.0), vec3(65535.0, 65535.0, 65535.0));
    Ynv { polys: outlines.iter().map(poly).collect(), ..cell }
}

/// A cell on a lattice. Some have a vertex that is NaN, outside the box or beside a half step,
/// a few a box that isn't finite.
fn on_lattice(rng: &mut Rng) -> Ynv {
    let [x, y] = axes(rng);
    let mut cell =
        cells::empty(rng.u32(), rng.u32(), vec3(x.0, y.0, floats::usual(rng)), vec3(x.0 + x.1, y.0 + y.1, 0.0));
    cell.bb_size = vec3(x.1, y.1, floats::usual(rng));
    for outline in outlines(rng) {
        let mut poly = polygon(rng, [x, y], &outline);
        poly.vertices.truncate(4095);
        if rng.once_in(6) && !poly.vertices.is_empty() {
            let n = rng.below(poly.vertices.len());
            let v = &mut poly.vertices[n];
            let (axis, (lo, extent)) = if rng.once_in(2) { (&mut v.x, x) } else { (&mut v.y, y) };
            let near = floats::on_axis(rng, lo, extent);
            *axis = rng.pick(&[f32::NAN, -f32::INFINITY, 1e38, near, near, near]);
        }
        cell.polys.push(poly);
    }
    if rng.once_in(40) {
        let v = [&mut cell.bb_min, &mut cell.bb_max, &mut cell.bb_size].into_iter().nth(rng.below(3)).unwrap();
        let side = [&mut v.x, &mut v.y, &mut v.z].into_iter().nth(rng.below(3)).unwrap();
        *side = rng.pick(&[f32::NAN, f32::INFINITY, f32::NEG_INFINITY]);
    }
    cell
}

/// A strip: on a lattice, wild, or damaged.
pub fn strip(rng: &mut Rng) -> Vec<u32> {
    match rng.below(20) {
        0 => encode(&cells::wild(rng)),
        1 | 2 => damage::strip(rng),
        3 => {
            let mut words = encode(&on_lattice(rng));
            let n = rng.below(words.len());
            words[n] ^= 1 << rng.below(32);
            words
        }
        _ => encode(&on_lattice(rng)),
    }
}

fn divisor(a: u16, b: u16) -> u16 {
    if b == 0 {
        a
    } else {
        divisor(b, a % b)
    }
}

/// A spot on a side that isn't one of its ends, if there is one.
fn on_side(rng: &mut Rng, (x1, y1): Spot, (x2, y2): Spot) -> Option<Spot> {
    let parts = divisor(x1.abs_diff(x2), y1.abs_diff(y2)) as usize;
    if parts < 2 {
        return None;
    }
    let part = 1 + rng.below(parts - 1) as i64;
    let along = |from: u16, to: u16| (from as i64 + (to as i64 - from as i64) / parts as i64 * part) as u16;
    Some((along(x1, x2), along(y1, y2)))
}

/// A spot for polygons with such corners: mostly one of them, or on a side.
pub fn spot(rng: &mut Rng, outlines: &[Vec<Spot>]) -> Spot {
    let polygons: Vec<_> = outlines.iter().filter(|corners| corners.len() > 2).collect();
    let some = (rng.u32() as u16, rng.u32() as u16);
    if polygons.is_empty() {
        return some;
    }
    let corners = rng.pick(&polygons);
    let n = rng.below(corners.len());
    let (corner, next) = (corners[n], corners[(n + 1) % corners.len()]);
    match rng.below(20) {
        0..=4 => corner,
        5..=15 => (0..8)
            .find_map(|k| on_side(rng, corners[(n + k) % corners.len()], corners[(n + k + 1) % corners.len()]))
            .unwrap_or(corner),
        16 => (corner.0.wrapping_add(rng.pick(&[0, 1, 65535])), corner.1.wrapping_add(rng.pick(&[0, 1, 65535]))),
        17 => (next.0 / 2 + corner.0 / 2, rng.pick(corners).1),
        18 => (rng.pick(&[0, 65535, corner.0, some.0]), rng.pick(&[0, 65535, corner.1])),
        _ => some,
    }
}
