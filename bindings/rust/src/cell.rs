//! Typed cells, with the names of rage-formats' `ynv.rs`.
//!
//! Every number of a typed cell has the width of its strip field or less, so none can spill into a neighbouring one.
//! Three counts are open: a polygon's vertices, edges and portal links, which [`Ynv::to_strip`] tests.

use crate::Vec3;

/// No neighbour on an edge: area and polygon 16,383.
pub const ADJACENT_NONE: u32 = 16_383;

/// Content flag: the cell has polygons.
pub const CONTENT_POLYGONS: u32 = 1;
/// Content flag: the cell has portals.
pub const CONTENT_PORTALS: u32 = 2;
/// Content flag: a vehicle's mesh, with one leaf instead of sixteen.
pub const CONTENT_VEHICLE: u32 = 4;

/// The vft of retail map cells.
pub const NAVMESH_VFT: u32 = 0x4061_E7E8;
/// The version of retail map cells; a vehicle's is 0.
pub const CELL_VERSION: u32 = 0x85CB_3561;
/// The area id of a mesh that stands alone: the grid's 10,000 cells have those below it.
pub const AREA_ALONE: u32 = 10_000;

/// The side of a cell of the map's grid.
pub const CELL_SIZE: f32 = 150.0;
/// Least x and y of the map's grid.
pub const CELL_ORIGIN: f32 = -6000.0;

/// The file name of a cell of the map's grid: three times its coordinates.
///
/// ```
/// assert_eq!(ynv::cell_file_name(30, 53), "navmesh[90][159].ynv");
/// ```
#[must_use]
pub fn cell_file_name(cx: u32, cy: u32) -> String {
    format!("navmesh[{}][{}].ynv", 3 * u64::from(cx), 3 * u64::from(cy))
}

/// Half of an edge: the polygon that lies across it.
#[derive(Debug, Clone, Copy, PartialEq, Eq, Hash)]
pub struct NavEdgeEnd {
    /// The neighbour's area, or [`ADJACENT_NONE`].
    pub area_id: u32,
    /// The neighbour's number in its area, or [`ADJACENT_NONE`]. Saving keeps 14 bits.
    pub poly: u32,
    /// Unknown; saving keeps 2 bits.
    pub unk2: u8,
    /// Unknown; saving keeps 11 bits.
    pub unk3: u16,
}

impl NavEdgeEnd {
    /// No neighbour.
    pub const NONE: NavEdgeEnd = NavEdgeEnd::neighbour(ADJACENT_NONE, ADJACENT_NONE);

    /// Towards this polygon of this area.
    #[must_use]
    pub const fn neighbour(area_id: u32, poly: u32) -> Self {
        Self { area_id, poly, unk2: 0, unk3: 0 }
    }

    /// Whether it names no polygon.
    #[must_use]
    pub const fn is_none(&self) -> bool {
        self.poly == ADJACENT_NONE
    }
}

/// The edge from vertex i of a polygon to vertex i + 1, after the last to the first.
#[derive(Debug, Clone, Copy, PartialEq, Eq, Hash)]
pub struct NavEdge {
    /// The first half.
    pub a: NavEdgeEnd,
    /// The second half; retail cells have the same neighbour in both.
    pub b: NavEdgeEnd,
}

impl NavEdge {
    /// No neighbour in either half.
    pub const NONE: NavEdge = NavEdge { a: NavEdgeEnd::NONE, b: NavEdgeEnd::NONE };

    /// Towards this polygon of this area in both halves.
    #[must_use]
    pub const fn neighbour(area_id: u32, poly: u32) -> Self {
        let end = NavEdgeEnd::neighbour(area_id, poly);
        Self { a: end, b: end }
    }
}

/// A polygon.
#[derive(Debug, Clone, PartialEq, Default)]
pub struct NavPoly {
    /// Its corners in the world, in order.
    pub vertices: Vec<Vec3>,
    /// An edge for each vertex. Saving makes missing ones NONE and ignores surplus ones.
    pub edges: Vec<NavEdge>,
    /// The first 16 flags.
    pub flags0: u16,
    /// The next 32 flags.
    pub flags1: u32,
    /// The last 32 flags.
    pub flags2: u32,
    /// Numbers in the cell's table of portal links, one for each portal that the polygon touches.
    pub portal_links: Vec<u16>,
}

/// The flags whose meaning is known, by their bits.
mod bit {
    pub const FOOTPATH: u16 = 4;
    pub const STEEP: u16 = 64;
    pub const WATER: u16 = 128;
    pub const INTERIOR: u32 = 64;
    pub const FLAT_GROUND: u32 = 512;
    pub const ROAD: u32 = 1024;
    pub const CELL_EDGE: u32 = 2048;
}

impl NavPoly {
    /// A polygon of these corners, without neighbours, flags or links.
    #[must_use]
    pub fn new(vertices: Vec<Vec3>) -> Self {
        Self { edges: vec![NavEdge::NONE; vertices.len()], vertices, ..Self::default() }
    }

    /// Whether it lies inside a building.
    #[must_use]
    pub const fn is_interior(&self) -> bool {
        self.flags1 & bit::INTERIOR != 0
    }

    /// Says whether it lies inside a building.
    pub fn set_interior(&mut self, on: bool) {
        self.set_flag1(bit::INTERIOR, on);
    }

    /// Whether it is flat ground.
    #[must_use]
    pub const fn is_flat_ground(&self) -> bool {
        self.flags1 & bit::FLAT_GROUND != 0
    }

    /// Says whether it is flat ground.
    pub fn set_flat_ground(&mut self, on: bool) {
        self.set_flag1(bit::FLAT_GROUND, on);
    }

    /// Whether it is a road.
    #[must_use]
    pub const fn is_road(&self) -> bool {
        self.flags1 & bit::ROAD != 0
    }

    /// Whether it lies at the cell's edge.
    #[must_use]
    pub const fn is_cell_edge(&self) -> bool {
        self.flags1 & bit::CELL_EDGE != 0
    }

    /// Whether it is a footpath.
    #[must_use]
    pub const fn is_footpath(&self) -> bool {
        self.flags0 & bit::FOOTPATH != 0
    }

    /// Whether it is water.
    #[must_use]
    pub const fn is_water(&self) -> bool {
        self.flags0 & bit::WATER != 0
    }

    /// Whether it is steep.
    #[must_use]
    pub const fn is_steep(&self) -> bool {
        self.flags0 & bit::STEEP != 0
    }

    fn set_flag1(&mut self, flag: u32, on: bool) {
        self.flags1 = if on { self.flags1 | flag } else { self.flags1 & !flag };
    }

    /// The mean of its corners; the origin where it has none.
    #[must_use]
    pub fn centroid(&self) -> Vec3 {
        let sum = self.vertices.iter().fold(Vec3::ZERO, |sum, &vertex| sum + vertex);
        sum * (1.0 / self.vertices.len().max(1) as f32)
    }

    /// The least and the greatest coordinates of its corners; the origin twice where it has none.
    #[must_use]
    pub fn bounds(&self) -> (Vec3, Vec3) {
        if self.vertices.is_empty() {
            return (Vec3::ZERO, Vec3::ZERO);
        }
        let (least, greatest) = (Vec3::new(f32::MIN, f32::MIN, f32::MIN), Vec3::new(f32::MAX, f32::MAX, f32::MAX));
        let corners = self.vertices.iter();
        corners.fold((greatest, least), |(min, max), &vertex| (min.min(vertex), max.max(vertex)))
    }
}

/// A way from one polygon to another that isn't an edge: a climb, a drop, a jump.
#[derive(Debug, Clone, PartialEq, Default)]
pub struct NavPortal {
    /// What kind of way it is.
    pub kind: u8,
    /// Its direction.
    pub angle: u8,
    /// Flags of unknown meaning.
    pub flags_unk: u16,
    /// Where it starts.
    pub from: Vec3,
    /// Where it ends.
    pub to: Vec3,
    /// The polygon where it starts.
    pub poly_from: u16,
    /// The polygon where it ends.
    pub poly_to: u16,
    /// The area where it starts. Saving keeps 14 bits.
    pub area_from: u16,
    /// The area where it ends. Saving keeps 14 bits.
    pub area_to: u16,
    /// Unknown; saving keeps 4 bits.
    pub area_unk: u8,
}

/// A point of interest.
#[derive(Debug, Clone, PartialEq, Default)]
pub struct NavPoint {
    /// Where it is. Saving drops a point that lies in no leaf of the cell.
    pub position: Vec3,
    /// Its direction.
    pub angle: u8,
    /// What kind of point it is.
    pub kind: u8,
}

/// A navmesh cell.
///
/// `==` compares its floats as floats do; [`Ynv::same_bits`] compares their bits.
#[derive(Debug, Clone, PartialEq)]
pub struct Ynv {
    /// What it has: [`CONTENT_POLYGONS`], [`CONTENT_PORTALS`], [`CONTENT_VEHICLE`], and bits that are kept.
    pub content_flags: u32,
    /// Its number in the map's grid, 100 y + x, or [`AREA_ALONE`].
    pub area_id: u32,
    /// Least corner of the box, from which positions are measured when they are saved.
    pub bb_min: Vec3,
    /// Greatest corner of the box.
    pub bb_max: Vec3,
    /// The sides along which positions are measured; normally `bb_max - bb_min`.
    pub bb_size: Vec3,
    /// [`CELL_VERSION`] in map cells, 0 in vehicles.
    pub version_unk2: u32,
    /// The first word of the pages, [`NAVMESH_VFT`] in retail cells.
    pub vft: u32,
    /// Its polygons; edges and portals name them by their place here.
    pub polys: Vec<NavPoly>,
    /// Its portals.
    pub portals: Vec<NavPortal>,
    /// Its points; saving orders them by leaf.
    pub points: Vec<NavPoint>,
}

impl Ynv {
    /// An empty map cell over this box.
    ///
    /// ```
    /// use ynv::{NavPoly, Vec3, Ynv};
    /// let (x0, y0, x1, y1) = ynv::cell_bounds(40, 40)?;
    /// let mut cell = Ynv::new_cell(4040, Vec3::new(x0, y0, 0.0), Vec3::new(x1, y1, 50.0));
    /// cell.polys.push(NavPoly::new(vec![Vec3::new(x0, y0, 1.0), Vec3::new(x1, y0, 1.0), Vec3::new(x0, y1, 1.0)]));
    /// let saved = ynv::serialize_ynv(&cell)?;
    /// assert_eq!(ynv::parse_ynv(&saved.pages, &[])?.polys.len(), 1);
    /// # Ok::<(), ynv::Refusal>(())
    /// ```
    #[must_use]
    pub fn new_cell(area_id: u32, bb_min: Vec3, bb_max: Vec3) -> Self {
        Self {
            content_flags: CONTENT_POLYGONS,
            area_id,
            bb_min,
            bb_max,
            bb_size: bb_max - bb_min,
            version_unk2: CELL_VERSION,
            vft: NAVMESH_VFT,
            polys: Vec::new(),
            portals: Vec::new(),
            points: Vec::new(),
        }
    }

    /// Whether it is a vehicle's mesh.
    #[must_use]
    pub const fn is_vehicle(&self) -> bool {
        self.content_flags & CONTENT_VEHICLE != 0
    }

    /// Its coordinates in the map's grid; none for a mesh that stands alone.
    #[must_use]
    pub const fn cell(&self) -> Option<(u32, u32)> {
        if self.area_id < AREA_ALONE {
            Some((self.area_id % 100, self.area_id / 100))
        } else {
            None
        }
    }

    /// Whether two cells are the same to the bit: a NaN is itself then, and −0 isn't 0.
    #[must_use]
    pub fn same_bits(&self, other: &Ynv) -> bool {
        let record = |cell: &Ynv| [cell.content_flags, cell.area_id, cell.version_unk2, cell.vft];
        let sides = |cell: &Ynv| [cell.bb_min, cell.bb_max, cell.bb_size].map(Vec3::to_bits);
        record(self) == record(other)
            && sides(self) == sides(other)
            && all_same(&self.polys, &other.polys, NavPoly::same_bits)
            && all_same(&self.portals, &other.portals, NavPortal::same_bits)
            && all_same(&self.points, &other.points, NavPoint::same_bits)
    }
}

/// Whether two lists are as long, and the same item by item.
fn all_same<T>(own: &[T], others: &[T], same: impl Fn(&T, &T) -> bool) -> bool {
    own.len() == others.len() && own.iter().zip(others).all(|(a, b)| same(a, b))
}

impl NavPoly {
    fn same_bits(&self, other: &NavPoly) -> bool {
        all_same(&self.vertices, &other.vertices, |a, b| a.to_bits() == b.to_bits())
            && (&self.edges, &self.portal_links) == (&other.edges, &other.portal_links)
            && (self.flags0, self.flags1, self.flags2) == (other.flags0, other.flags1, other.flags2)
    }
}

impl NavPortal {
    fn same_bits(&self, other: &NavPortal) -> bool {
        let ends = |portal: &NavPortal| [portal.from, portal.to].map(Vec3::to_bits);
        // Without its positions, all that is left are numbers.
        let numbers = |portal: &NavPortal| NavPortal { from: Vec3::ZERO, to: Vec3::ZERO, ..portal.clone() };
        ends(self) == ends(other) && numbers(self) == numbers(other)
    }
}

impl NavPoint {
    fn same_bits(&self, other: &NavPoint) -> bool {
        let all = |point: &NavPoint| (point.position.to_bits(), point.angle, point.kind);
        all(self) == all(other)
    }
}
