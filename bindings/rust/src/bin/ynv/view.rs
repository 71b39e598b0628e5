//! Which part of the map is drawn, and how large.

use ynv::{Vec3, Ynv};

/// The longer side of the map's part, in units of the drawing.
const SIDE: f64 = 960.0;
/// What is left free around the map's part.
pub const LEFT: f64 = 56.0;
pub const TOP: f64 = 76.0;
pub const BOTTOM: f64 = 56.0;

/// A rectangle of the map.
#[derive(Debug, Clone, Copy)]
pub struct Area {
    pub x0: f64,
    pub y0: f64,
    pub x1: f64,
    pub y1: f64,
}

impl Area {
    /// The cell's box, if it is one: from its corner of least coordinates, sides that aren't empty.
    pub fn of_box(cell: &Ynv) -> Option<Area> {
        let (min, max) = (cell.bb_min, cell.bb_max);
        let area = Area { x0: min.x.into(), y0: min.y.into(), x1: max.x.into(), y1: max.y.into() };
        (min.is_finite() && max.is_finite() && area.x0 < area.x1 && area.y0 < area.y1).then_some(area)
    }

    /// The least one that holds these positions.
    fn around(positions: impl Iterator<Item = Vec3>) -> Option<Area> {
        let finite = positions.filter(|at| at.x.is_finite() && at.y.is_finite());
        finite.fold(None, |area: Option<Area>, at| {
            let (x, y) = (f64::from(at.x), f64::from(at.y));
            let spot = Area { x0: x, y0: y, x1: x, y1: y };
            Some(area.map_or(spot, |area| area.with(spot)))
        })
    }

    fn with(self, other: Area) -> Area {
        let (x0, y0) = (self.x0.min(other.x0), self.y0.min(other.y0));
        Area { x0, y0, x1: self.x1.max(other.x1), y1: self.y1.max(other.y1) }
    }

    fn within(self, other: Area) -> Area {
        let (x0, y0) = (self.x0.clamp(other.x0, other.x1), self.y0.clamp(other.y0, other.y1));
        Area { x0, y0, x1: self.x1.clamp(other.x0, other.x1), y1: self.y1.clamp(other.y0, other.y1) }
    }

    /// With so much more on each side, as a part of the longer one.
    fn grown(self, part: f64) -> Area {
        let by = part * (self.x1 - self.x0).max(self.y1 - self.y0);
        Area { x0: self.x0 - by, y0: self.y0 - by, x1: self.x1 + by, y1: self.y1 + by }
    }
}

/// Which part of the map is drawn, and how large.
pub struct View {
    pub area: Area,
    /// Units of the drawing for one of the map.
    pub scale: f64,
}

impl View {
    /// The box and what lies around it, but not far: a position that is far outside would leave a dot of the rest.
    pub fn of(cell: &Ynv) -> View {
        let corners = cell.polys.iter().flat_map(|poly| &poly.vertices).copied();
        let ends = cell.portals.iter().flat_map(|portal| [portal.from, portal.to]);
        let all = Area::around(corners.chain(ends).chain(cell.points.iter().map(|point| point.position)));
        let shown = match (Area::of_box(cell), all) {
            (Some(bounds), Some(all)) => bounds.with(all.within(bounds.grown(0.25))),
            (Some(bounds), None) => bounds,
            (None, all) => all.unwrap_or(Area { x0: 0.0, y0: 0.0, x1: 1.0, y1: 1.0 }),
        };
        let area = if shown.x0 < shown.x1 || shown.y0 < shown.y1 { shown.grown(0.02) } else { unit_around(shown) };
        View { area, scale: SIDE / (area.x1 - area.x0).max(area.y1 - area.y0) }
    }

    pub fn width(&self) -> f64 {
        self.scale * (self.area.x1 - self.area.x0)
    }

    pub fn height(&self) -> f64 {
        self.scale * (self.area.y1 - self.area.y0)
    }

    pub fn x(&self, x: f64) -> f64 {
        LEFT + self.scale * (x - self.area.x0)
    }

    pub fn y(&self, y: f64) -> f64 {
        TOP + self.scale * (self.area.y1 - y)
    }

    /// Where a position is drawn, if it is one.
    pub fn spot(&self, at: Vec3) -> Option<(f64, f64)> {
        (at.x.is_finite() && at.y.is_finite()).then(|| (self.x(at.x.into()), self.y(at.y.into())))
    }

    /// The nearest place of the picture.
    pub fn clamped(&self, (x, y): (f64, f64)) -> (f64, f64) {
        (x.clamp(LEFT, LEFT + self.width()), y.clamp(TOP, TOP + self.height()))
    }
}

/// A square around a single spot.
fn unit_around(spot: Area) -> Area {
    let by = 0.5f64.max(1e-3 * spot.x0.abs().max(spot.y0.abs()));
    Area { x0: spot.x0 - by, y0: spot.y0 - by, x1: spot.x1 + by, y1: spot.y1 + by }
}

/// The sixteen leaves as they are numbered: four quarters of each quarter.
pub fn leaves(bounds: Area) -> Vec<Area> {
    quarters(bounds).into_iter().flat_map(quarters).collect()
}

/// High x and y, then clockwise.
fn quarters(Area { x0, y0, x1, y1 }: Area) -> [Area; 4] {
    let (x, y) = (f64::midpoint(x0, x1), f64::midpoint(y0, y1));
    [
        Area { x0: x, y0: y, x1, y1 },
        Area { x0: x, y0, x1, y1: y },
        Area { x0, y0, x1: x, y1: y },
        Area { x0, y0: y, x1: x, y1 },
    ]
}

/// The greatest of 1, 2 and 5 times a power of ten that is not above this length.
pub fn round_length(most: f64) -> f64 {
    let power = 10f64.powf(most.log10().floor());
    [5.0, 2.0, 1.0].into_iter().map(|step| step * power).find(|length| *length <= most).unwrap_or(power)
}
