//! Colours of areas, and the legend that names them.

use std::collections::BTreeMap;
use ynv::{NavEdge, NavPoint, NavPoly, Vec3, Ynv, ADJACENT_NONE, AREA_ALONE};

/// Areas that the legend names; the others share a line.
const MOST_AREAS: usize = 12;

/// The colour of polygons that lead to no other area.
pub const OWN: &str = "#dfe6d5";
/// Colours of other areas, the four neighbours' first: west, east, south, north.
const COLOURS: [&str; 10] =
    ["#4e8fd0", "#e8871e", "#2aa198", "#a05fc4", "#c9508b", "#8c6d31", "#6b8e23", "#d1495b", "#3f6c8f", "#b8860b"];

/// The other areas that edges name, with their colours and how many edges lead there.
pub struct Areas {
    pub own: u32,
    others: BTreeMap<u32, (&'static str, usize)>,
}

impl Areas {
    pub fn of(cell: &Ynv) -> Areas {
        let own = cell.area_id;
        let mut others = BTreeMap::new();
        for area in cell.polys.iter().flat_map(drawn_edges).filter_map(|(edge, ..)| other_area(own, edge)) {
            others.entry(area).or_insert(("", 0)).1 += 1;
        }
        let neighbours = [own.wrapping_sub(1), own.wrapping_add(1), own.wrapping_sub(100), own.wrapping_add(100)];
        let mut further = (neighbours.len()..COLOURS.len()).cycle();
        for (area, (colour, _)) in &mut others {
            let place = neighbours.iter().position(|neighbour| neighbour == area);
            *colour = COLOURS[place.or_else(|| further.next()).unwrap_or(0)];
        }
        Areas { own, others }
    }

    pub fn colour(&self, area: u32) -> &'static str {
        self.others.get(&area).map_or(OWN, |(colour, _)| colour)
    }

    /// The area that gives a polygon its colour: the first other one that its edges lead to.
    pub fn of_poly(&self, poly: &NavPoly) -> Option<u32> {
        drawn_edges(poly).find_map(|(edge, ..)| other_area(self.own, edge))
    }

    /// The legend's lines for the areas.
    fn entries(&self) -> Vec<Entry> {
        let named = self.others.iter().take(MOST_AREAS).map(|(&area, (colour, edges))| {
            let edge = format!("<path class=\"edges seam\" stroke=\"{colour}\" d=\"M0 5H26\"/>");
            let plural = if *edges == 1 { "" } else { "s" };
            entry(swatch("far", colour) + &edge, format!("{}: {edges} edge{plural}", self.name(area)))
        });
        let further = self.others.len().saturating_sub(MOST_AREAS);
        let rest = (further > 0).then(|| entry("", format!("and {further} more areas")));
        named.chain(rest).collect()
    }

    /// An area and, where it lies beside the cell on the map, on which side. At the map's east edge the next number is
    /// a cell of the next row.
    fn name(&self, area: u32) -> String {
        let [own, other] = [self.own, area].map(|id| (id % 100, id / 100));
        let directions = [(1, 0, "east"), (-1, 0, "west"), (0, 1, "north"), (0, -1, "south")];
        let beside = |(x, y, _): &&(i64, i64, &str)| {
            i64::from(other.0) == i64::from(own.0) + x && i64::from(other.1) == i64::from(own.1) + y
        };
        let found = directions.iter().find(beside).filter(|_| self.own.max(area) < AREA_ALONE);
        found.map_or(format!("area {area}"), |(.., side)| format!("area {area}, {side}"))
    }
}

/// The area that an edge leads to, unless it is the cell's own or none.
pub fn other_area(own: u32, edge: NavEdge) -> Option<u32> {
    let mut ends = [edge.a, edge.b].into_iter();
    ends.find(|end| end.area_id != own && end.area_id != ADJACENT_NONE).map(|end| end.area_id)
}

/// A polygon's edges with the corners that they join: vertex i and the next, after the last the first. A missing one is
/// NONE, as in saving.
pub fn drawn_edges(poly: &NavPoly) -> impl Iterator<Item = (NavEdge, Vec3, Vec3)> + '_ {
    let ends = poly.vertices.iter().cycle().skip(1);
    let edges = poly.edges.iter().copied().chain(std::iter::repeat(NavEdge::NONE));
    poly.vertices.iter().zip(ends).zip(edges).map(|((&from, &to), edge)| (edge, from, to))
}

/// Whether a point lies in no leaf: outside the box in x or y, which for a point that is drawn are numbers.
pub fn is_lost(cell: &Ynv, point: &NavPoint) -> bool {
    let (at, min, max) = (point.position, cell.bb_min, cell.bb_max);
    !((min.x..=max.x).contains(&at.x) && (min.y..=max.y).contains(&at.y))
}

/// A line of the legend: a sign, drawn around 0 0, and its text.
pub struct Entry {
    pub sign: String,
    pub text: String,
}

fn entry(sign: impl Into<String>, text: impl Into<String>) -> Entry {
    Entry { sign: sign.into(), text: text.into() }
}

fn swatch(class: &str, colour: &str) -> String {
    format!("<rect class=\"{class}\" y=\"-8\" width=\"26\" height=\"16\" fill=\"{colour}\"/>")
}

fn stroke(class: &str) -> String {
    format!("<path class=\"{class}\" d=\"M0 0H26\"/>")
}

/// What a cell's picture needs explained.
pub fn entries(cell: &Ynv, areas: &Areas) -> Vec<Entry> {
    let mut all = vec![entry(swatch("own", OWN), "polygon, no other area beside it")];
    all.extend(areas.entries());
    all.push(entry(stroke("edges inner"), "edge between polygons"));
    all.push(entry(stroke("edges wall"), "edge without a neighbour"));
    if !cell.is_vehicle() {
        all.push(entry(stroke("leaf"), "border of a leaf"));
    }
    if !cell.portals.is_empty() {
        let start = "<circle class=\"start\" r=\"3.6\" cx=\"2\"/>";
        let arrow = "<path class=\"portal\" d=\"M2 0H26\" marker-end=\"url(#tip)\"/>";
        all.push(entry(format!("{start}{arrow}"), "portal"));
    }
    if !cell.points.is_empty() {
        let tick = "<path class=\"tick\" d=\"M13 2V-10\"/>";
        let dot = "<circle class=\"point\" cx=\"13\" cy=\"2\" r=\"4.5\"/>";
        // No source says what an angle's unit is: the picture says what it takes it for.
        all.push(entry(format!("{tick}{dot}"), "point; angle 0 is drawn north,"));
        all.push(entry("", "256 a turn to the left"));
    }
    if cell.points.iter().any(|point| is_lost(cell, point)) {
        all.push(entry("<circle class=\"lost\" cx=\"13\" r=\"4.5\"/>", "point that saving drops"));
    }
    all
}
