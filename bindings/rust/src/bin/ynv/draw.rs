//! The cell seen from above, as an SVG: north is up, one unit of the drawing is a fixed length of the map.
//!
//! Polygons have the colour of the area that their edges lead to; edges towards another area stand out in it. Portals
//! are arrows, points dots with their direction, and the lines of the leaves lie under them. What a thing is shows on
//! hover.

use crate::legend::{self, drawn_edges, is_lost, other_area, Areas, Entry, OWN};
use crate::report::portal_line;
use crate::view::{leaves, round_length, Area, View, BOTTOM, LEFT, TOP};
use std::collections::{BTreeMap, BTreeSet};
use std::fmt::Write;
use ynv::{NavPoint, NavPoly, NavPortal, Vec3, Ynv, ADJACENT_NONE};

/// The legend's width, and the height of a line in it.
const LEGEND: f64 = 290.0;
const LINE: f64 = 24.0;

const STYLE: &str = "\
text{font-family:sans-serif;fill:#333}
.poly{stroke:none}
.far{fill-opacity:.36}
.poly:hover{fill:#ffe680;fill-opacity:1}
.edges{fill:none;pointer-events:none;stroke-linecap:round}
.inner{stroke:#7b876d;stroke-width:.9}
.wall{stroke:#2f3628;stroke-width:1.7}
.seam{stroke-width:6;stroke-linecap:butt}
.box{fill:none;stroke:#777;stroke-width:1;pointer-events:none}
.leaf{fill:none;stroke:#555;stroke-width:.8;stroke-dasharray:2 5;pointer-events:none}
.leafno{font-size:11px;fill:#666;stroke:#fff;stroke-width:3;stroke-opacity:.7;paint-order:stroke;pointer-events:none}
.portal{stroke:#c3002f;stroke-width:2.4;fill:none}
.halo{stroke:#fff;stroke-width:5.5;fill:none}
.start{fill:#c3002f;stroke:#fff;stroke-width:1.2}
.point{fill:#1d3f8f;stroke:#fff;stroke-width:1}
.tick{stroke:#1d3f8f;stroke-width:1.8}
.lost{fill:#fff;stroke:#c3002f;stroke-width:2}
.number{text-anchor:middle;dominant-baseline:central;fill:#111;font-weight:bold;pointer-events:none}
";

/// The tip of a portal's arrow.
const TIP: &str = "\
<marker id=\"tip\" viewBox=\"0 0 10 10\" refX=\"8.5\" refY=\"5\" markerWidth=\"5\" markerHeight=\"5\" orient=\"auto\">\
<path d=\"M0 0L10 5L0 10z\" fill=\"#c3002f\"/></marker>";

/// The picture of a cell; `numbers` writes each polygon's number on it.
pub fn svg(cell: &Ynv, numbers: bool) -> String {
    let view = View::of(cell);
    let areas = Areas::of(cell);
    let mut out = Drawing::default();
    let entries = legend::entries(cell, &areas);
    out.open(&view, cell, entries.len());
    out.polygons(&view, cell, &areas);
    let edges = Edges::of(&view, cell);
    out.inner_edges(&edges);
    out.leaves(&view, cell);
    out.seam_edges(&edges, &areas);
    if numbers {
        out.numbers(&view, cell);
    }
    cell.portals.iter().enumerate().for_each(|(number, portal)| out.portal(&view, number, portal));
    cell.points.iter().enumerate().for_each(|(number, point)| out.point(&view, cell, number, point));
    out.put("</g>");
    out.frame(&view, Area::of_box(cell).unwrap_or(view.area));
    out.legend(&view, &entries);
    out.put("</svg>");
    out.text
}

/// The edges as paths, one for each look: between polygons of the cell, without a neighbour, towards each other area.
#[derive(Default)]
struct Edges {
    inner: String,
    wall: String,
    seams: BTreeMap<u32, String>,
}

impl Edges {
    fn of(view: &View, cell: &Ynv) -> Edges {
        let mut edges = Edges::default();
        for (edge, from, to) in cell.polys.iter().flat_map(drawn_edges) {
            let (Some((x0, y0)), Some((x1, y1))) = (view.spot(from), view.spot(to)) else { continue };
            let path = match other_area(cell.area_id, edge) {
                Some(area) => edges.seams.entry(area).or_default(),
                None if edge.a.is_none() && edge.b.is_none() => &mut edges.wall,
                None => &mut edges.inner,
            };
            let _ = write!(path, "M{} {}L{} {}", short(x0), short(y0), short(x1), short(y1));
        }
        edges
    }
}

/// A number of the drawing, to a hundredth.
fn short(number: f64) -> String {
    let text = format!("{number:.2}");
    text.trim_end_matches('0').trim_end_matches('.').to_string()
}

#[derive(Default)]
struct Drawing {
    text: String,
}

impl Drawing {
    /// A line of the file.
    fn put(&mut self, line: impl AsRef<str>) {
        self.text.push_str(line.as_ref());
        self.text.push('\n');
    }

    fn label(&mut self, x: f64, y: f64, size: u32, attributes: &str, text: &str) {
        let (x, y) = (short(x), short(y));
        self.put(format!("<text x=\"{x}\" y=\"{y}\" font-size=\"{size}\" {attributes}>{text}</text>"));
    }

    /// The start: head, style, heading, and the group that is clipped to the map's part.
    fn open(&mut self, view: &View, cell: &Ynv, lines: usize) {
        let legend = LINE * (lines + 1) as f64;
        let (width, height) = (LEFT + view.width() + LEGEND, TOP + (view.height() + BOTTOM).max(legend));
        let (w, h) = (short(width), short(height));
        self.put(format!(
            "<svg xmlns=\"http://www.w3.org/2000/svg\" viewBox=\"0 0 {w} {h}\" width=\"{w}\" height=\"{h}\">"
        ));
        self.put(format!("<style>{STYLE}</style>"));
        self.put(format!("<defs>{TIP}<clipPath id=\"map\">{}</clipPath></defs>", view_rectangle(view, "")));
        self.put(format!("<rect width=\"{w}\" height=\"{h}\" fill=\"#fff\"/>"));
        self.label(LEFT, 32.0, 20, "font-weight=\"bold\"", &heading(cell));
        self.label(LEFT, 55.0, 14, "", &counted(cell));
        self.put(view_rectangle(view, "fill=\"#f4f4f1\""));
        self.put("<g clip-path=\"url(#map)\">");
        if let Some(area) = Area::of_box(cell) {
            self.put(rectangle(view, area, "fill=\"#fff\""));
        }
    }

    fn polygons(&mut self, view: &View, cell: &Ynv, areas: &Areas) {
        for (number, poly) in cell.polys.iter().enumerate() {
            let spots: Vec<(f64, f64)> = poly.vertices.iter().filter_map(|&at| view.spot(at)).collect();
            let Some(((x, y), rest)) = spots.split_first() else { continue };
            let mut path = format!("M{} {}", short(*x), short(*y));
            for (x, y) in rest {
                let _ = write!(path, "L{} {}", short(*x), short(*y));
            }
            let (class, colour) = areas.of_poly(poly).map_or(("poly", OWN), |area| ("poly far", areas.colour(area)));
            let title = poly_title(number, poly);
            self.put(format!("<path class=\"{class}\" fill=\"{colour}\" d=\"{path}z\"><title>{title}</title></path>"));
        }
    }

    fn inner_edges(&mut self, edges: &Edges) {
        self.put(format!("<path class=\"edges inner\" d=\"{}\"/>", edges.inner));
        self.put(format!("<path class=\"edges wall\" d=\"{}\"/>", edges.wall));
    }

    /// The edges that lead to another area, over the lines of box and leaves, where many of them lie.
    fn seam_edges(&mut self, edges: &Edges, areas: &Areas) {
        for (area, path) in &edges.seams {
            self.put(format!("<path class=\"edges seam\" stroke=\"{}\" d=\"{path}\"/>", areas.colour(*area)));
        }
    }

    /// Each polygon's number in its middle, if that is shown, in a size that fits; below another number where two meet.
    fn numbers(&mut self, view: &View, cell: &Ynv) {
        let mut taken = BTreeSet::new();
        for (number, poly) in cell.polys.iter().enumerate() {
            let Some((x, mut y)) = view.spot(poly.centroid()).filter(|spot| view.clamped(*spot) == *spot) else {
                continue;
            };
            let size = number_size(view, number, poly);
            let slot = |y: f64| ((x / size).round() as i64, (y / size).round() as i64);
            let is_free = |(x, y)| (-1..=1).all(|step| !taken.contains(&(x + step, y)));
            while !is_free(slot(y)) {
                y += size;
            }
            taken.insert(slot(y));
            let [x, y, size] = [x, y, size].map(short);
            self.put(format!("<text class=\"number\" x=\"{x}\" y=\"{y}\" font-size=\"{size}\">{number}</text>"));
        }
    }

    /// The box, and in a map cell the sixteen leaves with their numbers.
    fn leaves(&mut self, view: &View, cell: &Ynv) {
        let Some(bounds) = Area::of_box(cell) else { return };
        self.put(rectangle(view, bounds, "class=\"box\""));
        if cell.is_vehicle() {
            return;
        }
        for (number, leaf) in leaves(bounds).into_iter().enumerate() {
            self.put(rectangle(view, leaf, "class=\"leaf\""));
            let (x, y) = (view.x(leaf.x0) + 5.0, view.y(leaf.y1) + 13.0);
            self.put(format!("<text class=\"leafno\" x=\"{}\" y=\"{}\">leaf {number}</text>", short(x), short(y)));
        }
    }

    fn portal(&mut self, view: &View, number: usize, portal: &NavPortal) {
        let (Some(from), Some(to)) = (view.spot(portal.from), view.spot(portal.to)) else { return };
        let ((x0, y0), (x1, y1)) = (view.clamped(from), view.clamped(to));
        let line = format!("x1=\"{}\" y1=\"{}\" x2=\"{}\" y2=\"{}\"", short(x0), short(y0), short(x1), short(y1));
        self.put(format!("<g><title>portal {number}: {}</title>", portal_line(portal)));
        self.put(format!("<line class=\"halo\" {line}/><line class=\"portal\" {line} marker-end=\"url(#tip)\"/>"));
        self.put(format!("<circle class=\"start\" cx=\"{}\" cy=\"{}\" r=\"3.6\"/></g>", short(x0), short(y0)));
    }

    /// A dot, with a tick towards its direction; hollow and at the border where saving would drop it.
    fn point(&mut self, view: &View, cell: &Ynv, number: usize, point: &NavPoint) {
        let Some(spot) = view.spot(point.position) else { return };
        let (x, y) = view.clamped(spot);
        let (lost, NavPoint { position: Vec3 { x: east, y: north, z }, angle, kind }) = (is_lost(cell, point), point);
        let note = if lost { ", outside the box: saving drops it" } else { "" };
        self.put(format!(
            "<g><title>point {number}: kind {kind}, angle {angle}, at ({east}, {north}, {z}){note}</title>"
        ));
        let turn = f64::from(*angle) / 256.0 * std::f64::consts::TAU;
        let (tip_x, tip_y) = (x - 12.0 * turn.sin(), y - 12.0 * turn.cos());
        let [x, y, tip_x, tip_y] = [x, y, tip_x, tip_y].map(short);
        self.put(format!("<line class=\"tick\" x1=\"{x}\" y1=\"{y}\" x2=\"{tip_x}\" y2=\"{tip_y}\"/>"));
        let class = if lost { "lost" } else { "point" };
        self.put(format!("<circle class=\"{class}\" cx=\"{x}\" cy=\"{y}\" r=\"4.5\"/></g>"));
    }

    /// The border of the map's part, coordinates of the box, north, and a length to compare with.
    fn frame(&mut self, view: &View, Area { x0, y0, x1, y1 }: Area) {
        self.put(view_rectangle(view, "fill=\"none\" stroke=\"#bbb\""));
        let (right, bottom) = (LEFT + view.width(), TOP + view.height());
        for (x, anchor) in [(x0, "start"), (x1, "end")] {
            self.label(view.x(x), bottom + 18.0, 12, &format!("text-anchor=\"{anchor}\""), &format!("x {}", short(x)));
        }
        for (y, anchor) in [(y0, "start"), (y1, "end")] {
            let turn = format!("rotate(-90 {} {})", short(LEFT - 8.0), short(view.y(y)));
            let turned = format!("text-anchor=\"{anchor}\" transform=\"{turn}\"");
            self.label(LEFT - 8.0, view.y(y), 12, &turned, &format!("y {}", short(y)));
        }
        let length = round_length((view.area.x1 - view.area.x0) / 5.0);
        let (from, to, middle) = (LEFT, LEFT + view.scale * length, bottom + 36.0);
        self.put(format!(
            "<path d=\"M{0} {2}v8M{0} {3}H{1}M{1} {2}v8\" stroke=\"#333\" fill=\"none\"/>",
            short(from),
            short(to),
            short(middle - 4.0),
            short(middle)
        ));
        self.label(to + 8.0, middle + 4.0, 12, "", &format!("{} m", short(length)));
        let (x, y) = (right - 26.0, TOP - 14.0);
        self.put(format!("<path d=\"M{} {}l-6 14l6 -4l6 4z\" fill=\"#333\"/>", short(x), short(y - 14.0)));
        self.label(x + 9.0, y, 13, "", "N");
    }

    /// What the colours and signs mean, to the right.
    fn legend(&mut self, view: &View, entries: &[Entry]) {
        let x = LEFT + view.width() + 20.0;
        for (place, Entry { sign, text }) in entries.iter().enumerate() {
            let y = TOP + 12.0 + LINE * place as f64;
            self.put(format!("<g transform=\"translate({} {})\">{sign}</g>", short(x), short(y)));
            self.label(x + 36.0, y + 4.5, 13, "", text);
        }
    }
}

/// The size in which a number fits its polygon.
fn number_size(view: &View, number: usize, poly: &NavPoly) -> f64 {
    let (min, max) = poly.bounds();
    let [width, height] = [max.x - min.x, max.y - min.y].map(|side| view.scale * f64::from(side));
    let digits = number.to_string().len() as f64;
    (0.4 * height).min(1.1 * width / digits).clamp(1.0, 15.0)
}

fn heading(cell: &Ynv) -> String {
    match cell.cell() {
        Some((cx, cy)) => format!("Area {}, cell {cx} {cy}, {}", cell.area_id, ynv::cell_file_name(cx, cy)),
        None if cell.is_vehicle() => format!("Area {}, a vehicle", cell.area_id),
        None => format!("Area {}", cell.area_id),
    }
}

fn counted(cell: &Ynv) -> String {
    let count = |count: usize, thing: &str| format!("{count} {thing}{}", if count == 1 { "" } else { "s" });
    let (polygons, portals) = (count(cell.polys.len(), "polygon"), count(cell.portals.len(), "portal"));
    format!("{polygons}, {portals}, {}", count(cell.points.len(), "point"))
}

/// A polygon's number, flags, areas and links, for those who hover over it.
fn poly_title(number: usize, poly: &NavPoly) -> String {
    let NavPoly { flags0, flags1, flags2, .. } = poly;
    let mut title = format!("polygon {number}\nflags {flags0:#06x} {flags1:#010x} {flags2:#010x}{}", flag_names(poly));
    let mut areas: Vec<u32> = poly.edges.iter().flat_map(|edge| [edge.a.area_id, edge.b.area_id]).collect();
    areas.sort_unstable();
    areas.dedup();
    let named: Vec<String> = areas.iter().filter(|area| **area != ADJACENT_NONE).map(u32::to_string).collect();
    let links: Vec<String> = poly.portal_links.iter().map(u16::to_string).collect();
    let listed = |list: &[String]| if list.is_empty() { "none".into() } else { list.join(", ") };
    let _ = write!(title, "\nareas {}\nlinks {}", listed(&named), listed(&links));
    title
}

/// The flags that have names, in brackets.
fn flag_names(poly: &NavPoly) -> String {
    let flags = [
        (poly.is_footpath(), "footpath"),
        (poly.is_steep(), "steep"),
        (poly.is_water(), "water"),
        (poly.is_interior(), "interior"),
        (poly.is_flat_ground(), "flat ground"),
        (poly.is_road(), "road"),
        (poly.is_cell_edge(), "cell edge"),
    ];
    let set: Vec<&str> = flags.into_iter().filter(|(set, _)| *set).map(|(_, name)| name).collect();
    if set.is_empty() {
        String::new()
    } else {
        format!(" ({})", set.join(", "))
    }
}

fn rectangle(view: &View, area: Area, attributes: &str) -> String {
    let (x, y) = (view.x(area.x0), view.y(area.y1));
    let (width, height) = (view.scale * (area.x1 - area.x0), view.scale * (area.y1 - area.y0));
    let [x, y, width, height] = [x, y, width, height].map(short);
    format!("<rect x=\"{x}\" y=\"{y}\" width=\"{width}\" height=\"{height}\" {attributes}/>")
}

fn view_rectangle(view: &View, attributes: &str) -> String {
    rectangle(view, view.area, attributes)
}
