//! What the tool says of a cell, in words.

use crate::files::{Kind, Loaded};
use crate::trouble::Trouble;
use crate::Answer;
use std::collections::BTreeMap;
use std::fmt::Write;
use std::path::Path;
use ynv::{NavPortal, Saved, Vec3, Ynv, ADJACENT_NONE};

/// A line about a file.
fn line(path: &Path, said: impl std::fmt::Display) -> String {
    format!("{}: {said}\n", path.display())
}

/// The counts of a cell that was read.
pub fn counts(loaded: &Loaded) -> String {
    let Some(ynv::Counts { words, polys, portals, points, sectors, .. }) = loaded.counts else {
        return format!("words {}\n", loaded.strip.len());
    };
    format!("words {words} polys {polys} portals {portals} points {points} sectors {sectors}\n")
}

/// The length of a saved cell, and what saving lost.
pub fn saved(saved: &Saved) -> String {
    let length = format!("bytes {}", saved.pages.len());
    match losses(saved) {
        Some(lost) => format!("{length}; {lost}"),
        None => length,
    }
}

/// What saving lost, where it lost anything.
pub fn losses(saved: &Saved) -> Option<String> {
    let counted = |what: &str, count: usize| (count > 0).then(|| format!("{what} {count}"));
    let losses = [
        (saved.points_dropped > 0).then(|| points(saved.points_stored, saved.points_dropped)),
        counted("coordinates pushed to the border", saved.coordinates_pushed),
        counted("surplus edges dropped", saved.edges_dropped),
        counted("numbers cut to their field", saved.numbers_cut),
    ];
    let said: Vec<String> = losses.into_iter().flatten().collect();
    (!said.is_empty()).then(|| said.join("; "))
}

/// What became of points of which some were dropped.
fn points(stored: usize, dropped: usize) -> String {
    let plural = if stored == 1 { "" } else { "s" };
    let (lie, were) = if dropped == 1 { ("lies", "was") } else { ("lie", "were") };
    format!("{stored} point{plural} stored, {dropped} {lie} outside the box and {were} dropped")
}

/// Whether a file's cell would save. A refusal is an answer here, whether the cell can't be opened or can't be saved.
pub fn check(path: &Path, loaded: Result<Loaded, Trouble>) -> Result<Answer, Trouble> {
    let would = loaded.and_then(|loaded| Ok(ynv::serialize_ynv(&loaded.cell()?)?));
    match would.map_err(|trouble| trouble.of(path)) {
        Ok(would) => Ok((line(path, format!("saves, {}", saved(&would))), 0)),
        Err(refused) if refused.status() == 1 => Ok((format!("{refused}\n"), 1)),
        Err(trouble) => Err(trouble),
    }
}

pub fn seams(path: &Path, loaded: &Loaded) -> Result<Answer, Trouble> {
    Ok((line(path, format!("seams {}", ynv::count_seams(&loaded.strip)?)), 0))
}

/// The polygon at a position. Outside the box the library would answer for the nearest border.
pub fn pick(path: &Path, loaded: &Loaded, x: f32, y: f32) -> Result<Answer, Trouble> {
    let Ynv { bb_min: min, bb_size: size, .. } = loaded.cell()?;
    let (x_spot, y_spot) = ynv::spot_for_position(&loaded.strip, x, y)?;
    let said = match ynv::pick_poly(&loaded.strip, x_spot, y_spot)? {
        _ if !within(x, min.x, size.x) || !within(y, min.y, size.y) => "outside the box".into(),
        Some(poly) => format!("polygon {poly}"),
        None => "no polygon".into(),
    };
    Ok((line(path, said), 0))
}

fn within(at: f32, low: f32, side: f32) -> bool {
    let (from, to) = (low.min(low + side), low.max(low + side));
    (from..=to).contains(&at)
}

/// Where a walker can get to, by the polygons' numbers, those in a row by the first and the last of them.
pub fn reach(path: &Path, loaded: &Loaded, start: usize) -> Result<Answer, Trouble> {
    let marks = ynv::reachable(&loaded.strip, start)?;
    let count = marks.iter().filter(|&&mark| mark).count();
    let mut rows = Vec::new();
    let mut number = 0;
    for row in marks.chunk_by(|a, b| a == b) {
        let last = number + row.len() - 1;
        match (row[0], row.len()) {
            (false, _) => {}
            (true, 1) => rows.push(format!("{number}")),
            (true, _) => rows.push(format!("{number}-{last}")),
        }
        number += row.len();
    }
    Ok((line(path, format!("from polygon {start}: {count} of {} polygons: {}", marks.len(), rows.join(", "))), 0))
}

/// The cell of the map's grid at a position.
pub fn location(x: f32, y: f32) -> Result<String, Trouble> {
    let (cx, cy) = ynv::cell_for_position(x, y);
    let (x0, y0, x1, y1) = ynv::cell_bounds(cx, cy)?;
    let (area, name) = (100 * cy + cx, ynv::cell_file_name(cx, cy));
    let inside = (x0..=x1).contains(&x) && (y0..=y1).contains(&y);
    let note = if inside { "" } else { ", the nearest: the position is outside the map" };
    Ok(format!("cell {cx} {cy}, area {area}, from {x0} {y0} to {x1} {y1}, {name}{note}\n"))
}

/// All that is worth knowing of a cell before it is drawn.
pub fn info(path: &Path, loaded: &Loaded) -> Result<Answer, Trouble> {
    let cell = loaded.cell()?;
    let kind = if loaded.kind == Kind::Pages { "pages" } else { "strip" };
    let mut said = line(path, format!("{kind}, bytes {}", loaded.bytes));
    let mut row = |name: &str, value: String| {
        let _ = writeln!(said, "  {name:<10}{value}");
    };
    row("area", place(&cell));
    row("content", content(&cell));
    row("version", format!("{:#010x}, vft {:#010x}", cell.version_unk2, cell.vft));
    row("box", format!("{} to {}, size {}", shown(cell.bb_min), shown(cell.bb_max), shown(cell.bb_size)));
    row("polygons", polygons(&cell));
    row("portals", cell.portals.len().to_string());
    row("points", cell.points.len().to_string());
    if let Some(counts) = loaded.counts {
        row("sectors", counts.sectors.to_string());
    }
    row("seams", ynv::count_seams(&loaded.strip)?.to_string());
    row("areas", areas(&cell));
    for (number, portal) in cell.portals.iter().enumerate() {
        row(&format!("portal {number}"), format!(" {}", portal_line(portal)));
    }
    Ok((said, 0))
}

fn shown(at: Vec3) -> String {
    format!("({}, {}, {})", at.x, at.y, at.z)
}

fn place(cell: &Ynv) -> String {
    let area = cell.area_id;
    match cell.cell() {
        Some((cx, cy)) => format!("{area}: cell {cx} {cy} of the map, {}", ynv::cell_file_name(cx, cy)),
        None => format!("{area}: no cell of the map"),
    }
}

fn content(cell: &Ynv) -> String {
    let names =
        [(ynv::CONTENT_POLYGONS, "polygons"), (ynv::CONTENT_PORTALS, "portals"), (ynv::CONTENT_VEHICLE, "vehicle")];
    let set: Vec<&str> =
        names.iter().filter(|(flag, _)| cell.content_flags & flag != 0).map(|(_, name)| *name).collect();
    format!("{:#x}: {}", cell.content_flags, if set.is_empty() { "nothing named".into() } else { set.join(", ") })
}

fn polygons(cell: &Ynv) -> String {
    let sum = |count: fn(&ynv::NavPoly) -> usize| cell.polys.iter().map(count).sum::<usize>();
    let (vertices, edges, links) = (sum(|p| p.vertices.len()), sum(|p| p.edges.len()), sum(|p| p.portal_links.len()));
    format!("{}, vertices {vertices}, edges {edges}, portal links {links}", cell.polys.len())
}

/// The areas that halves of edges name, each with how many do.
fn areas(cell: &Ynv) -> String {
    let mut halves = BTreeMap::<u32, usize>::new();
    for edge in cell.polys.iter().flat_map(|poly| &poly.edges) {
        for end in [edge.a, edge.b] {
            *halves.entry(end.area_id).or_default() += 1;
        }
    }
    let named = halves.into_iter().map(|(area, count)| match area {
        ADJACENT_NONE => format!("none by {count} halves of edges"),
        area => format!("{area} by {count}"),
    });
    let named: Vec<String> = named.collect();
    if named.is_empty() {
        "none named".into()
    } else {
        named.join(", ")
    }
}

/// A portal in a line.
pub fn portal_line(portal: &NavPortal) -> String {
    let NavPortal { kind, angle, flags_unk, poly_from, poly_to, area_from, area_to, .. } = portal;
    let from = format!("polygon {poly_from} of area {area_from} at {}", shown(portal.from));
    let to = format!("polygon {poly_to} of area {area_to} at {}", shown(portal.to));
    format!("kind {kind}, angle {angle}, flags {flags_unk:#x}, from {from} to {to}")
}
