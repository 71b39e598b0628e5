//! Draws Wavefront OBJ text as an SVG, seen from the south-west and above, as a modelling program shows it:
//!
//! `ynv obj samples/yard.pages - | cargo run --offline --example obj_svg > docs/yard-obj.svg`
//!
//! It knows the text alone, `v X Y Z` and `f` with vertex numbers from 1, and nothing of cells. Far polygons are drawn
//! first, and the higher ones are lighter.

use std::error::Error;
use std::fmt::Write as _;
use std::io::{self, Read, Write as _};

type Vertex = [f64; 3];

/// The picture's width and height, and the margin around the drawing.
const WIDE: f64 = 820.0;
const HIGH: f64 = 560.0;
const MARGIN: f64 = 24.0;

/// The most that a coordinate is.
const MOST: f64 = 65_535.0;

/// Where a vertex stands in the picture: east goes right and up, north left and up, height up.
fn seen([x, y, z]: Vertex) -> (f64, f64) {
    let (across, deep) = ((x - y) / MOST, (x + y) / MOST);
    let width = (WIDE - 2.0 * MARGIN) / 2.0;
    let height = HIGH - 2.0 * MARGIN;
    (WIDE / 2.0 + across * width, HIGH - MARGIN - deep * height * 0.34 - z / MOST * height * 0.3)
}

/// The mean height of a face.
fn height(face: &[Vertex]) -> f64 {
    face.iter().map(|[_, _, z]| z).sum::<f64>() / face.len() as f64
}

/// The faces of a text, each as its vertices.
fn faces(text: &str) -> Result<Vec<Vec<Vertex>>, Box<dyn Error>> {
    let (mut vertices, mut faces) = (Vec::new(), Vec::new());
    for line in text.lines() {
        let (kind, rest) = line.split_once(' ').ok_or("a line without a space")?;
        let numbers = rest.split(' ').map(str::parse).collect::<Result<Vec<usize>, _>>()?;
        match (kind, &numbers[..]) {
            ("v", &[x, y, z]) => vertices.push([x, y, z].map(|short| short as f64)),
            ("f", numbers) => {
                let corner = |&number: &usize| number.checked_sub(1).and_then(|index| vertices.get(index)).copied();
                faces.push(numbers.iter().map(corner).collect::<Option<Vec<_>>>().ok_or("no such vertex")?);
            }
            _ => return Err(format!("no line of a drawing: {line}").into()),
        }
    }
    Ok(faces)
}

fn svg(mut faces: Vec<Vec<Vertex>>) -> String {
    let depth = |face: &Vec<Vertex>| face.iter().map(|[x, y, _]| x + y).sum::<f64>() / face.len() as f64;
    faces.sort_by(|a, b| depth(b).total_cmp(&depth(a)));
    let mut out = format!(
        "<svg xmlns=\"http://www.w3.org/2000/svg\" viewBox=\"0 0 {WIDE} {HIGH}\" stroke-linejoin=\"round\">\n\
         <rect width=\"{WIDE}\" height=\"{HIGH}\" fill=\"#f4f5f1\"/>\n"
    );
    let corners = [[0.0, 0.0], [MOST, 0.0], [MOST, MOST], [0.0, MOST]].map(|[x, y]| [x, y, 0.0]);
    polygon(&mut out, &corners, "none", "#b5b8ae");
    let (low, high) = faces.iter().map(|face| height(face)).fold((MOST, 0.0), |(a, b), z| (z.min(a), z.max(b)));
    for face in &faces {
        let light = 0.55 + 0.4 * (height(face) - low) / (high - low).max(1.0);
        let fill = format!("rgb({:.0},{:.0},{:.0})", 225.0 * light, 245.0 * light, 205.0 * light);
        polygon(&mut out, face, &fill, "#2f3628");
    }
    out.push_str("</svg>\n");
    out
}

fn polygon(out: &mut String, face: &[Vertex], fill: &str, stroke: &str) {
    let points: Vec<String> = face.iter().map(|&v| seen(v)).map(|(x, y)| format!("{x:.1},{y:.1}")).collect();
    let points = points.join(" ");
    writeln!(out, "<polygon points=\"{points}\" fill=\"{fill}\" stroke=\"{stroke}\" stroke-width=\"1.2\"/>").unwrap();
}

fn main() -> Result<(), Box<dyn Error>> {
    let mut text = String::new();
    io::stdin().read_to_string(&mut text)?;
    Ok(io::stdout().write_all(svg(faces(&text)?).as_bytes())?)
}
