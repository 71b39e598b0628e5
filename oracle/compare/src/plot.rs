//! A picture of lines in panels side by side, as SVG text: black on white, lines told apart
//! by their strokes and marks.

use std::fmt::Write;

pub struct Line {
    pub name: &'static str,
    pub points: Vec<(f64, f64)>,
}

pub struct Panel {
    pub title: &'static str,
    pub x_title: &'static str,
    pub y_title: &'static str,
    /// At most as many as there are strokes.
    pub lines: Vec<Line>,
}

/// A panel's outer size, and its margins to the axes.
const WIDTH: f64 = 450.0;
const HEIGHT: f64 = 360.0;
const LEFT: f64 = 70.0;
const RIGHT: f64 = 24.0;
const TOP: f64 = 44.0;
const BOTTOM: f64 = 56.0;

/// A line's stroke and the filling of its marks.
const STROKES: [(&str, &str); 2] = [("stroke='#000' stroke-dasharray='6 4'", "#fff"), ("stroke='#000'", "#000")];

/// A step of 1, 2 or 5 times a power of ten that divides a length into at most `most`.
fn step(length: f64, most: f64) -> f64 {
    let power = 10f64.powf((length / most).log10().floor());
    [1.0, 2.0, 5.0, 10.0].into_iter().map(|times| times * power).find(|step| length / step <= most).unwrap()
}

/// An axis from 0 to `end`, drawn from `from` to `to`, with a number at each step.
struct Axis {
    end: f64,
    step: f64,
    from: f64,
    to: f64,
}

impl Axis {
    /// An axis a little longer than the greatest value, with at most so many steps.
    fn over(values: impl Iterator<Item = f64>, most: f64, from: f64, to: f64) -> Axis {
        let end = 1.05 * values.fold(0.0, f64::max);
        Axis { end, step: step(end, most), from, to }
    }

    fn at(&self, value: f64) -> f64 {
        self.from + (self.to - self.from) * value / self.end
    }

    fn numbers(&self) -> impl Iterator<Item = f64> + '_ {
        (0..=(self.end / self.step) as u32).map(|n| n as f64 * self.step)
    }

    /// With as many decimals as the step has, thousands apart.
    fn text(&self, number: f64) -> String {
        let decimals = (-self.step.log10().floor()).max(0.0) as usize;
        let text = format!("{number:.decimals$}");
        if number < 1000.0 {
            return text;
        }
        let (high, low) = text.split_at(text.len() - 3);
        format!("{high},{low}")
    }
}

fn text(out: &mut String, x: f64, y: f64, more: &str, words: &str) {
    writeln!(out, "<text x='{x:.1}' y='{y:.1}' {more}>{words}</text>").unwrap();
}

fn stroke(out: &mut String, from: (f64, f64), to: (f64, f64), more: &str) {
    let ((x1, y1), (x2, y2)) = (from, to);
    writeln!(out, "<line x1='{x1:.1}' y1='{y1:.1}' x2='{x2:.1}' y2='{y2:.1}' {more}/>").unwrap();
}

fn mark(out: &mut String, x: f64, y: f64, fill: &str) {
    writeln!(out, "<circle cx='{x:.1}' cy='{y:.1}' r='3.5' stroke='#000' stroke-width='1.5' fill='{fill}'/>").unwrap();
}

/// The two axes with their numbers and titles, and a thin line at each number of y.
fn axes(out: &mut String, panel: &Panel, x: &Axis, y: &Axis) {
    for number in y.numbers() {
        stroke(out, (x.from, y.at(number)), (x.to, y.at(number)), "stroke='#ddd'");
        text(out, x.from - 8.0, y.at(number) + 4.0, "text-anchor='end'", &y.text(number));
    }
    for number in x.numbers() {
        stroke(out, (x.at(number), y.from), (x.at(number), y.from + 5.0), "stroke='#000'");
        text(out, x.at(number), y.from + 19.0, "text-anchor='middle'", &x.text(number));
    }
    stroke(out, (x.from, y.from), (x.to, y.from), "stroke='#000'");
    stroke(out, (x.from, y.from), (x.from, y.to), "stroke='#000'");
    let (middle_x, middle_y) = ((x.from + x.to) / 2.0, (y.from + y.to) / 2.0);
    text(out, middle_x, TOP - 18.0, "text-anchor='middle' font-size='16'", panel.title);
    text(out, middle_x, HEIGHT - 14.0, "text-anchor='middle'", panel.x_title);
    let turned = format!("text-anchor='middle' transform='rotate(-90 {:.1} {middle_y:.1})'", x.from - 50.0);
    text(out, x.from - 50.0, middle_y, &turned, panel.y_title);
}

fn line(out: &mut String, line: &Line, (dashes, fill): (&str, &str), x: &Axis, y: &Axis) {
    let places: Vec<(f64, f64)> = line.points.iter().map(|&(a, b)| (x.at(a), y.at(b))).collect();
    let path: Vec<String> = places.iter().map(|(x, y)| format!("{x:.1},{y:.1}")).collect();
    writeln!(out, "<polyline points='{}' fill='none' stroke-width='2' {dashes}/>", path.join(" ")).unwrap();
    for (x, y) in places {
        mark(out, x, y, fill);
    }
}

/// The lines' names beside a piece of each, at the upper left.
fn legend(out: &mut String, panel: &Panel, left: f64) {
    for (n, (line, (dashes, fill))) in panel.lines.iter().zip(STROKES).enumerate() {
        let (x, y) = (left + 16.0, TOP + 16.0 + 22.0 * n as f64);
        stroke(out, (x, y), (x + 40.0, y), &format!("stroke-width='2' {dashes}"));
        mark(out, x + 20.0, y, fill);
        text(out, x + 50.0, y + 4.0, "", line.name);
    }
}

fn panel(out: &mut String, panel: &Panel, left: f64) {
    let points = || panel.lines.iter().flat_map(|line| &line.points);
    let x = Axis::over(points().map(|point| point.0), 5.0, left + LEFT, left + WIDTH - RIGHT);
    let y = Axis::over(points().map(|point| point.1), 9.0, HEIGHT - BOTTOM, TOP);
    axes(out, panel, &x, &y);
    for (of, look) in panel.lines.iter().zip(STROKES) {
        line(out, of, look, &x, &y);
    }
    legend(out, panel, left + LEFT);
}

pub fn svg(panels: &[Panel]) -> String {
    let width = WIDTH * panels.len() as f64;
    let mut out = format!("<svg xmlns='http://www.w3.org/2000/svg' viewBox='0 0 {width} {HEIGHT}' width='{width}' height='{HEIGHT}' font-family='sans-serif' font-size='13'>\n");
    writeln!(out, "<rect width='{width}' height='{HEIGHT}' fill='#fff'/>").unwrap();
    for (n, one) in panels.iter().enumerate() {
        panel(&mut out, one, n as f64 * WIDTH);
    }
    out + "</svg>\n"
}
