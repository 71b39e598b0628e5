//! Compares the writer with the Rust: cells at the limits, and 200,000 seeded strips (or as
//! many as the first argument says, from the case that the second says). Each with room and
//! work exactly enough, room one byte short, more of both, work one word short, and any
//! less; what is accepted is read back, with nothing and with dirty bytes behind the
//! pages and a random graphics section beside them. Prints how often each number was
//! answered, by shape, what points and what coordinates beyond the box the accepted strips
//! had, and what differs; exits 1 if anything does.

use std::process::exit;

use cases::writing::SHAPES;
use cases::{limits, Rng};
use compare::arguments::count_and_first;
use compare::tally::ByNumber;
use compare::under_test::WRITER;
use compare::writing::{call, Called, Reread, Write};
use strips::{coordinate_pushed, encode, leaves_of_points, pushed, scan, short};

const CASES: u64 = 200_000;

/// The points of accepted strips.
#[derive(Default)]
struct Points {
    all: u64,
    /// Those in no leaf, and the strips that have one.
    dropped: u64,
    dropping: u64,
    /// Those in several leaves.
    shared: u64,
    /// Those whose x or y is a NaN or infinite.
    not_finite: u64,
    /// Strips with points whose box is inverted in x or y.
    inverted: u64,
}

impl Points {
    fn of(&mut self, strip: &[u32]) {
        let cell = scan(strip).expect("an accepted strip is well formed");
        let leaves = leaves_of_points(&cell);
        let dropped = leaves.iter().filter(|&&leaves| leaves == 0).count() as u64;
        let finite = cell.points.iter().filter(|p| p.position.x.is_finite() && p.position.y.is_finite()).count();
        let (min, max) = (cell.bb_min, cell.bb_max);
        self.all += leaves.len() as u64;
        self.dropped += dropped;
        self.dropping += (dropped > 0) as u64;
        self.shared += leaves.iter().filter(|&&leaves| leaves > 1).count() as u64;
        self.not_finite += (leaves.len() - finite) as u64;
        self.inverted += (!leaves.is_empty() && (min.x > max.x || min.y > max.y)) as u64;
    }

    fn print(&self) {
        let Points { all, dropped, dropping, shared, not_finite, inverted } = self;
        println!("points of accepted strips: {all}, of them {dropped} dropped, from {dropping} strips;");
        println!("{shared} in several leaves, {not_finite} not finite; {inverted} strips in an inverted box");
    }
}

/// The coordinates of accepted strips that are pushed to the border.
#[derive(Default)]
struct Border {
    vertices: u64,
    portal_ends: u64,
    points: u64,
    /// Those of points in no leaf.
    dropped: u64,
    /// Strips that have one, and strips that have none but have coordinates.
    strips: u64,
    none: u64,
    /// Coordinates on the other side of an end of their axis that are inside all the same:
    /// the fraction is -0 or 1.
    barely_inside: u64,
}

impl Border {
    fn of(&mut self, strip: &[u32]) {
        let cell = scan(strip).expect("an accepted strip is well formed");
        let (lo, size) = (cell.bb_min, cell.bb_size);
        let leaves = leaves_of_points(&cell);
        let points: Vec<_> = cell.points.iter().map(|point| point.position).collect();
        let vertices = cell.polys.iter().flat_map(|poly| poly.vertices.iter().copied());
        let ends = cell.portals.iter().flat_map(|portal| [portal.from, portal.to]);
        let axes = |v: rage::math::Vec3| [(v.x, lo.x, size.x), (v.y, lo.y, size.y), (v.z, lo.z, size.z)];
        let counted =
            |v| axes(v).into_iter().filter(|&(a, lo, extent)| coordinate_pushed(a, lo, extent)).count() as u64;
        let all = pushed(&cell);
        let of_vertices: u64 = vertices.clone().map(counted).sum();
        let of_ends: u64 = ends.clone().map(counted).sum();
        let of_points: u64 = points.iter().copied().map(counted).sum();
        assert_eq!(all, of_vertices + of_ends + of_points, "the sum is not that of its parts");
        let mut coordinates = 0;
        for (a, lo, extent) in vertices.chain(ends).chain(points.iter().copied()).flat_map(axes) {
            coordinates += 1;
            let q = short(a, lo, extent);
            assert!(!coordinate_pushed(a, lo, extent) || q == 0 || q == 65535, "pushed, but not to the border");
            let beyond = extent > f32::EPSILON && (a < lo || a - lo > extent);
            self.barely_inside += (beyond && !coordinate_pushed(a, lo, extent)) as u64;
        }
        assert!(all <= coordinates, "more pushed than there are");
        self.vertices += of_vertices;
        self.portal_ends += of_ends;
        self.points += of_points;
        self.dropped += leaves.iter().zip(&points).filter(|(&n, _)| n == 0).map(|(_, &v)| counted(v)).sum::<u64>();
        self.strips += (all > 0) as u64;
        self.none += (all == 0 && coordinates > 0) as u64;
    }

    fn print(&self) {
        let Border { vertices, portal_ends, points, dropped, strips, none, barely_inside } = self;
        println!("coordinates pushed to the border: {vertices} of vertices, {portal_ends} of portal ends, {points} of points, of");
        println!("which {dropped} of points in no leaf; {strips} strips have one, {none} with coordinates have none; {barely_inside}");
        println!("coordinates beyond an end of their axis have a fraction of -0 or 1 and don't count");
    }
}

/// Cases by number answered when work and room suffice, by shape; the calls with too little
/// stand under 1 and 2.
#[derive(Default)]
struct Tally {
    numbers: ByNumber,
    points: Points,
    border: Border,
    cases: u64,
    calls: u64,
    read_back: u64,
}

impl Tally {
    fn case(&mut self, shape: &'static str, name: &str, strip: &[u32], rng: &mut Rng) {
        let write = Write::of(strip);
        let enough = if let Write::Pages { bytes, .. } = &write { bytes.len() } else { rng.below(800) };
        let (work, more) = (4 * strip.len(), 1 + rng.below(200));
        let some = if rng.once_in(2) { work } else { rng.below(work + 1) };
        self.cases += 1;
        let lent = [
            (work, enough),
            (work, enough.saturating_sub(1)),
            (work + more, enough + more),
            (work.saturating_sub(1), enough),
            (some, rng.below(enough + 1)),
        ];
        let mut written = Vec::new();
        for (n, (work, room)) in lent.into_iter().enumerate() {
            self.calls += 1;
            match call(strip, &write, work, room) {
                Ok(called) => {
                    if n == 0 || called.number == 1 || called.number == 2 {
                        self.numbers.seen(shape, called.number);
                    }
                    if called.number == 0 {
                        written.push(called);
                    }
                }
                Err(text) => self.numbers.differs(shape, name, format!("{work} words of work, {room} bytes: {text}")),
            }
        }
        if !written.is_empty() {
            self.points.of(strip);
            self.border.of(strip);
            self.read_back(shape, name, strip, &written, rng);
        }
    }

    /// Reads each of the lent pages, whole: the longer ones have dirty bytes behind.
    fn read_back(&mut self, shape: &str, name: &str, strip: &[u32], written: &[Called], rng: &mut Rng) {
        let reread = Reread::of(strip);
        let graphics: Vec<u8> = (0..rng.below(600)).map(|_| rng.u32() as u8).collect();
        for called in written {
            self.read_back += 1;
            if let Err(text) = reread.call(called, &graphics) {
                self.numbers.differs(shape, name, text);
            }
        }
    }

    fn print(&self) {
        self.numbers.print("1, 2: calls with too little");
        self.points.print();
        self.border.print();
        println!(
            "{} cases, {} calls, {} pages read back, {} differences",
            self.cases, self.calls, self.read_back, self.numbers.differences
        );
    }
}

fn main() {
    let (count, first) = count_and_first("writing", CASES);
    println!("{WRITER} against the Rust and document 01");
    let mut tally = Tally::default();
    for limit in limits::all() {
        tally.case("at the limits", limit.name, &encode(&limit.cell), &mut Rng::new(1));
    }
    for n in first..first + count {
        let (shape, make) = SHAPES[n as usize % SHAPES.len()];
        let mut rng = Rng::new(0x57_5249 + (n << 32));
        let strip = make(&mut rng);
        tally.case(shape, &format!("case {n}"), &strip, &mut rng);
    }
    tally.print();
    if tally.numbers.differences != 0 {
        exit(1);
    }
}
