//! Compares the polygon under the cursor and the spot of a position with the judge, since the
//! Rust has neither: 1,000,000 calls of each. Strip and answer are lent at four places in
//! guarded memory, the answer dirty. Prints where the spots lay and what was answered; exits 1
//! if there is any difference.

use std::collections::BTreeMap;
use std::process::exit;

use cases::spots::{self, Spot};
use cases::{damage, floats, Rng};
use compare::ffi_ynv;
use compare::guarded::{Place, PLACES};
use compare::lent::{expected, Memory};
use compare::tally::Tally;
use strips::{encode, outlines, pick, scan, spot, Refusal};

const CALLS: u64 = 1_000_000;
/// Calls with the same strip in a row.
const EACH: u64 = 4;

/// Where the memory of a call lies.
fn place(n: u64) -> Place {
    PLACES[(n / EACH) as usize % PLACES.len()]
}

/// Whether the spot lies on the side between two corners, ends included.
fn on_side(from: Spot, to: Spot, spot: Spot) -> bool {
    let apart = |a: u16, b: u16| i64::from(a) - i64::from(b);
    let within = |a: u16, b: u16, c: u16| a.min(b) <= c && c <= a.max(b);
    within(from.0, to.0, spot.0)
        && within(from.1, to.1, spot.1)
        && apart(to.0, from.0) * apart(spot.1, from.1) == apart(to.1, from.1) * apart(spot.0, from.0)
}

/// Where a spot lies, of polygons with three vertices or more.
fn lies(outlines: &[Vec<Spot>], spot: Spot) -> &'static str {
    let polygons = || outlines.iter().filter(|corners| corners.len() > 2);
    let bordered =
        |corners: &Vec<Spot>| (0..corners.len()).any(|n| on_side(corners[n], corners[(n + 1) % corners.len()], spot));
    if polygons().any(|corners| corners.contains(&spot)) {
        "on a vertex"
    } else if polygons().any(bordered) {
        "on a side"
    } else {
        "elsewhere"
    }
}

/// How often each was seen.
type Seen = BTreeMap<&'static str, u64>;

fn answered<T>(judged: Result<T, Refusal>, name: impl FnOnce(T) -> &'static str) -> &'static str {
    match judged {
        Ok(value) => name(value),
        Err(refusal) if refusal.number == 3 => "refused, 3",
        Err(_) => "refused, 10",
    }
}

fn picks() -> u64 {
    let (mut tally, mut rng, mut memory) = (Tally::new("pick_poly"), Rng::new(31), Memory::default());
    let (mut strip, mut corners) = (Vec::new(), Vec::new());
    let (mut places, mut answers) = (Seen::new(), Seen::new());
    for n in 0..CALLS {
        if n.is_multiple_of(EACH) {
            strip = spots::strip(&mut rng);
            corners = scan(&strip).map_or(Vec::new(), |cell| outlines(&cell));
            memory.hold(place(n), &strip);
        }
        let (x, y) = spots::spot(&mut rng, &corners);
        let judged = pick(&strip, x, y);
        let found = judged.map(|poly| poly.map_or([0, 0], |number| [1, number as u64]));
        let left = memory.called(place(n), &strip, |strip, answer| ffi_ynv::pick_poly(strip, x, y, answer));
        tally.compare((x, y, &strip), left, expected(found));
        let lies = if judged.is_ok() { lies(&corners, (x, y)) } else { "elsewhere" };
        *places.entry(lies).or_default() += 1;
        let name = |poly: Option<usize>| if poly.is_some() { "a polygon" } else { "none" };
        *answers.entry(answered(judged, name)).or_default() += 1;
    }
    println!("spots: {places:?}\nanswers: {answers:?}");
    assert!(places["elsewhere"] <= CALLS / 2, "too few spots on borders");
    tally.done()
}

/// A strip with any box, or a damaged one, and the axes' lo and extent.
fn boxed(rng: &mut Rng) -> (Vec<u32>, [(f32, f32); 2]) {
    let mut cell = damage::small(rng);
    if rng.once_in(2) {
        let (x, y) = (floats::axis(rng), floats::axis(rng));
        (cell.bb_min.x, cell.bb_size.x) = x;
        (cell.bb_min.y, cell.bb_size.y) = y;
    }
    let axes = [(cell.bb_min.x, cell.bb_size.x), (cell.bb_min.y, cell.bb_size.y)];
    (if rng.once_in(8) { damage::strip(rng) } else { encode(&cell) }, axes)
}

fn positions() -> u64 {
    let (mut tally, mut rng, mut memory) = (Tally::new("spot_for_position"), Rng::new(32), Memory::default());
    let (mut strip, mut axes) = (Vec::new(), [(0.0, 1.0); 2]);
    let mut answers = Seen::new();
    for n in 0..CALLS {
        if n.is_multiple_of(EACH) {
            (strip, axes) = boxed(&mut rng);
            memory.hold(place(n), &strip);
        }
        let [x, y] = axes.map(|(lo, extent)| floats::on_axis(&mut rng, lo, extent));
        let judged = spot(&strip, x, y);
        let left = memory.called(place(n), &strip, |strip, answer| ffi_ynv::spot_for_position(strip, x, y, answer));
        let shorts = judged.map(|(x, y)| [u64::from(x), u64::from(y)]);
        tally.compare((x.to_bits(), y.to_bits(), &strip), left, expected(shorts));
        *answers.entry(answered(judged, |_| "a spot")).or_default() += 1;
    }
    println!("answers: {answers:?}");
    tally.done()
}

fn main() {
    println!("libynv.a, compared with the judge");
    if picks() + positions() > 0 {
        exit(1);
    }
}
