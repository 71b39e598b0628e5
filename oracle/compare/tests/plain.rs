//! The plain Rust that the polygon under the cursor and the seam count are timed against, held to
//! the judge.

use cases::{damage, neighbours, spots, Rng};
use compare::{plain, plain_seams};
use strips::{outlines, pick, scan, seams};

#[test]
fn plain_picks_as_judged() {
    let mut rng = Rng::new(33);
    for _ in 0..50_000 {
        let strip = spots::strip(&mut rng);
        let corners = scan(&strip).map_or(Vec::new(), |cell| outlines(&cell));
        let (x, y) = spots::spot(&mut rng, &corners);
        assert_eq!(plain::pick(&strip, x, y), pick(&strip, x, y), "({x}, {y}) in {strip:x?}");
    }
}

#[test]
fn plain_counts_as_judged() {
    let mut rng = Rng::new(34);
    for n in 0..50_000 {
        let strip = if n % 4 == 0 { damage::strip(&mut rng) } else { neighbours::strip(&mut rng) };
        let judged = seams(&strip);
        assert_eq!(plain_seams::seams(&strip), judged, "{strip:x?}");
        assert_eq!(plain_seams::seams_by_neighbours(&strip), judged, "by neighbours: {strip:x?}");
    }
}
