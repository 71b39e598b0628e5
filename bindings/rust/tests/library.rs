//! The crate's calls on the sample cell, on large cells, and on input that they refuse.

use ynv::{
    count_seams, parse, parse_into, parse_within, pick_poly, serialize, serialize_into, spot_for_position, Refusal,
};

/// P12's vehicle: 688 bytes of pages.
const SAMPLE: &[u8] = include_bytes!("../../../crates/cellsum/stdin");

/// A map cell's record: area 4040 in a box from 0 to 150.
fn cell() -> Vec<u32> {
    let mut words = vec![1 << 28, 1, 4040, 0, 0];
    words.extend([0f32, 0.0, 0.0, 150.0, 150.0, 150.0, 150.0, 150.0, 150.0].map(f32::to_bits));
    words
}

/// A polygon without links or edges, of corners that no other of a cell's first 65,536 shares. Every other one lies at
/// the far end of the box, so that the polygon touches every leaf.
fn polygon(number: usize, corners: usize) -> Vec<u32> {
    let mut words = vec![2 << 28 | corners as u32, 0, 0, 0];
    for corner in (number * corners..).take(corners) {
        let side = if corner % 2 == 0 { 0.0 } else { 150.0 };
        let height = (corner % 65_536) as f32 * 150.0 / 65_535.0;
        words.extend([side, side, height].map(f32::to_bits));
    }
    words
}

fn strip(polygons: usize, corners: usize) -> Vec<u32> {
    let mut words = cell();
    (0..polygons).for_each(|number| words.extend(polygon(number, corners)));
    words.push(5 << 28);
    words
}

fn refusal(number: u32, place: u64) -> Refusal {
    Refusal::new(number, place)
}

#[test]
fn the_sample_there_and_back() {
    let (strip, counts) = parse(SAMPLE, &[]).unwrap();
    assert_eq!((strip.len(), counts.words, counts.sectors), (15, 15, 1));
    assert_eq!((counts.polys, counts.portals, counts.points), (0, 0, 0));
    assert_eq!(strip[2], 10_000);
    assert_eq!(serialize(&strip).unwrap().0, SAMPLE);
}

#[test]
fn lent_memory_is_enough() {
    // 8,192 polygons are the most that a leaf takes, and 67,582 corners the most that a cell takes.
    for (polygons, corners) in [(0, 3), (1, 3), (341, 3), (342, 3), (8192, 3), (8192, 8), (33, 2047)] {
        let written = strip(polygons, corners);
        let (pages, _) = serialize(&written).unwrap();
        let (read, counts) = parse(&pages, &[]).unwrap();
        assert_eq!((counts.polys, counts.words), (polygons, read.len()));
        assert_eq!(read.len(), written.len() + 6 * polygons * corners, "as many edges as vertices");
        assert!(read.len() <= ynv::strip_words(&pages, &[]));
        assert!(pages.len() <= ynv::pages_bytes(&written));
        // A quarter box may move when a corner has become its short, but then no byte moves any more.
        let (again, _) = serialize(&read).unwrap();
        assert_eq!(again.len(), pages.len());
        assert!(serialize(&parse(&again, &[]).unwrap().0).unwrap().0 == again);
    }
}

/// Pages of one polygon, with the list of polygons naming its one part so many times.
fn repeated(times: u32) -> Vec<u8> {
    let (mut pages, _) = serialize(&strip(1, 2047)).unwrap();
    let word = |pages: &[u8], at: usize| u32::from_le_bytes(pages[at..at + 4].try_into().unwrap());
    let offset = |pages: &[u8], at: usize| (word(pages, at) - 0x5000_0000) as usize;
    let list = offset(&pages, 0x118);
    let table = offset(&pages, list + 0x10);
    let entry = pages[table..table + 16].to_vec();
    let moved = pages.len() as u32 + 0x5000_0000;
    pages.extend(entry.repeat(times as usize));
    for (at, value) in [(list + 8, times), (list + 0x10, moved), (list + 0x20, times)] {
        pages[at..at + 4].copy_from_slice(&value.to_le_bytes());
    }
    pages
}

#[test]
fn a_cell_with_more_words_than_bytes() {
    let polygon = 4 + 9 * 2047;
    let pages = repeated(40);
    let (strip, counts) = parse(&pages, &[]).unwrap();
    assert_eq!((strip.len(), counts.polys), (15 + 40 * polygon, 40));
    assert!(strip.len() > pages.len());

    // Longer than any cell that can be written, and than some callers want.
    let pages = repeated(50);
    let length = 15 + 50 * polygon;
    assert!(length > ynv::MOST_WORDS);
    assert_eq!(parse(&pages, &[]).unwrap().0.len(), length);
    assert_eq!(parse_within(&pages, &[], length).unwrap().0.len(), length);
    assert_eq!(parse_within(&pages, &[], length - 1), Err(refusal(Refusal::OVER_CAP, 0)));
    assert_eq!(parse_within(&pages, &[], 0), Err(refusal(Refusal::OVER_CAP, 0)));
    let mut lent = vec![0; length];
    assert_eq!(parse_into(&pages, &[], &mut lent).unwrap().words, lent.len());
    // Longer than the limit of those who set none: nothing is answered that speaks of lent memory.
    assert_eq!(parse(&repeated(1000), &[]), Err(refusal(Refusal::OVER_CAP, 0)));
}

#[test]
fn refusals_change_nothing() {
    let mut lent = [7; 15];
    assert_eq!(parse_into(&SAMPLE[..687], &[], &mut lent), Err(refusal(34, 0)));
    assert_eq!(parse_into(SAMPLE, &[], &mut lent[..14]), Err(refusal(2, 0)));
    assert_eq!(lent, [7; 15]);

    let strip = strip(3, 3);
    let (mut work, mut pages) = (vec![0; ynv::work_words(&strip)], vec![7; ynv::pages_bytes(&strip)]);
    assert_eq!(serialize_into(&strip, &mut work[1..], &mut pages), Err(refusal(1, 0)));
    assert_eq!(serialize_into(&strip, &mut work, &mut pages[..100]), Err(refusal(2, 0)));
    assert!(pages.iter().all(|&byte| byte == 7));
}

/// A map cell whose second polygon has two corners.
fn two_corners() -> Vec<u32> {
    let mut words = cell();
    words.extend([polygon(0, 3), polygon(1, 2), vec![5 << 28]].concat());
    words
}

#[test]
fn work_behind_comes_back() {
    let (saved, refused) = (strip(100, 3), two_corners());
    let mut endless = refused.clone();
    endless.pop();
    // Accepted; room, work too short; a bad polygon; no end.
    for (strip, less_work, room, number) in [
        (&saved, 0, ynv::pages_bytes(&saved), 0),
        (&saved, 0, 100, 2),
        (&saved, 1, ynv::pages_bytes(&saved), 1),
        (&refused, 0, ynv::pages_bytes(&refused), 12),
        (&endless, 0, ynv::pages_bytes(&endless), 3),
    ] {
        let mut work: Vec<u32> = (0..(ynv::work_words(strip) - less_work) as u32).collect();
        let answer = serialize_into(strip, &mut work, &mut vec![0; room]);
        assert_eq!(answer.map_or_else(|refusal| refusal.number, |_| 0), number);
        let used = ynv::work_used(strip);
        assert!(work[used..].iter().zip(used as u32..).all(|(&word, number)| word == number), "after {number}");
    }
}

#[test]
fn refusals_name_their_place() {
    let two_corners = two_corners();
    assert_eq!(serialize(&two_corners), Err(refusal(12, 1)));

    let mut no_end = strip(2, 3);
    no_end.pop();
    assert_eq!(serialize(&no_end), Err(refusal(3, no_end.len() as u64)));
    assert_eq!(count_seams(&no_end), Err(refusal(3, no_end.len() as u64)));
    assert_eq!(count_seams(&[]), Err(refusal(3, 0)));
    assert_eq!(pick_poly(&no_end, 0, 0), Err(refusal(3, no_end.len() as u64)));

    // bb_max is infinite, and the strip has no end: 3 comes first.
    let mut infinite = cell();
    infinite[9] = f32::INFINITY.to_bits();
    assert_eq!(pick_poly(&infinite, 0, 0), Err(refusal(3, 14)));
    infinite.push(5 << 28);
    assert_eq!(pick_poly(&infinite, 0, 0), Err(refusal(10, 0)));
    assert_eq!(spot_for_position(&infinite, 0.0, 0.0), Err(refusal(10, 0)));

    // The list of indices lies where there are no bytes.
    let mut lost = SAMPLE.to_vec();
    lost[0x80..0x84].copy_from_slice(&0x5FFF_FFFFu32.to_le_bytes());
    assert_eq!(parse(&lost, &[]), Err(refusal(35, 2)));
}

/// Points stored and dropped, of a map cell and of a vehicle with these points in a box from 0 to 150.
fn points_of(points: &[(f32, f32)]) -> [(usize, usize); 2] {
    [1, 4].map(|content| {
        let mut words = cell();
        words[1] = content;
        words.extend(points.iter().flat_map(|(x, y)| [4 << 28, x.to_bits(), y.to_bits(), 0]));
        words.push(5 << 28);
        let (pages, written) = serialize(&words).unwrap();
        assert_eq!(written.points_stored + written.points_dropped, points.len());
        assert_eq!(parse(&pages, &[]).unwrap().1.points, written.points_stored);
        let (mut work, mut lent) = (vec![0; ynv::work_words(&words)], vec![0; pages.len()]);
        assert_eq!(serialize_into(&words, &mut work, &mut lent), Ok(written));
        assert_eq!((written.length, &lent), (pages.len(), &pages));
        (written.points_stored, written.points_dropped)
    })
}

#[test]
fn points_are_stored_once_or_dropped() {
    assert_eq!(points_of(&[]), [(0, 0); 2]);
    // Where two leaves meet, where four do, and on the border of the box.
    let borders = [(75.0, 10.0), (75.0, 75.0), (37.5, 112.5), (0.0, 0.0), (-0.0, 150.0), (150.0, 150.0)];
    assert_eq!(points_of(&borders), [(6, 0); 2]);
    let outside = [(-0.001, 75.0), (75.0, 150.001), (f32::NAN, 75.0), (75.0, f32::NAN), (f32::NEG_INFINITY, 0.0)];
    assert_eq!(points_of(&outside), [(0, 5); 2]);
    assert_eq!(points_of(&[borders.as_slice(), &outside].concat()), [(6, 5); 2]);
    // The forty benches.
    assert_eq!(points_of(&[vec![(20.0, 20.0); 38], vec![(151.0, 20.0); 2]].concat()), [(38, 2); 2]);
}

/// Coordinates pushed to the border of a box from 0 to 150, of a triangle, a portal and a point.
#[test]
fn coordinates_outside_are_counted() {
    let pushed = |corner: [f32; 3], from: [f32; 3], to: [f32; 3], point: [f32; 3]| {
        let mut words = cell();
        words[11..14].copy_from_slice(&[150f32; 3].map(f32::to_bits));
        words.extend([2 << 28 | 3, 0, 0, 0]);
        words.extend([corner, [1.0; 3], corner].concat().into_iter().map(f32::to_bits));
        words.extend([3 << 28, 0]);
        words.extend([from, to].concat().into_iter().map(f32::to_bits));
        words.extend([0, 0, 0, 4 << 28]);
        words.extend(point.map(f32::to_bits));
        words.push(5 << 28);
        serialize(&words).unwrap().1.coordinates_pushed
    };
    let inside = [0.0, 150.0, -0.0];
    assert_eq!(pushed(inside, inside, inside, inside), 0);
    // The corner stands there twice.
    assert_eq!(pushed([-1.0, 0.0, 150.1], inside, inside, inside), 4);
    assert_eq!(pushed(inside, [f32::NAN, 1.0, 1.0], inside, inside), 1);
    assert_eq!(pushed(inside, inside, [151.0, f32::INFINITY, -1.0], inside), 3);
    assert_eq!(pushed(inside, inside, inside, [200.0, 75.0, 75.0]), 1);
    // So little below the box that the fraction is -0.
    assert_eq!(pushed([-f32::from_bits(1); 3], inside, inside, inside), 0);
    assert_eq!(pushed([-1.0; 3], [-1.0; 3], [-1.0; 3], [-1.0; 3]), 15);
}

/// Two rectangles side by side, and one that covers both: a spot on the side that two share is in the right one alone,
/// and the lowest number is answered.
#[test]
fn under_the_cursor() {
    let mut words = cell();
    for (left, right) in [(50.0, 100.0), (0.0, 50.0), (0.0, 150.0)] {
        words.extend([2 << 28 | 4, 0, 0, 0]);
        let corners = [(left, 0.0), (right, 0.0), (right, 150.0), (left, 150.0)];
        words.extend(corners.into_iter().flat_map(|(x, y)| [x, y, 7.0].map(f32::to_bits)));
    }
    words.push(5 << 28);
    let at = |x, y| spot_for_position(&words, x, y).and_then(|(x, y)| pick_poly(&words, x, y));
    assert_eq!(at(50.0, 0.0), Ok(Some(0)));
    assert_eq!(at(49.9, 75.0), Ok(Some(1)));
    assert_eq!(at(100.0, 75.0), Ok(Some(2)));
    assert_eq!(at(150.0, 75.0), Ok(None));
    assert_eq!(at(75.0, 150.0), Ok(None));
    // Outside the box, or no number: pushed to the border, where a polygon may be.
    assert_eq!(at(-1.0, f32::NAN), Ok(Some(1)));
    assert_eq!(at(151.0, 75.0), Ok(None));
    assert_eq!(pick_poly(&strip(0, 3), 0, 0), Ok(None));
}
