//! The judge and the Rust on random cells, strips and pages: they accept the same but
//! for the added refusals, and where both refuse, the Rust's message names the same
//! fault at the same place.

use std::collections::BTreeMap;

use cases::{cells, damage, pages, points, Rng};
use rage::ynv::Ynv;
use strips::{counts, derive, encode, judge_write, laid_out, point_counts, refuses_reading, refuses_writing, reread};
use strips::{rust_read, rust_write, scan, RustRead, RustWrite};

const CASES: u64 = 30_000;

fn tally(name: &str, seen: &BTreeMap<u32, u32>) {
    println!("{name}: number of cases by refusal (0: accepted, 1000: not run) {seen:?}");
}

#[test]
fn writing() {
    let mut rng = Rng::new(1);
    let mut seen = BTreeMap::new();
    for n in 0..CASES {
        let cell = match n % 4 {
            0 => cells::valid(&mut rng),
            1 => scan(&points::about_leaves(&mut rng)).expect("a cell"),
            _ => cells::wild(&mut rng),
        };
        let judged = judge_write(&cell);
        *seen.entry(judged.err().map_or(0, |r| r.number)).or_insert(0) += 1;
        match (judged, rust_write(&cell)) {
            (Ok(()), RustWrite::Bytes(bytes)) => {
                assert!(bytes == laid_out(&cell), "case {n}: document 01's pages are not the Rust's");
                read_back(&cell, &bytes);
            }
            (Err(r), done) if refuses_writing(r, &cell, &done) => {}
            (judged, done) => panic!("case {n}: judged {judged:?}, the Rust {done:?}"),
        }
    }
    tally("writing", &seen);
}

fn read_back(cell: &Ynv, bytes: &[u8]) {
    let RustRead::Cell(read) = rust_read(bytes, &[]) else { panic!("the Rust doesn't read what it wrote") };
    let derived = derive(bytes, &[]).expect("written pages derive a strip");
    let words = encode(&read);
    assert_eq!(words, encode(&derived.cell));
    assert_eq!(words, encode(&reread(cell)));
    let points = point_counts(cell);
    assert_eq!((points.stored, points.stored + points.dropped), (read.points.len(), cell.points.len()));
    assert_eq!(derived.sectors, if cell.content_flags & 4 != 0 { 1 } else { 21 });
    assert_eq!(derive(&[bytes, &[0; 100]].concat(), &[0; 8]).unwrap(), derived);
}

#[test]
fn reading() {
    let mut rng = Rng::new(2);
    let mut seen = BTreeMap::new();
    for n in 0..CASES {
        let p = pages::any(&mut rng);
        let derived = derive(&p.system, &p.graphics);
        *seen.entry(derived.as_ref().err().map_or(0, |r| r.number)).or_insert(0) += 1;
        match (derived, rust_read(&p.system, &p.graphics)) {
            (Ok(derived), RustRead::Cell(cell)) => assert_eq!(encode(&derived.cell), encode(&cell), "case {n}"),
            (Err(r), done) if refuses_reading(r, &done) => {
                *seen.entry(1000).or_insert(0) += (done == RustRead::NotRun) as u32;
            }
            (derived, done) => panic!("case {n}: judged {derived:?}, the Rust {done:?}"),
        }
    }
    tally("reading", &seen);
    assert!(seen[&1000] < CASES as u32 / 10 && seen[&0] > CASES as u32 / 4);
}

/// Extent from 128 to 4096, lo and lo + extent within -16384 to 16384, on each axis:
/// shorts survive being turned back and again.
fn keeps_shorts(cell: &Ynv) -> bool {
    let axis = |lo: f32, extent: f32| {
        let near = |x: f32| (-16384.0..=16384.0).contains(&x);
        (128.0..=4096.0).contains(&extent) && near(lo) && near(lo + extent)
    };
    let (lo, size) = (cell.bb_min, cell.bb_size);
    axis(lo.x, size.x) && axis(lo.y, size.y) && axis(lo.z, size.z)
}

/// What was read is saved, read and saved again: the same bytes for such boxes.
#[test]
fn saved_again() {
    let mut rng = Rng::new(3);
    let mut rounds = 0;
    for n in 0..CASES {
        let p = pages::any(&mut rng);
        let Ok(derived) = derive(&p.system, &p.graphics) else { continue };
        if judge_write(&derived.cell).is_err() || !keeps_shorts(&derived.cell) {
            continue;
        }
        let RustWrite::Bytes(first) = rust_write(&derived.cell) else { panic!("case {n}: not written") };
        let RustRead::Cell(again) = rust_read(&first, &[]) else { panic!("case {n}: not read again") };
        assert_eq!(rust_write(&again), RustWrite::Bytes(first), "case {n}");
        rounds += 1;
    }
    println!("saved again: {rounds} pages");
    assert!(rounds > CASES / 5);
}

#[test]
fn strips_and_cells() {
    let mut rng = Rng::new(4);
    let mut seen = BTreeMap::new();
    for _ in 0..CASES {
        let cell = cells::wild(&mut rng);
        let words = encode(&cell);
        let again = scan(&words).expect("an encoded cell");
        assert_eq!(encode(&again), words);
        assert_eq!(counts(&again), counts(&cell));

        let strip = damage::strip(&mut rng);
        match scan(&strip) {
            Ok(cell) => assert_eq!(encode(&cell), strip),
            Err(place) => assert!(place <= strip.len()),
        }
        *seen.entry(scan(&strip).map_or(3, |_| 0)).or_insert(0) += 1;
    }
    tally("strips", &seen);

    // Each unnamed bit by itself is refused at its record.
    for _ in 0..200 {
        let cell = damage::small(&mut rng);
        let words = encode(&cell);
        let starts = damage::records(&cell);
        for (at, low, high) in damage::unnamed(&cell) {
            for bit in low..high {
                let mut bad = words.clone();
                bad[at] |= 1 << bit;
                let record = starts.iter().rev().find(|&&s| s <= at);
                assert_eq!(scan(&bad).err().as_ref(), record);
            }
        }
    }
}
