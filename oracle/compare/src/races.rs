//! The library against the Rust on the same pages and cells: single calls of each side, to
//! be timed or counted. Both sides were called once and agreed before a race is handed out.
//!
//! `parse_ynv` and `serialize_ynv` are taken alone: the stand-in for `prepare_rsc7` hands
//! over the sections without a copy, what `parse_ynv` returns is dropped apart from the
//! call, and the stand-in for `build_rsc7_paged` returns no copy of the bytes. Ours writes
//! from the strip, the Rust from its own vectors. What ours is lent is exactly long enough
//! and isn't cleared between calls.

use std::hint::black_box;
use std::sync::atomic::Ordering;

use cases::pages::Pages;
use cases::spots::Spot;
use rage::resource::{container, NO_COPY};
use rage::ynv::{parse_ynv, serialize_ynv, Ynv};
use strips::{encode, pick, seams};

use crate::timing::{Race, MOST_CALLS};
use crate::{ffi_ynv, plain, plain_seams};

/// Cells with fewer strip words are dropped at the end of a run, others after each call:
/// many small ones need no fresh memory, and the clock would count for much.
const SMALL: usize = 100;

pub struct Reading {
    pages: Pages,
    data: Vec<u8>,
    strip: Vec<u32>,
    kept: Vec<Ynv>,
}

impl Reading {
    /// Both sides' strips must be equal.
    pub fn of(pages: Pages) -> Reading {
        let data = container(&pages.system, &pages.graphics);
        let words = encode(&parse_ynv(&data).expect("pages that are accepted"));
        let mut strip = vec![0; words.len()];
        assert_eq!(ffi_ynv::parse(&pages.system, &pages.graphics, &mut strip, &mut [0; 8]), 0, "refused");
        assert!(strip == words, "strips differ");
        Reading { pages, data, strip, kept: Vec::with_capacity(MOST_CALLS as usize) }
    }

    pub fn bytes(&self) -> usize {
        self.pages.system.len() + self.pages.graphics.len()
    }

    pub fn polys(&self) -> usize {
        self.pages.u32(self.pages.offset(0x118).unwrap() + 8) as usize
    }
}

impl Race for Reading {
    fn our_call(&mut self) {
        let (system, graphics) = (black_box(&self.pages.system), &self.pages.graphics);
        black_box(ffi_ynv::parse(system, graphics, &mut self.strip, &mut [0; 8]));
    }

    fn rust_call(&mut self) {
        self.kept.push(parse_ynv(black_box(&self.data)).unwrap());
    }

    fn drop_kept(&mut self) {
        self.kept.clear();
    }

    fn keeps_many(&self) -> bool {
        self.strip.len() < SMALL
    }
}

pub struct Writing {
    cell: Ynv,
    strip: Vec<u32>,
    work: Vec<u32>,
    pages: Vec<u8>,
}

impl Writing {
    /// Both sides' bytes must be equal.
    pub fn of(cell: Ynv) -> Writing {
        let bytes = serialize_ynv(&cell).expect("a cell that is accepted");
        let strip = encode(&cell);
        let (mut work, mut pages) = (vec![0; 4 * strip.len()], vec![0; bytes.len()]);
        assert_eq!(ffi_ynv::serialize(&strip, &mut work, &mut pages, &mut [0; 8]), 0, "refused");
        assert!(pages == bytes, "bytes differ");
        Writing { cell, strip, work, pages }
    }

    pub fn bytes(&self) -> usize {
        self.pages.len()
    }

    pub fn polys(&self) -> usize {
        self.cell.polys.len()
    }
}

impl Race for Writing {
    fn our_call(&mut self) {
        let strip = black_box(&self.strip);
        black_box(ffi_ynv::serialize(strip, &mut self.work, &mut self.pages, &mut [0; 8]));
    }

    fn rust_call(&mut self) {
        NO_COPY.store(true, Ordering::Relaxed);
        black_box(serialize_ynv(black_box(&self.cell)).unwrap());
        NO_COPY.store(false, Ordering::Relaxed);
    }

    fn drop_kept(&mut self) {}

    fn keeps_many(&self) -> bool {
        true
    }
}

/// The polygon under the cursor, against plain Rust on the same strip.
pub struct Picking {
    strip: Vec<u32>,
    spot: Spot,
}

impl Picking {
    /// Both sides' answers must be the judge's.
    pub fn of(cell: &Ynv, (x, y): Spot) -> Picking {
        let strip = encode(cell);
        let judged = pick(&strip, x, y).expect("a strip that is accepted");
        assert_eq!(plain::pick(&strip, x, y), Ok(judged), "plain Rust differs");
        let mut answer = [0; 8];
        assert_eq!(ffi_ynv::pick_poly(&strip, x, y, &mut answer), 0, "refused");
        assert_eq!(answer[..2], judged.map_or([0, 0], |number| [1, number as u64]), "the library differs");
        Picking { strip, spot: (x, y) }
    }

    pub fn bytes(&self) -> usize {
        4 * self.strip.len()
    }
}

impl Race for Picking {
    fn our_call(&mut self) {
        let (strip, (x, y)) = black_box((&self.strip, self.spot));
        black_box(ffi_ynv::pick_poly(strip, x, y, &mut [0; 8]));
    }

    fn rust_call(&mut self) {
        let (strip, (x, y)) = black_box((&self.strip, self.spot));
        let _ = black_box(plain::pick(strip, x, y));
    }

    fn drop_kept(&mut self) {}

    fn keeps_many(&self) -> bool {
        true
    }
}

/// The seam count, against plain Rust on the same strip that finds the areas which touch the
/// cell's before it goes through the halves.
pub struct Seams {
    strip: Vec<u32>,
}

impl Seams {
    /// Both sides' counts must be the judge's.
    pub fn of(cell: &Ynv) -> Seams {
        let strip = encode(cell);
        let judged = seams(&strip).expect("a strip that is accepted");
        assert_eq!(plain_seams::seams_by_neighbours(&strip), Ok(judged), "plain Rust differs");
        let mut answer = [0; 8];
        assert_eq!(ffi_ynv::count_seams(&strip, &mut answer), 0, "refused");
        assert_eq!(answer[0], judged, "the library differs");
        Seams { strip }
    }
}

impl Race for Seams {
    fn our_call(&mut self) {
        black_box(ffi_ynv::count_seams(black_box(&self.strip), &mut [0; 8]));
    }

    fn rust_call(&mut self) {
        let _ = black_box(plain_seams::seams_by_neighbours(black_box(&self.strip)));
    }

    fn drop_kept(&mut self) {}

    fn keeps_many(&self) -> bool {
        true
    }
}

/// Once the greatest vectors were freed, the allocator keeps memory of that size instead of
/// returning it: times no longer depend on the rows before, to the Rust's favour.
pub fn settle(race: &mut impl Race) {
    for _ in 0..3 {
        race.rust_call();
        race.drop_kept();
    }
}
