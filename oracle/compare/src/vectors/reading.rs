//! The reader's list: records `[7, system bytes, graphics bytes, strip words lent, number,
//! place or words, polygons, portals, points, sectors]`, behind them the system section and
//! the graphics section, each padded with zeros to whole words, and the strip where the
//! number is 0. The last record is `[0]`. Small pages of all shapes, every number of reading.

use std::collections::BTreeMap;

use cases::pages::{fixed_of, vehicle_sample, Pages, SHAPES};
use cases::Rng;

use crate::reading::Read;

/// No list is longer.
pub const MOST_BYTES: usize = 700_000;
/// Of a case's two sections, and of its strip.
const MOST_PAGES: usize = 2048;
const MOST_STRIP: usize = 400;
/// Seeded cases tried of each shape, and those taken of each number.
const TRIED: usize = 6000;
const ACCEPTED: usize = 28;
const REFUSED: usize = 5;

#[derive(Default)]
pub struct Readings {
    words: Vec<u32>,
    /// Records of each number.
    pub counts: BTreeMap<u32, usize>,
}

/// Bytes as words, the last one filled with zeros.
pub fn padded(bytes: &[u8]) -> impl Iterator<Item = u32> + '_ {
    bytes.chunks(4).map(|c| c.iter().rev().fold(0, |w, &byte| w << 8 | byte as u32))
}

impl Readings {
    fn add(&mut self, pages: &Pages, read: &Read, lent: usize) {
        let (number, values, strip) = match read.lent(lent) {
            Ok((words, values)) => (0, values, words),
            Err(refusal) => (refusal.number, [refusal.place as u64, 0, 0, 0, 0, 0, 0, 0], &[][..]),
        };
        self.words.extend([7, pages.system.len() as u32, pages.graphics.len() as u32, lent as u32, number]);
        self.words.extend(values[..5].iter().map(|&value| value as u32));
        self.words.extend(padded(&pages.system).chain(padded(&pages.graphics)));
        self.words.extend_from_slice(strip);
        *self.counts.entry(number).or_insert(0) += 1;
    }

    /// The list as bytes, its last record added.
    pub fn bytes(&self) -> Vec<u8> {
        self.words.iter().chain(&[0]).flat_map(|w| w.to_le_bytes()).collect()
    }
}

/// Whether pages and what they derive are small enough for the list.
fn is_small(pages: &Pages, read: &Read) -> bool {
    let strip = if let Read::Strip { words, .. } = read { words.len() } else { 0 };
    pages.system.len() + pages.graphics.len() <= MOST_PAGES && strip <= MOST_STRIP
}

/// Seeded pages of one shape, with a strip long enough or, once there are enough of these,
/// one word short.
fn shaped(out: &mut Readings, make: fn(&mut Rng) -> Pages, seed: u64) {
    let mut rng = Rng::new(seed);
    let mut taken = BTreeMap::new();
    let mut take = |number: u32| {
        let count = taken.entry(number).or_insert(0);
        *count += 1;
        *count <= if number == 0 { ACCEPTED } else { REFUSED }
    };
    for _ in 0..TRIED {
        let pages = make(&mut rng);
        let (read, more) = (Read::of(&pages), rng.below(3));
        match &read {
            _ if !is_small(&pages, &read) => {}
            Read::Refused(refusal) if take(refusal.number) => out.add(&pages, &read, 15 * more),
            Read::Refused(_) => {}
            Read::Strip { words, .. } if take(0) => out.add(&pages, &read, words.len() + more),
            Read::Strip { words, .. } if take(2) => out.add(&pages, &read, words.len() - 1),
            Read::Strip { .. } => {}
        }
    }
}

/// The fixed pages, then the shapes.
pub fn all() -> Readings {
    let mut out = Readings::default();
    for case in fixed_of(&vehicle_sample()) {
        let read = Read::of(&case.pages);
        if is_small(&case.pages, &read) {
            let lent = if let Read::Strip { words, .. } = &read { words.len() } else { 0 };
            out.add(&case.pages, &read, lent);
        }
    }
    for (n, (_, make)) in SHAPES.into_iter().enumerate() {
        shaped(&mut out, make, 110 + n as u64);
    }
    out
}
