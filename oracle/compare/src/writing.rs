//! Calls of the writer held to what they must answer: number, place or values, bytes, and
//! that nothing else changed; and what reading the written pages gives.

use rage::resource::u32_le;
use rage::ynv::Ynv;
use strips::{counts, encode, expected_write, laid_out, point_counts, pushed, reread, scan};
use strips::{PointCounts, Refusal, WriteAnswer};

use crate::reading;
use crate::under_test;

/// Words and bytes that lie around what is lent and are not lent.
const MARGIN: usize = 8;
const DIRT: u64 = 0xD1D1_D1D1_D1D1_D1D1;
/// Where the header counts the points stored.
const POINTS_STORED: usize = 0x148;

/// The answer words of an accepted call.
pub fn values(length: usize, points: PointCounts, pushed: u64) -> [u64; 8] {
    [length as u64, points.stored as u64, points.dropped as u64, pushed, 0, 0, 0, 0]
}

/// What a strip's cell gives when work and room suffice, by the judge, and for accepted
/// ones the Rust's bytes, which must be those that document 01 alone gives.
pub enum Write {
    Refused(Refusal),
    Pages { bytes: Vec<u8>, values: [u64; 8] },
}

/// The points of an accepted cell by the judge, which must be the strip's, and the Rust's
/// where its header counts them.
fn judged_points(cell: &Ynv, bytes: &[u8]) -> PointCounts {
    let points = point_counts(cell);
    assert_eq!(points.stored + points.dropped, cell.points.len(), "stored and dropped are not the cell's points");
    assert_eq!(points.stored, u32_le(bytes, POINTS_STORED) as usize, "document 02's points are not the Rust's");
    points
}

impl Write {
    pub fn of(strip: &[u32]) -> Write {
        match expected_write(strip, usize::MAX, usize::MAX) {
            WriteAnswer::Refused(refusal) => Write::Refused(refusal),
            WriteAnswer::Bytes(bytes) => {
                let cell = scan(strip).expect("an accepted strip is well formed");
                assert!(bytes == laid_out(&cell), "document 01's pages are not the Rust's");
                let values = values(bytes.len(), judged_points(&cell, &bytes), pushed(&cell));
                Write::Pages { bytes, values }
            }
        }
    }

    /// The bytes and values of an accepted call, or its refusal, with work and room this long.
    pub fn lent(&self, strip: usize, work: usize, room: usize) -> Result<(&[u8], [u64; 8]), Refusal> {
        match self {
            Write::Refused(refusal) if refusal.number == 3 => Err(*refusal),
            _ if work / 4 < strip => Err(Refusal::new(1, 0)),
            Write::Refused(refusal) => Err(*refusal),
            Write::Pages { bytes, .. } if room < bytes.len() => Err(Refusal::new(2, 0)),
            Write::Pages { bytes, values } => Ok((bytes, *values)),
        }
    }
}

/// What lies in lent memory before a call.
fn dirty(n: usize) -> u32 {
    0xDEAD_0000 ^ (n as u32).wrapping_mul(0x9E37_79B1)
}

/// The place of the first item that differs, counted from where the lent ones start.
fn differs<T: PartialEq>(found: &[T], wanted: &[T], from: usize) -> Option<isize> {
    let at = (from..found.len()).find(|&at| found[at] != wanted[at])?;
    Some(at as isize - MARGIN as isize)
}

/// A call that answered what it must.
pub struct Called {
    pub number: u32,
    /// The points stored, by its answer; 0 for a refusal.
    pub stored: u64,
    /// The lent pages behind it.
    pub pages: Vec<u8>,
}

/// One call with so many dirty words of work and dirty bytes of room; or what it did instead
/// of what it must.
pub fn call(strip: &[u32], write: &Write, work: usize, room: usize) -> Result<Called, String> {
    let work_before: Vec<u32> = (0..work + 2 * MARGIN).map(dirty).collect();
    let mut wanted: Vec<u8> = (0..room + 2 * MARGIN).map(|n| (dirty(n) >> 24) as u8).collect();
    let (mut pages, mut wanted_answer) = (wanted.clone(), [DIRT; 8]);
    let wanted_number = match write.lent(strip.len(), work, room) {
        Ok((bytes, values)) => {
            wanted[MARGIN..MARGIN + bytes.len()].copy_from_slice(bytes);
            wanted_answer = values;
            0
        }
        Err(refusal) => {
            wanted_answer[0] = refusal.place as u64;
            refusal.number
        }
    };
    let (words, mut lent_work, mut answer) = (strip.to_vec(), work_before.clone(), [DIRT; 8]);
    let number = under_test::serialize(
        &words,
        &mut lent_work[MARGIN..MARGIN + work],
        &mut pages[MARGIN..MARGIN + room],
        &mut answer,
    );
    if (number, answer) != (wanted_number, wanted_answer) {
        return Err(format!("answers {number} {answer:x?}, not {wanted_number} {wanted_answer:x?}"));
    }
    if let Some(at) = differs(&pages, &wanted, 0) {
        return Err(format!("byte {at} of {room} isn't what it must be"));
    }
    if lent_work[..MARGIN] != work_before[..MARGIN] {
        return Err("a word before the work changed".into());
    }
    let free = MARGIN + work.min(2 * strip.len());
    if let Some(at) = differs(&lent_work, &work_before, free) {
        return Err(format!("word {at} of {work} words of work changed, with {} words of strip", strip.len()));
    }
    if words != strip {
        return Err("the strip changed".into());
    }
    pages.truncate(MARGIN + room);
    let pages = pages.split_off(MARGIN);
    let stored = if number == 0 { answer[1] } else { 0 };
    if number == 0 && stored != u64::from(u32_le(&pages, POINTS_STORED)) {
        return Err(format!("answers {stored} points stored, its header {}", u32_le(&pages, POINTS_STORED)));
    }
    Ok(Called { number, stored, pages })
}

/// What reading an accepted strip's pages must give: words and answer.
pub struct Reread {
    words: Vec<u32>,
    values: [u64; 8],
}

impl Reread {
    pub fn of(strip: &[u32]) -> Reread {
        let cell = scan(strip).expect("an accepted strip is well formed");
        let sectors = if cell.content_flags & 4 != 0 { 1 } else { 21 };
        let read = reread(&cell);
        let words = encode(&read);
        let values = reading::values(words.len(), counts(&read), sectors);
        Reread { words, values }
    }

    /// Reads what a call wrote, with a graphics section beside it, into a strip exactly long
    /// enough.
    pub fn call(&self, written: &Called, graphics: &[u8]) -> Result<(), String> {
        let (mut strip, mut answer) = (vec![0xDEAD_BEEF; self.words.len()], [DIRT; 8]);
        let number = under_test::parse(&written.pages, graphics, &mut strip, &mut answer);
        if (number, answer) != (0, self.values) {
            return Err(format!("read back, answers {number} {answer:x?}, not 0 {:x?}", self.values));
        }
        if answer[3] != written.stored {
            return Err(format!("read back, {} points, of {} stored", answer[3], written.stored));
        }
        match (0..strip.len()).find(|&at| strip[at] != self.words[at]) {
            Some(at) => Err(format!("read back, word {at} is {:#x}, not {:#x}", strip[at], self.words[at])),
            None => Ok(()),
        }
    }
}
