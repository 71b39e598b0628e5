//! Calls of the reader held to what they must answer: number, place or values, words, and
//! that nothing else changed.

use cases::pages::Pages;
use strips::{counts, expected_read, scan, Counts, ReadAnswer, Refusal};

use crate::under_test;

/// Words that lie around a lent strip and are not lent.
const MARGIN: usize = 8;
const DIRT: u64 = 0xD1D1_D1D1_D1D1_D1D1;

/// The answer words of an accepted call.
pub fn values(words: usize, counts: Counts, sectors: usize) -> [u64; 8] {
    let mut out = [0; 8];
    for (to, value) in out.iter_mut().zip([words, counts.polys, counts.portals, counts.points, sectors]) {
        *to = value as u64;
    }
    out
}

/// What pages derive, by the judge, and for accepted ones the Rust.
pub enum Read {
    Refused(Refusal),
    Strip { words: Vec<u32>, values: [u64; 8] },
}

impl Read {
    pub fn of(pages: &Pages) -> Read {
        match expected_read(&pages.system, &pages.graphics, usize::MAX) {
            ReadAnswer::Refused(refusal) => Read::Refused(refusal),
            ReadAnswer::Strip { words, sectors } => {
                let counts = counts(&scan(&words).expect("a derived strip is well formed"));
                let values = values(words.len(), counts, sectors);
                Read::Strip { words, values }
            }
        }
    }

    /// The words and values of an accepted call, or its refusal, with a strip this long.
    pub fn lent(&self, length: usize) -> Result<(&[u32], [u64; 8]), Refusal> {
        match self {
            Read::Refused(refusal) => Err(*refusal),
            Read::Strip { words, .. } if length < words.len() => Err(Refusal::new(2, 0)),
            Read::Strip { words, values } => Ok((words, *values)),
        }
    }
}

/// One call with a strip of `length` dirty words. The number that it must answer; or what
/// it did instead.
pub fn call(pages: &Pages, read: &Read, length: usize) -> Result<u32, String> {
    let before: Vec<u32> = (0..(length + 2 * MARGIN) as u32).map(|n| 0xDEAD_0000 ^ n.wrapping_mul(0x9E37)).collect();
    let (mut wanted, mut wanted_answer) = (before.clone(), [DIRT; 8]);
    let wanted_number = match read.lent(length) {
        Ok((words, values)) => {
            wanted[MARGIN..MARGIN + words.len()].copy_from_slice(words);
            wanted_answer = values;
            0
        }
        Err(refusal) => {
            wanted_answer[0] = refusal.place as u64;
            refusal.number
        }
    };
    let (sections, mut strip, mut answer) = (pages.clone(), before, [DIRT; 8]);
    let lent = &mut strip[MARGIN..MARGIN + length];
    let number = under_test::parse(&sections.system, &sections.graphics, lent, &mut answer);
    if (number, answer) != (wanted_number, wanted_answer) {
        return Err(format!("answers {number} {answer:x?}, not {wanted_number} {wanted_answer:x?}"));
    }
    if let Some(at) = (0..strip.len()).find(|&at| strip[at] != wanted[at]) {
        let (place, found, word) = (at as isize - MARGIN as isize, strip[at], wanted[at]);
        return Err(format!("word {place} of {length} is {found:#x}, not {word:#x}"));
    }
    if sections.system != pages.system || sections.graphics != pages.graphics {
        return Err("a section changed".into());
    }
    Ok(number)
}
