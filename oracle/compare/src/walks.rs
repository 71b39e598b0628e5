//! Calls for where a walker can get to held to the judge: number, place or count, every byte of the
//! marks, and that nothing else changed. Strip, marks and answer are lent at four places in guarded
//! memory, marks and answer dirty.

use cases::walks::SHAPES;
use cases::Rng;
use strips::{reach, scan, Refusal};

use crate::guarded::{Lender, Place, PLACES};
use crate::tally::ByNumber;

/// What is compared: a call as the C entry has it, with the strip, the start, the marks and the answer.
pub trait Call: FnMut(&[u32], u64, &mut [u8], &mut [u64; 8]) -> u32 {}

impl<F: FnMut(&[u32], u64, &mut [u8], &mut [u64; 8]) -> u32> Call for F {}

/// What is lent.
#[derive(Default)]
struct Memory {
    strip: Lender<u32>,
    marks: Lender<u8>,
    answer: Lender<u64>,
}

impl Memory {
    /// One call with so many bytes; or what it did instead of what it must. The strip is lent already.
    fn call(
        &mut self,
        place: Place,
        strip: &[u32],
        start: u64,
        room: usize,
        judged: &Result<Vec<u8>, Refusal>,
        call: &mut impl Call,
    ) -> Result<u32, String> {
        self.marks.dirty(place, room);
        self.answer.dirty(place, 8);
        let number = call(self.strip.lent(), start, self.marks.lent(), self.answer.lent().try_into().unwrap());
        let (wanted, value, bytes, own) = match judged {
            Ok(marks) => (0, marks.iter().filter(|&&mark| mark == 1).count() as u64, &marks[..], 8),
            Err(refusal) => (refusal.number, refusal.place as u64, &[][..], 1),
        };
        let answer = self.answer.items();
        if number != wanted || answer[0] != value {
            return Err(format!("answers {number} with {}, not {wanted} with {value}", answer[0]));
        }
        if answer[1..own].iter().any(|&word| word != 0) {
            return Err(format!("the answer's other words are not 0: {answer:x?}"));
        }
        let marks = &self.marks.items()[..bytes.len()];
        if let Some(at) = (0..bytes.len()).find(|&at| marks[at] != bytes[at]) {
            return Err(format!("polygon {at} is marked {}, not {}", marks[at], bytes[at]));
        }
        if !self.marks.stays_from(bytes.len()) {
            return Err("a byte behind the polygons, or around the marks, changed".into());
        }
        if !self.answer.stays_from(own) {
            return Err("a word of the answer, or around it, changed that must stay".into());
        }
        if !self.strip.stays_as(strip) {
            return Err("the strip, or what lies around it, changed".into());
        }
        Ok(number)
    }
}

/// Calls by number answered, by shape; and what the accepted ones marked.
#[derive(Default)]
pub struct Comparison {
    numbers: ByNumber,
    memory: Memory,
    cases: u64,
    calls: u64,
    alone: u64,
    all: u64,
    marked: u64,
}

impl Comparison {
    fn one(&mut self, shape: &'static str, name: &str, strip: &[u32], start: u64, room: usize, call: &mut impl Call) {
        let place = PLACES[self.cases as usize % PLACES.len()];
        let judged = reach(strip, start, room);
        self.calls += 1;
        match self.memory.call(place, strip, start, room, &judged, call) {
            Ok(number) => self.numbers.seen(shape, number),
            Err(text) => {
                self.numbers.differs(shape, name, format!("start {start}, {room} bytes lent, {place:?}: {text}"))
            }
        }
        if let Ok(marks) = judged {
            let count = marks.iter().filter(|&&mark| mark == 1).count();
            self.marked += count as u64;
            self.alone += (count == 1) as u64;
            self.all += (count == marks.len()) as u64;
        }
    }

    /// A cell and a polygon to start from, with a byte to a polygon, a few more, and one too few.
    pub fn fixed(&mut self, name: &str, strip: &[u32], start: usize, call: &mut impl Call) {
        let count = scan(strip).map_or(0, |cell| cell.polys.len());
        self.memory.strip.holding(PLACES[self.cases as usize % PLACES.len()], strip);
        for room in [count, count + 17, count.saturating_sub(1)] {
            self.one("fixed", name, strip, start as u64, room, call);
        }
        self.cases += 1;
    }

    /// A strip with four starts: two polygons, and two that may be none; bytes enough, more, or too few.
    pub fn case(&mut self, shape: &'static str, name: &str, strip: &[u32], rng: &mut Rng, call: &mut impl Call) {
        let count = scan(strip).map_or(rng.below(8), |cell| cell.polys.len());
        self.memory.strip.holding(PLACES[self.cases as usize % PLACES.len()], strip);
        for n in 0..4 {
            let start = match if n < 2 { 7 } else { rng.below(8) } {
                0 => count as u64,
                1 => rng.u64(),
                2 => 1 << 32 | rng.below(count + 1) as u64,
                _ => rng.below(count.max(1)) as u64,
            };
            let room = match rng.below(6) {
                0 => rng.below(count + 1),
                1 => count.saturating_sub(1),
                2 => count + 1 + rng.below(40),
                _ => count,
            };
            self.one(shape, name, strip, start, room, call);
        }
        self.cases += 1;
    }

    /// So many seeded cases, from one on.
    pub fn seeded(&mut self, first: u64, count: u64, call: &mut impl Call) {
        for n in first..first + count {
            let (shape, make) = SHAPES[n as usize % SHAPES.len()];
            let mut rng = Rng::new(0x5741_4C4B + (n << 32));
            let strip = make(&mut rng);
            self.case(shape, &format!("case {n}"), &strip, &mut rng, call);
        }
    }

    pub fn differences(&self) -> u64 {
        self.numbers.differences
    }

    pub fn print(&self) {
        self.numbers.print("42: no such polygon; 43: too few bytes");
        println!("polygons marked: {}; the start alone: {} calls, all polygons: {}", self.marked, self.alone, self.all);
        println!("{} cases, {} calls, {} differences", self.cases, self.calls, self.numbers.differences);
    }
}
