//! Lends the library damaged pages and strips, 1,000,000 of each (or as many as the first
//! argument says, from the case that the second says; few for a run under a memory
//! checker). Each case with lent memory at four places: between guards, whole allocations,
//! and pages with an unmapped one right behind or before; all that on the main thread, then
//! on a thread with a stack of 1 MB. A call that leaves its memory ends the program; one
//! that changes what it must not is printed, and the program exits 1. A strip's seams are
//! counted before it is written.

use std::collections::BTreeMap;
use std::process::exit;
use std::thread::{scope, Builder};

use cases::pages::{self, Pages};
use cases::{damage, writing, Rng};
use compare::arguments::count_and_first;
use compare::guarded::{Lender, Place, PLACES};
use compare::under_test::{count_seams, parse, serialize, READER};

const CASES: u64 = 1_000_000;
const BATCH: u64 = 2000;
const STACK: usize = 1 << 20;
const MOST_PRINTED: usize = 20;

/// A case and the lengths that are lent with it.
enum Case {
    Read { pages: Pages, strip: usize },
    Write { strip: Vec<u32>, work: usize, room: usize },
}

/// Words with kinds of records in some of them.
fn random_strip(rng: &mut Rng) -> Vec<u32> {
    let mut words = vec![0x1000_0000];
    words.extend((0..13).map(|_| if rng.once_in(3) { rng.u32() } else { 0 }));
    for _ in 0..rng.below(40) {
        let kind = rng.pick(&[2, 2, 3, 4, 5, 1, 0, 15]);
        words.push(kind << 28 | if rng.once_in(4) { rng.u32() & 0xFFF_FFFF } else { rng.u32() & 0x700_3003 });
        words.extend((0..rng.below(12)).map(|_| if rng.once_in(2) { 0 } else { rng.u32() }));
    }
    words.truncate(rng.below(words.len()) + 1);
    words
}

fn strip(rng: &mut Rng) -> Vec<u32> {
    match rng.below(10) {
        0 => random_strip(rng),
        1 => {
            let mut words = writing::any(rng);
            for _ in 0..1 + rng.below(3) {
                let n = rng.below(words.len().max(1));
                if let Some(word) = words.get_mut(n) {
                    *word ^= 1 << rng.below(32);
                }
            }
            words
        }
        2 | 3 => writing::any(rng),
        _ => damage::strip(rng),
    }
}

fn case(n: u64, of_pages: bool) -> Case {
    let mut rng = Rng::new(0x52_4F42 + of_pages as u64 + (n << 32));
    if of_pages {
        let pages = pages::any(&mut rng);
        let strip = match rng.below(4) {
            0 => rng.below(100),
            1 => 0,
            _ => 15 + rng.below(3000),
        };
        return Case::Read { pages, strip };
    }
    let strip = strip(&mut rng);
    let work = match rng.below(8) {
        0 => rng.below(4 * strip.len() + 1),
        1 => 4 * strip.len() + rng.below(100),
        _ => 4 * strip.len(),
    };
    let room = match rng.below(4) {
        0 => rng.below(4000),
        1 => 0,
        _ => rng.pick(&[3000, 6000, 20_000]),
    };
    Case::Write { strip, work, room }
}

/// What a call may write to, and what it reads.
#[derive(Default)]
struct Memory {
    first: Lender<u8>,
    second: Lender<u8>,
    pages: Lender<u8>,
    strip: Lender<u32>,
    work: Lender<u32>,
    answer: Lender<u64>,
}

/// The number answered and the answer words that it wrote; or what was changed that must stay.
type Answer = Result<(u32, [u64; 8]), &'static str>;

fn held(ok: bool, what: &'static str) -> Result<(), &'static str> {
    ok.then_some(()).ok_or(what)
}

impl Memory {
    /// The eight words of the answer: all of them by an accepted call, else the first.
    fn answered(&mut self, number: u32) -> Answer {
        let words = if number == 0 { 8 } else { 1 };
        held(self.answer.stays_from(words), "the answer's other words")?;
        let mut said = [0; 8];
        said[..words].copy_from_slice(&self.answer.items()[..words]);
        Ok((number, said))
    }

    fn read(&mut self, place: Place, pages: &Pages, strip: usize) -> Answer {
        self.first.holding(place, &pages.system);
        self.second.holding(place, &pages.graphics);
        self.strip.dirty(place, strip);
        self.answer.dirty(place, 8);
        let answer = self.answer.lent().try_into().unwrap();
        let number = parse(self.first.lent(), self.second.lent(), self.strip.lent(), answer);
        let words = if number == 0 { self.answer.items()[0] as usize } else { 0 };
        held(words <= strip, "more words than lent")?;
        held(self.strip.stays_from(words), "the strip behind its words")?;
        held(self.first.stays_as(&pages.system), "the system section")?;
        held(self.second.stays_as(&pages.graphics), "the graphics section")?;
        held(matches!(number, 0 | 2 | 30..=40), "no number of reading")?;
        self.answered(number)
    }

    fn count(&mut self, place: Place, strip: &[u32]) -> Answer {
        self.strip.holding(place, strip);
        self.answer.dirty(place, 8);
        let answer = self.answer.lent().try_into().unwrap();
        let number = count_seams(self.strip.lent(), answer);
        held(self.strip.stays_as(strip), "the strip")?;
        held(matches!(number, 0 | 3), "no number of counting")?;
        self.answered(number)
    }

    fn write(&mut self, place: Place, strip: &[u32], work: usize, room: usize) -> Answer {
        self.strip.holding(place, strip);
        self.work.dirty(place, work);
        self.pages.dirty(place, room);
        self.answer.dirty(place, 8);
        let answer = self.answer.lent().try_into().unwrap();
        let number = serialize(self.strip.lent(), self.work.lent(), self.pages.lent(), answer);
        let bytes = if number == 0 { self.answer.items()[0] as usize } else { 0 };
        held(bytes <= room, "more bytes than lent")?;
        held(self.pages.stays_from(bytes), "the pages behind their bytes")?;
        held(self.work.stays_from(2 * strip.len()), "the second half of the work")?;
        held(self.strip.stays_as(strip), "the strip")?;
        held(matches!(number, 0..=3 | 10..=20), "no number of writing")?;
        self.answered(number)
    }

    fn call(&mut self, place: Place, case: &Case) -> Answer {
        match case {
            Case::Read { pages, strip } => self.read(place, pages, *strip),
            Case::Write { strip, work, room } => {
                self.count(place, strip)?;
                self.write(place, strip, *work, *room)
            }
        }
    }
}

fn run(cases: &[Case]) -> Vec<Answer> {
    let mut memory = Memory::default();
    cases.iter().flat_map(|case| PLACES.map(|place| memory.call(place, case))).collect()
}

/// Calls by number answered, of reading and of writing.
#[derive(Default)]
struct Tally {
    seen: [BTreeMap<u32, u64>; 2],
    calls: u64,
    faults: usize,
}

impl Tally {
    fn fault(&mut self, n: u64, text: String) {
        self.faults += 1;
        if self.faults <= MOST_PRINTED {
            println!("FAULT: case {n}: {text}");
        }
    }

    /// The answers of one case on the two threads, place by place: all the same.
    fn case(&mut self, n: u64, side: usize, main: &[Answer], small: &[Answer]) {
        for (k, answer) in main.iter().chain(small).enumerate() {
            self.calls += 1;
            let place = PLACES[k % PLACES.len()];
            match answer {
                Err(what) => self.fault(n, format!("{place:?}: changed {what}")),
                Ok(_) if *answer != main[0] => self.fault(n, format!("{place:?}: {answer:?}, not {:?}", main[0])),
                Ok((number, _)) => *self.seen[side].entry(*number).or_insert(0) += 1,
            }
        }
    }

    /// So many cases of pages and of strips from one on.
    fn batch(&mut self, first: u64, count: u64) {
        for (side, of_pages) in [true, false].into_iter().enumerate() {
            let cases: Vec<Case> = (first..first + count).map(|n| case(n, of_pages)).collect();
            let main = run(&cases);
            let small = scope(|threads| {
                let thread = Builder::new().stack_size(STACK).spawn_scoped(threads, || run(&cases));
                thread.expect("a thread").join().expect("no panic")
            });
            for (k, (main, small)) in main.chunks(PLACES.len()).zip(small.chunks(PLACES.len())).enumerate() {
                self.case(first + k as u64, side, main, small);
            }
        }
    }
}

fn main() {
    let (count, first) = count_and_first("robust", CASES);
    println!("{READER}: {count} damaged pages and {count} strips from case {first} on");
    let mut tally = Tally::default();
    for from in (first..first + count).step_by(BATCH as usize) {
        tally.batch(from, BATCH.min(first + count - from));
        if (from - first) % (50 * BATCH) == 0 {
            eprintln!("case {from}, {} calls, {} faults", tally.calls, tally.faults);
        }
    }
    for (name, seen) in ["reading", "writing"].into_iter().zip(&tally.seen) {
        println!("{name}, calls by number (0: accepted): {seen:?}");
    }
    println!("{} calls, {} faults", tally.calls, tally.faults);
    if tally.faults != 0 {
        exit(1);
    }
}
