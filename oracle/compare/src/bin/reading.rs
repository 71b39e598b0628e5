//! Compares the reader with the Rust: the fixed pages, those of cells at the limits, and
//! 200,000 seeded ones (or as many as the first argument says, from the case that the
//! second says). Each with a strip exactly long enough, one word short, and longer; refused
//! ones with three lengths. Prints how often each number was answered, by shape, and what
//! differs; exits 1 if anything does.

use std::process::exit;

use cases::pages::{self, Pages, SHAPES};
use cases::{limits, Rng};
use compare::arguments::count_and_first;
use compare::reading::{call, Read};
use compare::tally::ByNumber;
use compare::under_test::READER;

const CASES: u64 = 200_000;

/// Cases by number answered when the strip is long enough, by shape; the calls with a
/// strip too short stand under 2.
#[derive(Default)]
struct Tally {
    numbers: ByNumber,
    cases: u64,
    calls: u64,
}

impl Tally {
    fn case(&mut self, shape: &'static str, name: &str, pages: &Pages, more: usize) {
        let read = Read::of(pages);
        let lengths = match &read {
            Read::Refused(_) => [0, 1 + more, 15 + 3 * more],
            Read::Strip { words, .. } => [words.len(), words.len() - 1, words.len() + 1 + more],
        };
        self.cases += 1;
        for (n, length) in lengths.into_iter().enumerate() {
            self.calls += 1;
            match call(pages, &read, length) {
                Ok(number) if n == 0 || number == 2 => self.numbers.seen(shape, number),
                Ok(_) => {}
                Err(text) => self.numbers.differs(shape, name, format!("strip of {length} words: {text}")),
            }
        }
    }

    fn print(&self) {
        self.numbers.print("2: a strip one word short");
        println!("{} cases, {} calls, {} differences", self.cases, self.calls, self.numbers.differences);
    }
}

fn main() {
    let (count, first) = count_and_first("reading", CASES);
    println!("{READER} against the Rust and document 01");
    let mut tally = Tally::default();
    for case in pages::fixed().into_iter().chain(pages::fixed_of(&pages::vehicle_sample())) {
        tally.case("fixed", case.name, &case.pages, 3);
    }
    for limit in limits::all().into_iter().filter(|limit| limit.refused.is_none()) {
        tally.case("cells at the limits", limit.name, &Pages::written(&limit.cell), 3);
    }
    for n in first..first + count {
        let (shape, make) = SHAPES[n as usize % SHAPES.len()];
        let mut rng = Rng::new(0x59_4E56 + (n << 32));
        let pages = make(&mut rng);
        tally.case(shape, &format!("case {n}"), &pages, rng.below(40));
    }
    tally.print();
    if tally.numbers.differences != 0 {
        exit(1);
    }
}
