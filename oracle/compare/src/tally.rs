//! Counts what was compared, and shows the first differences: of one function, and of calls
//! that answer with a number.

use std::collections::BTreeMap;
use std::fmt::Debug;

/// Differences shown per function.
const SHOWN: u64 = 5;

/// Cases and differences of one function.
pub struct Tally {
    name: &'static str,
    cases: u64,
    differences: u64,
}

impl Tally {
    pub fn new(name: &'static str) -> Tally {
        Tally { name, cases: 0, differences: 0 }
    }

    pub fn compare<I: Debug, O: PartialEq + Debug>(&mut self, input: I, ours: O, rust: O) {
        self.cases += 1;
        if ours != rust {
            self.differences += 1;
            if self.differences <= SHOWN {
                println!("{}: {input:x?}: {ours:x?}, expected {rust:x?}", self.name);
            }
        }
    }

    /// Prints the line of a function, and gives its differences.
    pub fn done(self) -> u64 {
        println!("{:<18} {:>9} cases {:>9} differences", self.name, self.cases, self.differences);
        self.differences
    }
}

/// Differences shown of calls.
const CALLS_SHOWN: u64 = 20;

/// Calls by shape of the case and by number answered.
#[derive(Default)]
pub struct ByNumber {
    seen: BTreeMap<&'static str, BTreeMap<u32, u64>>,
    pub differences: u64,
}

impl ByNumber {
    pub fn seen(&mut self, shape: &'static str, number: u32) {
        *self.seen.entry(shape).or_default().entry(number).or_insert(0) += 1;
    }

    pub fn differs(&mut self, shape: &str, name: &str, text: String) {
        self.differences += 1;
        if self.differences <= CALLS_SHOWN {
            println!("DIFFERENT: {shape}, {name}: {text}");
        }
    }

    /// A line for each shape, and one for all; `note` says what some numbers mean.
    pub fn print(&self, note: &str) {
        let mut all = BTreeMap::new();
        for (shape, seen) in &self.seen {
            let numbers: Vec<String> = seen.iter().map(|(number, count)| format!("{number}: {count}")).collect();
            println!("{shape}: {}", numbers.join(", "));
            for (&number, &count) in seen {
                *all.entry(number).or_insert(0) += count;
            }
        }
        println!("all, by number (0: accepted; {note}): {all:?}");
    }
}
