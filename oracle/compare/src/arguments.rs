//! The arguments that the programs over seeded cases take: `[COUNT [FIRST]]`.

use std::env;
use std::process::exit;

/// How many cases, and which comes first.
pub fn count_and_first(program: &str, cases: u64) -> (u64, u64) {
    let number = |n: usize, default: u64| {
        let Some(text) = env::args().nth(n) else { return default };
        text.parse().unwrap_or_else(|_| {
            eprintln!("usage: {program} [COUNT [FIRST]]");
            exit(2)
        })
    };
    (number(1, cases), number(2, 0))
}
