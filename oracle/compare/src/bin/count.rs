//! Instructions of one call, ours and the Rust's, as callgrind counts them: no other work on
//! the machine changes them. Without arguments runs itself under valgrind for each cell,
//! call and side, and prints a markdown table; with `parts` one for the costly part tables,
//! which takes longer; with `seams` one for the seam count. `count read|write|seams ours|Rust
//! NAME` makes that one call in `counted_call`, for callgrind to count or to profile; before it
//! both sides were called once and agreed.

use std::env;
use std::process::{exit, Command};

use cases::pages::Pages;
use cases::timed::{COSTLY, EDGES, PART_TABLES, SIZES};
use compare::races::{Reading, Seams, Writing};
use compare::timing::Race;
use rage::ynv::Ynv;

/// The name by which callgrind starts and stops to count.
#[no_mangle]
#[inline(never)]
fn counted_call(call: &mut dyn FnMut()) {
    call();
}

fn cell(name: &str) -> Option<Ynv> {
    SIZES.iter().chain(&COSTLY).chain(&EDGES).find(|case| case.name == name).map(|case| (case.make)())
}

fn pages(name: &str) -> Option<Pages> {
    let table = PART_TABLES.iter().find(|case| case.name == name).map(|case| (case.make)());
    table.or_else(|| cell(name).map(|cell| Pages::written(&cell)))
}

fn one_call(race: &mut impl Race, side: &str) {
    match side {
        "ours" => counted_call(&mut || race.our_call()),
        _ => counted_call(&mut || race.rust_call()),
    }
}

/// Makes the call that the arguments name, if they do.
fn named_call(call: &str, side: &str, name: &str) -> Option<()> {
    if side != "ours" && side != "Rust" {
        return None;
    }
    match call {
        "read" => one_call(&mut Reading::of(pages(name)?), side),
        "write" => one_call(&mut Writing::of(cell(name)?), side),
        "seams" => one_call(&mut Seams::of(&cell(name)?), side),
        _ => return None,
    }
    Some(())
}

/// What callgrind says it collected of a call in a process of its own.
fn instructions(call: &str, side: &str, name: &str) -> u64 {
    let program = env::current_exe().expect("a path");
    let output = Command::new("valgrind")
        .args(["--tool=callgrind", "--callgrind-out-file=/dev/null", "--toggle-collect=counted_call"])
        .arg(program)
        .args([call, side, name])
        .output()
        .expect("valgrind is installed");
    let text = String::from_utf8_lossy(&output.stderr);
    assert!(output.status.success(), "{call} {side} {name}: {text}");
    let line = text.lines().find_map(|line| line.split_once("Collected :"));
    line.and_then(|(_, count)| count.trim().parse().ok()).expect("a count")
}

/// Digits in threes.
fn grouped(number: u64) -> String {
    let digits = number.to_string();
    let threes: Vec<&str> =
        digits.as_bytes().rchunks(3).rev().map(|three| std::str::from_utf8(three).unwrap()).collect();
    threes.join(",")
}

/// The cells of a row that belong to one call.
fn columns(call: &str, name: &str) -> String {
    let (ours, rust) = (instructions(call, "ours", name), instructions(call, "Rust", name));
    format!(" {} | {} | {:.2} |", grouped(ours), grouped(rust), ours as f64 / rust as f64)
}

fn cells() {
    println!("Instructions per call.\n");
    println!("| cell | read, ours | read, Rust | ours / Rust | write, ours | write, Rust | ours / Rust |");
    println!("|---|---|---|---|---|---|---|");
    for case in SIZES.iter().chain(&COSTLY) {
        println!("| {} |{}{}", case.name, columns("read", case.name), columns("write", case.name));
    }
}

fn part_tables() {
    println!("Instructions per call: the cell of 5,000 polygons and 20,000 vertices.\n");
    println!("| pages | read, ours | read, Rust | ours / Rust |");
    println!("|---|---|---|---|");
    for case in PART_TABLES {
        println!("| {} |{}", case.name, columns("read", case.name));
    }
}

fn seams() {
    println!("Instructions per call.\n");
    println!("| strip | ours | Rust, by neighbours | ours / Rust |");
    println!("|---|---|---|---|");
    for case in EDGES {
        println!("| {} |{}", case.name, columns("seams", case.name));
    }
}

fn main() {
    let arguments: Vec<String> = env::args().skip(1).collect();
    let arguments: Vec<&str> = arguments.iter().map(String::as_str).collect();
    match arguments[..] {
        [] => cells(),
        ["parts"] => part_tables(),
        ["seams"] => seams(),
        [call, side, name] if named_call(call, side, name).is_some() => {}
        _ => {
            eprintln!(
                "count, count parts, count seams, or count read|write|seams ours|Rust NAME (a name of the tables)"
            );
            exit(2);
        }
    }
}
