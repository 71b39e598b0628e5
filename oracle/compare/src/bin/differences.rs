//! What the Rust does where document 01 adds a refusal or fixes more than the Rust, on
//! the smallest input of each. Every case runs in a process of its own, since some
//! abort. Prints a markdown table; with a case's name as argument it runs that case.
//!
//! `cargo run --release --bin differences` shows the oracle's build,
//! `cargo run --profile checked --bin differences` one with overflow checks.

use std::env;
use std::hint::black_box;
use std::os::unix::process::ExitStatusExt;
use std::process::{Command, Stdio};

use cases::cells::{empty_grid, empty_vehicle, vec3};
use cases::pages::{self, Pages};
use rage::resource::container;
use rage::ynv::{cell_bounds, parse_ynv, serialize_ynv, NavPoint, NavPoly, NavPortal, Ynv};
use strips::{caught, derive, encode, judge_write, Refusal};

enum Input {
    Write(Ynv),
    Read(Pages),
    Bounds(u32, u32),
}

struct Case {
    name: &'static str,
    input: &'static str,
    make: fn() -> Input,
}

fn triangles(links: impl Iterator<Item = usize>) -> Vec<NavPoly> {
    let at = vec3(1.0, 1.0, 1.0);
    links
        .map(|n| NavPoly {
            vertices: vec![at; 3],
            edges: Vec::new(),
            flags0: 0,
            flags1: 0,
            flags2: 0,
            portal_links: vec![0; n],
        })
        .collect()
}

fn points(count: usize) -> Input {
    let point = NavPoint { position: vec3(1.0, 1.0, 1.0), angle: 0, kind: 0 };
    Input::Write(Ynv { points: vec![point; count], ..empty_vehicle() })
}

fn portals(count: usize) -> Input {
    let at = vec3(1.0, 1.0, 1.0);
    let portal = NavPortal {
        kind: 0,
        angle: 0,
        flags_unk: 0,
        from: at,
        to: at,
        poly_from: 0,
        poly_to: 0,
        area_from: 0,
        area_to: 0,
        area_unk: 0,
    };
    Input::Write(Ynv { portals: vec![portal; count], ..empty_vehicle() })
}

fn boxed(side: f32) -> Ynv {
    let mut cell = empty_vehicle();
    cell.bb_min.x = side;
    cell
}

/// The empty vehicle cell's pages with one word changed.
fn changed(at: usize, word: u32) -> Input {
    let mut pages = Pages::written(&empty_vehicle());
    pages.put_u32(at, word);
    Input::Read(pages)
}

/// The same, in a list's header.
fn list_changed(list: usize, at: usize, word: u32) -> Input {
    let pages = Pages::written(&empty_vehicle());
    changed(pages.offset(list).unwrap() + at, word)
}

fn own(area_id: u32) -> Input {
    Input::Write(Ynv { area_id, ..empty_vehicle() })
}

const CASES: &[Case] = &[
    Case { name: "5", input: "cell coordinate 100 (x), 0 (y)", make: || Input::Bounds(100, 0) },
    Case { name: "10-nan", input: "empty cell, bb_min.x NaN", make: || Input::Write(boxed(f32::NAN)) },
    Case { name: "10-infinite", input: "empty cell, bb_min.x infinite", make: || Input::Write(boxed(f32::INFINITY)) },
    Case {
        name: "17",
        input: "8,193 triangles in the one leaf",
        make: || Input::Write(Ynv { polys: triangles((0..8193).map(|_| 0)), ..empty_vehicle() }),
    },
    Case { name: "18", input: "2,049 points in the one leaf", make: || points(2049) },
    Case { name: "18-lost", input: "65,536 points in the one leaf", make: || points(65536) },
    Case { name: "18-more", input: "65,537 points in the one leaf", make: || points(65537) },
    Case { name: "19", input: "586 portals", make: || portals(586) },
    Case {
        name: "20",
        input: "8,193 links on 1,171 triangles",
        make: || {
            Input::Write(Ynv { polys: triangles((0..1171).map(|n| if n < 1170 { 7 } else { 3 })), ..empty_vehicle() })
        },
    },
    Case { name: "40-nan", input: "empty cell's pages, bb_size.x NaN", make: || changed(0x60, 0x7FC0_0000) },
    Case { name: "40-infinite", input: "empty cell's pages, bb_size.x infinite", make: || changed(0x60, 0x7F80_0000) },
    Case {
        name: "36-vertices",
        input: "vertex list claims 2^32 - 1 items, no parts",
        make: || list_changed(0x70, 8, u32::MAX),
    },
    Case {
        name: "36-indices",
        input: "index list claims 2^32 - 1 items, no parts",
        make: || list_changed(0x80, 8, u32::MAX),
    },
    Case {
        name: "36-edges",
        input: "edge list claims 2^32 - 1 items, no parts",
        make: || list_changed(0x88, 8, u32::MAX),
    },
    Case {
        name: "36-polygons",
        input: "polygon list claims 2^32 - 1 items, no parts",
        make: || list_changed(0x118, 8, u32::MAX),
    },
    Case {
        name: "35-parts",
        input: "polygon list claims 2^32 - 1 parts",
        make: || list_changed(0x118, 0x20, u32::MAX),
    },
    Case { name: "39", input: "2^32 - 1 portals claimed", make: || changed(0x14C, u32::MAX) },
    Case { name: "links", input: "2^32 - 1 links claimed, address 0", make: || changed(0x150, u32::MAX) },
    Case { name: "area-100", input: "empty cell, area id 4294967196 (a + 100 wraps)", make: || own(u32::MAX - 99) },
    Case { name: "area-1", input: "empty cell, area id 4294967295 (a + 1 wraps)", make: || own(u32::MAX) },
    Case { name: "cycle", input: "a sector that is its own sub", make: || Input::Read(cyclic()) },
];

fn cyclic() -> Pages {
    let mut pages = Pages::written(&empty_grid());
    let root = pages.offset(0x120).unwrap();
    pages.put_u64(root + 0x4C, pages::SYSTEM + root as u64);
    pages
}

/// Runs a case and says what came of it.
fn run(input: Input) -> String {
    match input {
        Input::Bounds(x, y) => format!("gives {:?}", cell_bounds(x, y)),
        Input::Write(cell) => match serialize_ynv(&cell) {
            Ok(bytes) => {
                let back = parse_ynv(&container(&bytes, &[])).map_err(|e| format!("{e:#}"));
                let read = match back {
                    Ok(back) => format!("reads back {} polygons, {} points", back.polys.len(), back.points.len()),
                    Err(error) => format!("reads back with the error `{error}`"),
                };
                format!("writes {} bytes, {read}", bytes.len())
            }
            Err(error) => format!("error `{error:#}`"),
        },
        Input::Read(pages) => match parse_ynv(&container(&pages.system, &pages.graphics)) {
            Ok(_) => "reads a cell".to_string(),
            Err(error) => format!("error `{error:#}`"),
        },
    }
}

/// Document 01's answer, from the judge.
fn judged(input: &Input) -> String {
    let answer = match input {
        Input::Bounds(x, y) => {
            if *x > 99 || *y > 99 {
                Err(Refusal::new(5, 0))
            } else {
                Ok(())
            }
        }
        Input::Write(cell) => judge_write(cell),
        Input::Read(pages) => derive(&pages.system, &pages.graphics).map(|_| ()),
    };
    answer.map_or_else(|r| format!("refused {} {}", r.number, r.place), |()| "accepted".into())
}

fn size(input: &Input) -> String {
    match input {
        Input::Bounds(..) => String::new(),
        Input::Write(cell) => format!(" ({} strip words)", encode(cell).len()),
        Input::Read(pages) => format!(" ({} bytes)", pages.system.len() + pages.graphics.len()),
    }
}

/// What a case's own process did.
fn outcome(name: &str) -> String {
    let child =
        Command::new(env::current_exe().unwrap()).arg(name).env("RUST_BACKTRACE", "0").stdin(Stdio::null()).output();
    let output = child.expect("the program runs itself");
    let said = String::from_utf8_lossy(&output.stdout).trim().to_string();
    let errors = String::from_utf8_lossy(&output.stderr).to_string();
    match (output.status.code(), output.status.signal()) {
        (Some(0), _) => said,
        (Some(101), _) => format!("panics: `{}`", panic_text(&errors)),
        (_, Some(signal)) => format!(
            "aborts (signal {signal}): `{}`",
            errors.lines().find(|l| l.contains("memory")).unwrap_or("").trim()
        ),
        (code, _) => format!("ends with {code:?}"),
    }
}

/// The line after "panicked at".
fn panic_text(errors: &str) -> String {
    let mut lines = errors.lines().skip_while(|l| !l.contains("panicked at"));
    lines.nth(1).unwrap_or("").trim().to_string()
}

fn main() {
    if let Some(name) = env::args().nth(1) {
        let case = CASES.iter().find(|c| c.name == name).expect("a case's name");
        println!("{}", run((case.make)()));
        return;
    }
    let checked = caught(|| black_box(u32::MAX) + black_box(1)).is_err();
    println!("Overflow checks: {}.", if checked { "on" } else { "off (the oracle)" });
    println!();
    println!("| case | smallest input | document 01 | the Rust |");
    println!("|---|---|---|---|");
    for case in CASES {
        let input = (case.make)();
        println!("| {} | {}{} | {} | {} |", case.name, case.input, size(&input), judged(&input), outcome(case.name));
    }
}
