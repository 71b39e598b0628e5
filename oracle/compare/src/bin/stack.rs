//! How many bytes of stack each call needs, the library's and the Rust's, and how many are
//! lent to the one and taken from the heap by the other, a markdown table. The library's calls are then made on a thread with a stack of 1 MB (or as many KB
//! as the argument says) and held to their answers; a stack too small ends the program. The
//! reader has the deepest trees, 4,096 sectors one below the other, and sectors that are
//! their own sub; both calls have cells of one sector and of 21, up to the largest. The walk, which
//! has local arrays by the polygons and portals of a strip, has strips of each size of them.

use std::env;
use std::hint::black_box;
use std::process::exit;
use std::sync::atomic::Ordering;
use std::thread::Builder;

use cases::cells::empty_vehicle;
use cases::pages::{self, Pages, SYSTEM};
use cases::timed::SIZES;
use cases::walks::{down, drawn, portal_chain};
use compare::heap::{self, Heap};
use compare::plain_reach;
use compare::reading::{self, Read};
use compare::stacks;
use compare::under_test::{parse, reachable, serialize};
use compare::writing::{self, Write};
use rage::resource::{container, NO_COPY};
use rage::ynv::{parse_ynv, serialize_ynv, Ynv};
use strips::{encode, laid_out, reach};

#[global_allocator]
static HEAP: Heap = Heap;

/// The empty vehicle cell, its root its own sub.
fn own_sub(sub: usize) -> Pages {
    let mut pages = Pages::written(&empty_vehicle());
    let root = pages.offset(0x120).unwrap();
    pages.put_u64(root + 0x34 + 8 * sub, SYSTEM + root as u64);
    pages
}

/// A chain of sectors, each with data and a point.
fn chain_with_points(sectors: usize) -> Pages {
    let mut pages = pages::chain(sectors);
    let point = pages.block(&[1, 2, 3, 4, 5, 6, 7, 8]);
    let data = pages.block(&pages::sector_data(point, 1));
    for n in 0..sectors {
        pages.put_u64(368 + 96 * n + 0x2C, data);
    }
    pages
}

/// A call that is held to its answer, and the bare calls of both sides for their stack.
struct Case {
    name: String,
    /// Bytes that ours is lent to write to.
    lent: usize,
    bare: Box<dyn FnMut() + Send>,
    rust: Box<dyn FnMut() + Send>,
    held: Box<dyn FnOnce() -> Result<u32, String> + Send>,
}

fn reading(name: &str, pages: Pages) -> Case {
    let read = Read::of(&pages);
    let length = read.lent(usize::MAX).map_or(15, |(words, _)| words.len());
    let (system, graphics) = (pages.system.clone(), pages.graphics.clone());
    let (mut strip, mut answer) = (vec![0; length], [0; 8]);
    let bare = Box::new(move || {
        parse(&system, &graphics, &mut strip, &mut answer);
    });
    let data = container(&pages.system, &pages.graphics);
    let rust = Box::new(move || drop(black_box(parse_ynv(&data))));
    let held = Box::new(move || reading::call(&pages, &read, length));
    Case { name: format!("reading, {name}"), lent: 4 * length, bare, rust, held }
}

fn writing(name: &str, cell: Ynv) -> Case {
    let strip = encode(&cell);
    let words = strip.clone();
    let room = laid_out(&cell).len();
    let (mut work, mut pages, mut answer) = (vec![0; 4 * words.len()], vec![0; room], [0; 8]);
    let bare = Box::new(move || {
        serialize(&words, &mut work, &mut pages, &mut answer);
    });
    let rust = Box::new(move || {
        NO_COPY.store(true, Ordering::Relaxed);
        drop(black_box(serialize_ynv(&cell)));
        NO_COPY.store(false, Ordering::Relaxed);
    });
    let (write, lent) = (Write::of(&strip), 16 * strip.len() + room);
    let held = Box::new(move || writing::call(&strip, &write, 4 * strip.len(), room).map(|called| called.number));
    Case { name: format!("writing, {name}"), lent, bare, rust, held }
}

fn walking(name: &str, cell: Ynv) -> Case {
    let (strip, lent) = (encode(&cell), cell.polys.len());
    let (ours, theirs) = (strip.clone(), strip.clone());
    let (mut marks, mut answer) = (vec![0; lent], [0; 8]);
    let bare = Box::new(move || {
        reachable(&ours, 0, &mut marks, &mut answer);
    });
    let mut marks = vec![0; lent];
    let rust = Box::new(move || {
        let _ = black_box(plain_reach::reach(&theirs, 0, &mut marks));
    });
    let held = Box::new(move || {
        let (mut marks, mut answer) = (vec![7; lent], [0; 8]);
        let number = reachable(&strip, 0, &mut marks, &mut answer);
        let same = number == 0 && reach(&strip, 0, lent).is_ok_and(|expected| expected == marks);
        if same {
            Ok(number)
        } else {
            Err(format!("{number}, or other marks"))
        }
    });
    Case { name: format!("a walk, {name}"), lent, bare, rust, held }
}

fn cases() -> Vec<Case> {
    let own_sub = |sub| reading(&format!("a sector that is its own sub {sub}"), own_sub(sub));
    let mut out: Vec<Case> = (0..4).map(own_sub).collect();
    out.push(reading("4,096 sectors one below the other, a point in each", chain_with_points(4096)));
    out.push(reading("4,097 sectors one below the other", chain_with_points(4097)));
    for size in SIZES {
        out.push(reading(size.name, Pages::written(&(size.make)())));
    }
    for size in SIZES {
        out.push(writing(size.name, (size.make)()));
    }
    out.push(walking("1 polygon", drawn(1)));
    out.push(walking("256 polygons", drawn(256)));
    out.push(walking("2,048 polygons", drawn(2048)));
    out.push(walking("16,383 polygons", drawn(16_383)));
    out.push(walking("65,536 polygons, 65,535 portals", portal_chain(&down(65_536), &down(65_535))));
    out
}

fn main() {
    let size: usize = env::args().nth(1).map_or(1024, |text| text.parse().expect("a stack's size in KB"));
    println!("Bytes. Ours also ran on a stack of {size} KB, with the answer that it must give.\n");
    println!("| call | answer | stack, ours | stack, Rust | lent, ours | heap, Rust |");
    println!("|---|---|---|---|---|---|");
    for mut case in cases() {
        let (ours, rust) = (stacks::needed(&mut *case.bare), stacks::needed(&mut *case.rust));
        let (lent, taken) = (case.lent, heap::most(&mut *case.rust));
        let (name, thread) = (case.name, Builder::new().stack_size(1024 * size).spawn(case.held));
        match thread.expect("a thread").join().expect("no panic") {
            Ok(number) => println!("| {name} | {number} | {ours} | {rust} | {lent} | {taken} |"),
            Err(text) => {
                println!("{name}: stack of {size} KB: DIFFERENT, {text}");
                exit(1);
            }
        }
    }
}
