//! Writes a list of vectors to the file that is named as the last argument: the leaves'
//! list, or with `reading` or `writing` before it the reader's or the writer's.

use std::collections::BTreeMap;
use std::process::exit;
use std::{env, fs};

use compare::vectors::{all, reading, writing, MOST_BYTES};

fn leaves() -> Vec<u8> {
    let vectors = all();
    let bytes = vectors.bytes();
    assert!(bytes.len() <= MOST_BYTES, "{} bytes are too many", bytes.len());
    for (tag, count) in &vectors.counts {
        println!("tag {tag}: {count} records");
    }
    bytes
}

/// A list whose records have numbers.
fn numbered(bytes: Vec<u8>, most: usize, counts: &BTreeMap<u32, usize>) -> Vec<u8> {
    assert!(bytes.len() <= most, "{} bytes are too many", bytes.len());
    for (number, count) in counts {
        println!("number {number}: {count} records");
    }
    println!("{} records", counts.values().sum::<usize>());
    bytes
}

fn readings() -> Vec<u8> {
    let list = reading::all();
    numbered(list.bytes(), reading::MOST_BYTES, &list.counts)
}

fn writings() -> Vec<u8> {
    let list = writing::all();
    numbered(list.bytes(), writing::MOST_BYTES, &list.counts)
}

fn main() {
    let arguments: Vec<String> = env::args().skip(1).collect();
    let (path, bytes) = match &arguments.iter().map(String::as_str).collect::<Vec<_>>()[..] {
        ["reading", path] => (path.to_string(), readings()),
        ["writing", path] => (path.to_string(), writings()),
        [path] => (path.to_string(), leaves()),
        _ => {
            eprintln!("usage: vectors [reading | writing] FILE");
            exit(2);
        }
    };
    println!("{} bytes", bytes.len());
    if let Err(error) = fs::write(&path, bytes) {
        eprintln!("{path}: {error}");
        exit(1);
    }
}
