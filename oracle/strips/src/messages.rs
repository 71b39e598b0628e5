//! The Rust's own words for a refusal: whether what it did agrees with what the judge refuses.

use rage::ynv::Ynv;

use crate::{Refusal, RustRead, RustWrite};

/// The start of the Rust's message for a refusal of the writer.
fn write_message(r: Refusal, cell: &Ynv) -> String {
    match r.number {
        11 => format!("{} polygons; a cell holds at most 16383", cell.polys.len()),
        12 => format!("polygon {} has ", r.place),
        13 => "more than 65535 polygon vertices".into(),
        14 => "more than 65536 distinct vertices".into(),
        15 => "more than 32 distinct adjacent areas".into(),
        16 => format!("polygon {} has more than 7 portal links", r.place),
        number => panic!("{number} is none of the Rust's errors"),
    }
}

/// Whether the Rust refuses a cell as the judge does. It has no 10, panics at 17 to 20, and
/// loses the points of a leaf whose 16-bit count wraps.
pub fn refuses_writing(r: Refusal, cell: &Ynv, done: &RustWrite) -> bool {
    match (r.number, done) {
        (10, _) => true,
        (17..=20, RustWrite::Panic(_)) => true,
        (18, RustWrite::Bytes(_)) => cell.points.len() >= 65_536,
        (11..=16, RustWrite::Error(text)) => text.starts_with(&write_message(r, cell)),
        _ => false,
    }
}

/// Parts of the Rust's message for a refusal of the reader.
fn read_messages(r: Refusal) -> Vec<String> {
    let list = ["", "vertices", "indices", "edges", "polys"];
    let exact: &[&str] = match r.number {
        30 => &["NavMesh header"],
        31 => &["navmesh has no sector tree"],
        32 => &["sector root", "sector"],
        33 => &["sector tree too large or cyclic"],
        34 => &["sector data", "sector points"],
        39 => &["portals"],
        _ => &[],
    };
    match r.number {
        35 => ["header", "parts", "part items"].map(|what| format!("{}: list {what}", list[r.place])).into(),
        36 => vec![format!("{}: list holds ", list[r.place])],
        37 => vec![format!("polygon {} indexes past", r.place)],
        38 => vec![format!("polygon {}: vertex", r.place)],
        _ => exact.iter().map(|text| text.to_string()).collect(),
    }
}

/// Whether the Rust refuses pages as the judge does, or wasn't run. It has no 40.
pub fn refuses_reading(r: Refusal, done: &RustRead) -> bool {
    let named = |text: &String| {
        let begins = (36..=38).contains(&r.number);
        let same = |m: &String| if begins { text.starts_with(m) } else { text == m };
        read_messages(r).iter().any(same)
    };
    match (r.number, done) {
        (40, _) => true,
        (30..=39, RustRead::NotRun) => true,
        (30..=39, RustRead::Error(text)) => named(text),
        _ => false,
    }
}
