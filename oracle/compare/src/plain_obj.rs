//! The drawing as OBJ text as plain Rust: one pass over the strip that checks it, one for the `v`
//! lines and one for the `f` lines, appended to a vector that has the room already. The library is
//! timed against it, since the Rust source has no such call. The number of bytes is known, and
//! held to the room, only at the end: a refusal empties the vector, where the library may not
//! touch what it is lent.
//!
//! Two ways to print a number: a loop over its digits, and a branch for each length.

use strips::Refusal;

use crate::plain::{axes, check, follow_up, short, vertices, CELL_WORDS};

/// The vertices of each polygon, three words each.
fn outlines(strip: &[u32]) -> impl Iterator<Item = &[u32]> {
    let mut at = CELL_WORDS;
    std::iter::from_fn(move || {
        let first = strip[at];
        (first >> 28 == 2).then(|| {
            let record = &strip[at + 1..][..follow_up(first)];
            at += 1 + record.len();
            vertices(first, record)
        })
    })
}

/// A space and a number, from its last digit to its first.
fn put_by_digit(out: &mut Vec<u8>, mut number: u64) {
    let mut bytes = [b' '; 21];
    let mut at = bytes.len();
    loop {
        at -= 1;
        bytes[at] = b'0' + (number % 10) as u8;
        number /= 10;
        if number == 0 {
            break;
        }
    }
    out.extend_from_slice(&bytes[at - 1..]);
}

/// The same, with all bytes at once where it has as few as shorts and most cells' numbers have.
/// Most shorts have five digits, so that length is tried first.
#[inline(always)]
fn put_by_length(out: &mut Vec<u8>, number: u64) {
    let digit = |power: u32| b'0' + (number as u32 / power % 10) as u8;
    if number >= 10_000 {
        if number >= 100_000 {
            return put_by_digit(out, number);
        }
        out.extend_from_slice(&[b' ', digit(10_000), digit(1000), digit(100), digit(10), digit(1)]);
    } else if number >= 1000 {
        out.extend_from_slice(&[b' ', digit(1000), digit(100), digit(10), digit(1)]);
    } else if number >= 100 {
        out.extend_from_slice(&[b' ', digit(100), digit(10), digit(1)]);
    } else if number >= 10 {
        out.extend_from_slice(&[b' ', digit(10), digit(1)]);
    } else {
        out.extend_from_slice(&[b' ', digit(1)]);
    }
}

/// Appends the text where the strip is accepted, but for its length.
#[inline(always)]
fn append(strip: &[u32], out: &mut Vec<u8>, put: impl Fn(&mut Vec<u8>, u64)) -> Result<(), Refusal> {
    check(strip).map_err(|place| Refusal::new(3, place))?;
    let [x, y, z] = axes(strip)?;
    for (number, outline) in outlines(strip).enumerate() {
        if outline.len() < 9 {
            return Err(Refusal::new(41, number));
        }
        for v in outline.chunks_exact(3) {
            out.push(b'v');
            put(out, short(v[0], x) as u64);
            put(out, short(v[1], y) as u64);
            put(out, short(v[2], z) as u64);
            out.push(b'\n');
        }
    }
    let mut number = 0;
    for outline in outlines(strip) {
        out.push(b'f');
        for _ in outline.chunks_exact(3) {
            number += 1;
            put(out, number);
        }
        out.push(b'\n');
    }
    Ok(())
}

#[inline(always)]
fn drawn(strip: &[u32], room: usize, out: &mut Vec<u8>, put: impl Fn(&mut Vec<u8>, u64)) -> Result<(), Refusal> {
    out.clear();
    let mut done = append(strip, out, put);
    if done.is_ok() && out.len() > room {
        done = Err(Refusal::new(2, 0));
    }
    if done.is_err() {
        out.clear();
    }
    done
}

/// The text of a strip, by digits, of at most `room` bytes.
pub fn obj(strip: &[u32], room: usize, out: &mut Vec<u8>) -> Result<(), Refusal> {
    drawn(strip, room, out, put_by_digit)
}

/// The same text, by lengths.
pub fn obj_by_length(strip: &[u32], room: usize, out: &mut Vec<u8>) -> Result<(), Refusal> {
    drawn(strip, room, out, put_by_length)
}
