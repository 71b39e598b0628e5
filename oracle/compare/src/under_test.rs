//! The functions that are compared: the leaves of libunits.a with the feature `lib`, the
//! reader, writer, seam count, polygon under the cursor and drawing of libynv.a with the feature
//! `ynv`, else the judge's own, of the drawing the plain Rust. Floats, numbers and answers as the
//! C entries have them.

#[cfg(feature = "lib")]
pub use crate::ffi::{areas, back, check_strip, place, quarter, short};

pub const NAME: &str = if cfg!(feature = "lib") {
    "the library (libunits.a)"
} else {
    "the judge's own functions (the library with --features lib)"
};

#[cfg(not(feature = "lib"))]
mod own {
    use crate::reference::one_nan;
    use strips::{counts, scan, AreaTable, Counts, Refusal};

    pub fn short(a: u32, lo: u32, extent: u32) -> u32 {
        strips::short(f32::from_bits(a), f32::from_bits(lo), f32::from_bits(extent)) as u32
    }

    pub fn back(q: u32, lo: u32, extent: u32) -> u32 {
        one_nan(strips::back(q as u16, f32::from_bits(lo), f32::from_bits(extent)))
    }

    pub fn quarter(x: u32, ceil: bool) -> u32 {
        let x = f32::from_bits(x);
        let side = if ceil { strips::quarter_ceil(x) } else { strips::quarter_floor(x) };
        side as u16 as u32
    }

    pub fn areas(own: u32, ids: &[u32]) -> (usize, AreaTable) {
        strips::areas(own, ids)
    }

    pub fn place(end: u32, size: u32) -> u64 {
        strips::place(end as u64, size as u64)
    }

    pub fn check_strip(strip: &[u32]) -> Result<Counts, Refusal> {
        scan(strip).map(|cell| counts(&cell)).map_err(|place| Refusal::new(3, place))
    }
}

#[cfg(not(feature = "lib"))]
pub use own::*;

#[cfg(feature = "ynv")]
pub use crate::ffi_ynv::{count_seams, export_obj, parse, pick_poly, reachable, serialize};

pub const READER: &str = if cfg!(feature = "ynv") {
    "the library (libynv.a)"
} else {
    "the judge's own derivation (the library with --features ynv)"
};

/// The reader's call by the judge's derivation, without the Rust.
#[cfg(not(feature = "ynv"))]
pub fn parse(system: &[u8], graphics: &[u8], strip: &mut [u32], answer: &mut [u64; 8]) -> u32 {
    let derived = match strips::derive(system, graphics) {
        Ok(derived) => derived,
        Err(refusal) => {
            answer[0] = refusal.place as u64;
            return refusal.number;
        }
    };
    let words = strips::encode(&derived.cell);
    if strip.len() < words.len() {
        answer[0] = 0;
        return 2;
    }
    strip[..words.len()].copy_from_slice(&words);
    *answer = crate::reading::values(words.len(), strips::counts(&derived.cell), derived.sectors);
    0
}

pub const WRITER: &str = if cfg!(feature = "ynv") {
    "the library (libynv.a)"
} else {
    "the judge's own pages (the library with --features ynv)"
};

/// The writer's call by the judge's checks and counts and document 01's layout, without the Rust.
#[cfg(not(feature = "ynv"))]
pub fn serialize(strip: &[u32], work: &mut [u32], pages: &mut [u8], answer: &mut [u64; 8]) -> u32 {
    let made = || {
        let cell = strips::scan(strip).map_err(|place| strips::Refusal::new(3, place))?;
        if work.len() / 4 < strip.len() {
            return Err(strips::Refusal::new(1, 0));
        }
        strips::judge_write(&cell)?;
        let bytes = strips::laid_out(&cell);
        if bytes.len() > pages.len() {
            return Err(strips::Refusal::new(2, 0));
        }
        let values = crate::writing::values(bytes.len(), strips::point_counts(&cell), strips::pushed(&cell));
        Ok((bytes, values))
    };
    match made() {
        Err(refusal) => {
            answer[0] = refusal.place as u64;
            refusal.number
        }
        Ok((bytes, values)) => {
            work[..2 * strip.len()].fill(0x0BAD_0BAD);
            pages[..bytes.len()].copy_from_slice(&bytes);
            *answer = values;
            0
        }
    }
}

/// The seam count's call by the judge.
#[cfg(not(feature = "ynv"))]
pub fn count_seams(strip: &[u32], answer: &mut [u64; 8]) -> u32 {
    match strips::seams(strip) {
        Err(refusal) => {
            answer[0] = refusal.place as u64;
            refusal.number
        }
        Ok(count) => {
            *answer = [count, 0, 0, 0, 0, 0, 0, 0];
            0
        }
    }
}

/// The polygon under the cursor by the judge.
#[cfg(not(feature = "ynv"))]
pub fn pick_poly(strip: &[u32], x: u16, y: u16, answer: &mut [u64; 8]) -> u32 {
    match strips::pick(strip, x, y) {
        Err(refusal) => {
            answer[0] = refusal.place as u64;
            refusal.number
        }
        Ok(poly) => {
            let [found, number] = poly.map_or([0, 0], |number| [1, number as u64]);
            *answer = [found, number, 0, 0, 0, 0, 0, 0];
            0
        }
    }
}

pub const DRAWING: &str =
    if cfg!(feature = "ynv") { "the library (libynv.a)" } else { "plain Rust (the library with --features ynv)" };

/// The drawing by the plain Rust that the library is timed against.
#[cfg(not(feature = "ynv"))]
pub fn export_obj(strip: &[u32], text: &mut [u8], answer: &mut [u64; 8]) -> u32 {
    let mut bytes = Vec::new();
    match crate::plain_obj::obj(strip, text.len(), &mut bytes) {
        Err(refusal) => {
            answer[0] = refusal.place as u64;
            refusal.number
        }
        Ok(()) => {
            text[..bytes.len()].copy_from_slice(&bytes);
            *answer = [bytes.len() as u64, 0, 0, 0, 0, 0, 0, 0];
            0
        }
    }
}

pub const WALKING: &str = DRAWING;

/// Where a walker can get to by the plain Rust that the library is timed against.
#[cfg(not(feature = "ynv"))]
pub fn reachable(strip: &[u32], start: u64, marks: &mut [u8], answer: &mut [u64; 8]) -> u32 {
    match crate::plain_reach::reach(strip, start, marks) {
        Err(refusal) => {
            answer[0] = refusal.place as u64;
            refusal.number
        }
        Ok(count) => {
            *answer = [count as u64, 0, 0, 0, 0, 0, 0, 0];
            0
        }
    }
}
