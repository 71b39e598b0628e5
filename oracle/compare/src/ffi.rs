//! The C entries of libunits.a, and safe calls of them. A slice passes as a pointer
//! and its length in elements, an array as a pointer.

use std::array;

use strips::{AreaTable, Counts, Refusal};

extern "C" {
    /// Float bits in, short out.
    fn leaf_short(a: u32, lo: u32, extent: u32) -> u32;
    /// Float bits out; a NaN is 0x7FC00000.
    fn leaf_back(q: u32, lo: u32, extent: u32) -> u32;
    /// Floor (0) or ceiling of a quarter box's side; the i16 as 16 bits.
    fn leaf_quarter(x: u32, ceil: u32) -> u32;
    /// Id i of a new table, 0 past its end; from 32 on, how many ids it has.
    fn leaf_seed_area(own: u32, i: usize) -> u32;
    /// The index of an id among the first `len` of 32, added where it is new; 32 for a 33rd.
    fn leaf_ensure_area(ids: *mut u32, len: usize, id: u32) -> u32;
    fn leaf_place(end: u32, size: u32) -> u64;
    /// Three words to three shorts, one per word, in a box of 6 words; the vertices done.
    fn leaf_quantise_all(vertices: *const u32, len: usize, bounds: *const u32, out: *mut u32, out_len: usize) -> usize;
    /// Two words per vertex (x + 65536 y, z) to its number, first in `work`; the distinct
    /// vertices.
    fn leaf_number_all(triples: *const u32, len: usize, work: *mut u32, work_len: usize) -> usize;
    /// 0 with polygons, portals, points; or the refusal's number with its place, in 8 words.
    fn leaf_check_strip(strip: *const u32, len: usize, answer: *mut u64) -> u32;
}

/// Work words that `number_all` is lent for `vertices` vertices.
pub fn number_work(vertices: usize) -> usize {
    4 * vertices
}

pub fn short(a: u32, lo: u32, extent: u32) -> u32 {
    unsafe { leaf_short(a, lo, extent) }
}

pub fn back(q: u32, lo: u32, extent: u32) -> u32 {
    unsafe { leaf_back(q, lo, extent) }
}

pub fn quarter(x: u32, ceil: bool) -> u32 {
    unsafe { leaf_quarter(x, ceil as u32) }
}

pub fn areas(own: u32, ids: &[u32]) -> (usize, AreaTable) {
    let mut table: [u32; 32] = array::from_fn(|i| unsafe { leaf_seed_area(own, i) });
    let mut count = unsafe { leaf_seed_area(own, 32) };
    let mut taken = 0;
    for &id in ids {
        let at = unsafe { leaf_ensure_area(table.as_mut_ptr(), count as usize, id) };
        if at == 32 {
            break;
        }
        count = count.max(at + 1);
        taken += 1;
    }
    (taken, AreaTable { count, ids: table })
}

pub fn place(end: u32, size: u32) -> u64 {
    unsafe { leaf_place(end, size) }
}

pub fn quantise_all(vertices: &[u32], bounds: &[u32; 6], out: &mut [u32]) -> usize {
    unsafe { leaf_quantise_all(vertices.as_ptr(), vertices.len(), bounds.as_ptr(), out.as_mut_ptr(), out.len()) }
}

/// The numbers come first in `work`.
pub fn number_all(triples: &[u32], work: &mut [u32]) -> usize {
    unsafe { leaf_number_all(triples.as_ptr(), triples.len(), work.as_mut_ptr(), work.len()) }
}

pub fn check_strip(strip: &[u32]) -> Result<Counts, Refusal> {
    let mut answer = [u64::MAX; 8];
    match unsafe { leaf_check_strip(strip.as_ptr(), strip.len(), answer.as_mut_ptr()) } {
        0 => Ok(Counts { polys: answer[0] as usize, portals: answer[1] as usize, points: answer[2] as usize }),
        number => Err(Refusal::new(number, answer[0] as usize)),
    }
}
