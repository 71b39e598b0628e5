//! The C entries of libynv.a (include/ynv.h) and a safe call of each, and memory that may be lacking: the
//! only unsafe code of the crate.
//!
//! A slice passes as a pointer and its length in elements, the answer as a pointer to its eight words. Each entry
//! returns 0 or a refusal's number, and takes every content of what it is lent.

use std::alloc::{alloc_zeroed, Layout};

pub type Answer = [u64; 8];

/// Numbers of which all bits zero is one.
pub trait Zero: Copy {}
impl Zero for u8 {}
impl Zero for u32 {}

/// So many zeros, or none where there is no memory for them. `vec![0; count]` would abort then; growing a vector by
/// hand would touch all of it, where the system hands out zeroed memory only as it is used.
pub fn zeros<T: Zero>(count: usize) -> Option<Vec<T>> {
    let layout = Layout::array::<T>(count).ok()?;
    if layout.size() == 0 {
        return Some(Vec::new());
    }
    // SAFETY: the layout's size isn't 0. The block has the size and alignment of `count` numbers, all of them zero and
    // so of T, and comes from the allocator that vectors use; the vector alone owns it.
    unsafe {
        let block = alloc_zeroed(layout).cast::<T>();
        (!block.is_null()).then(|| Vec::from_raw_parts(block, count, count))
    }
}

extern "C" {
    fn ynv_parse(
        system: *const u8,
        system_len: usize,
        graphics: *const u8,
        graphics_len: usize,
        strip: *mut u32,
        strip_len: usize,
        answer: *mut u64,
    ) -> u32;
    fn ynv_serialize(
        strip: *const u32,
        strip_len: usize,
        work: *mut u32,
        work_len: usize,
        pages: *mut u8,
        pages_len: usize,
        answer: *mut u64,
    ) -> u32;
    fn ynv_count_seams(strip: *const u32, strip_len: usize, answer: *mut u64) -> u32;
    fn ynv_spot_for_position(strip: *const u32, strip_len: usize, x: f32, y: f32, answer: *mut u64) -> u32;
    fn ynv_pick_poly(strip: *const u32, strip_len: usize, x: u16, y: u16, answer: *mut u64) -> u32;
    fn ynv_export_obj(strip: *const u32, strip_len: usize, text: *mut u8, text_len: usize, answer: *mut u64) -> u32;
    fn ynv_reachable(
        strip: *const u32,
        strip_len: usize,
        start: u64,
        marks: *mut u8,
        marks_len: usize,
        answer: *mut u64,
    ) -> u32;
    fn ynv_cell_for_position(x: f32, y: f32, answer: *mut u64) -> u32;
    fn ynv_cell_bounds(cx: u32, cy: u32, answer: *mut u64) -> u32;
}

pub fn parse(system: &[u8], graphics: &[u8], strip: &mut [u32], answer: &mut Answer) -> u32 {
    let (out, room) = (strip.as_mut_ptr(), strip.len());
    // SAFETY: pointers and lengths are those of slices, non-null and aligned even where empty. What is written, strip
    // and answer, is borrowed mutably, so it overlaps nothing and nobody else uses it until the call returns.
    unsafe {
        ynv_parse(system.as_ptr(), system.len(), graphics.as_ptr(), graphics.len(), out, room, answer.as_mut_ptr())
    }
}

pub fn serialize(strip: &[u32], work: &mut [u32], pages: &mut [u8], answer: &mut Answer) -> u32 {
    let (scratch, scratch_len) = (work.as_mut_ptr(), work.len());
    let (out, room) = (pages.as_mut_ptr(), pages.len());
    // SAFETY: as in `parse`; what is written is work, pages and answer, each borrowed mutably.
    unsafe { ynv_serialize(strip.as_ptr(), strip.len(), scratch, scratch_len, out, room, answer.as_mut_ptr()) }
}

pub fn count_seams(strip: &[u32], answer: &mut Answer) -> u32 {
    // SAFETY: as in `parse`; only the answer is written.
    unsafe { ynv_count_seams(strip.as_ptr(), strip.len(), answer.as_mut_ptr()) }
}

pub fn spot_for_position(strip: &[u32], x: f32, y: f32, answer: &mut Answer) -> u32 {
    // SAFETY: as in `parse`; only the answer is written, and every float is taken.
    unsafe { ynv_spot_for_position(strip.as_ptr(), strip.len(), x, y, answer.as_mut_ptr()) }
}

pub fn pick_poly(strip: &[u32], x: u16, y: u16, answer: &mut Answer) -> u32 {
    // SAFETY: as in `parse`; only the answer is written.
    unsafe { ynv_pick_poly(strip.as_ptr(), strip.len(), x, y, answer.as_mut_ptr()) }
}

pub fn export_obj(strip: &[u32], text: &mut [u8], answer: &mut Answer) -> u32 {
    let (out, room) = (text.as_mut_ptr(), text.len());
    // SAFETY: as in `parse`; what is written is text and answer, each borrowed mutably.
    unsafe { ynv_export_obj(strip.as_ptr(), strip.len(), out, room, answer.as_mut_ptr()) }
}

pub fn reachable(strip: &[u32], start: u64, marks: &mut [u8], answer: &mut Answer) -> u32 {
    let (out, room) = (marks.as_mut_ptr(), marks.len());
    // SAFETY: as in `parse`; what is written is marks and answer, each borrowed mutably.
    unsafe { ynv_reachable(strip.as_ptr(), strip.len(), start, out, room, answer.as_mut_ptr()) }
}

pub fn cell_for_position(x: f32, y: f32, answer: &mut Answer) -> u32 {
    // SAFETY: the answer is borrowed mutably and has eight words; every float is taken.
    unsafe { ynv_cell_for_position(x, y, answer.as_mut_ptr()) }
}

pub fn cell_bounds(cx: u32, cy: u32, answer: &mut Answer) -> u32 {
    // SAFETY: the answer is borrowed mutably and has eight words; every number is taken.
    unsafe { ynv_cell_bounds(cx, cy, answer.as_mut_ptr()) }
}
