//! The C entries of libynv.a, and safe calls of them. A slice passes as a pointer and its
//! length in elements, an array as a pointer.

extern "C" {
    // Each gives 0 with its values and zeros in the answer; or the refusal's number with its
    // place in answer[0], the others left as they are.

    /// Words, polygons, portals, points, sectors.
    fn ynv_parse(
        system: *const u8,
        system_len: usize,
        graphics: *const u8,
        graphics_len: usize,
        strip: *mut u32,
        strip_len: usize,
        answer: *mut u64,
    ) -> u32;

    /// The count.
    fn ynv_count_seams(strip: *const u32, strip_len: usize, answer: *mut u64) -> u32;

    /// 1 and the polygon's number, or 0 and 0.
    fn ynv_pick_poly(strip: *const u32, strip_len: usize, x: u16, y: u16, answer: *mut u64) -> u32;

    /// The two shorts.
    fn ynv_spot_for_position(strip: *const u32, strip_len: usize, x: f32, y: f32, answer: *mut u64) -> u32;

    /// The bytes of the text.
    fn ynv_export_obj(strip: *const u32, strip_len: usize, text: *mut u8, text_len: usize, answer: *mut u64) -> u32;

    /// How many are marked.
    fn ynv_reachable(
        strip: *const u32,
        strip_len: usize,
        start: u64,
        marks: *mut u8,
        marks_len: usize,
        answer: *mut u64,
    ) -> u32;

    /// The two coordinates; it refuses nothing.
    fn ynv_cell_for_position(x: f32, y: f32, answer: *mut u64) -> u32;

    /// The four sides as float bits.
    fn ynv_cell_bounds(cx: u32, cy: u32, answer: *mut u64) -> u32;

    /// Bytes written, points stored, points dropped, coordinates pushed.
    fn ynv_serialize(
        strip: *const u32,
        strip_len: usize,
        work: *mut u32,
        work_len: usize,
        pages: *mut u8,
        pages_len: usize,
        answer: *mut u64,
    ) -> u32;
}

pub fn parse(system: &[u8], graphics: &[u8], strip: &mut [u32], answer: &mut [u64; 8]) -> u32 {
    unsafe {
        ynv_parse(
            system.as_ptr(),
            system.len(),
            graphics.as_ptr(),
            graphics.len(),
            strip.as_mut_ptr(),
            strip.len(),
            answer.as_mut_ptr(),
        )
    }
}

pub fn count_seams(strip: &[u32], answer: &mut [u64; 8]) -> u32 {
    unsafe { ynv_count_seams(strip.as_ptr(), strip.len(), answer.as_mut_ptr()) }
}

pub fn pick_poly(strip: &[u32], x: u16, y: u16, answer: &mut [u64; 8]) -> u32 {
    unsafe { ynv_pick_poly(strip.as_ptr(), strip.len(), x, y, answer.as_mut_ptr()) }
}

pub fn spot_for_position(strip: &[u32], x: f32, y: f32, answer: &mut [u64; 8]) -> u32 {
    unsafe { ynv_spot_for_position(strip.as_ptr(), strip.len(), x, y, answer.as_mut_ptr()) }
}

pub fn export_obj(strip: &[u32], text: &mut [u8], answer: &mut [u64; 8]) -> u32 {
    unsafe { ynv_export_obj(strip.as_ptr(), strip.len(), text.as_mut_ptr(), text.len(), answer.as_mut_ptr()) }
}

pub fn reachable(strip: &[u32], start: u64, marks: &mut [u8], answer: &mut [u64; 8]) -> u32 {
    unsafe { ynv_reachable(strip.as_ptr(), strip.len(), start, marks.as_mut_ptr(), marks.len(), answer.as_mut_ptr()) }
}

pub fn cell_for_position(x: f32, y: f32, answer: &mut [u64; 8]) -> u32 {
    unsafe { ynv_cell_for_position(x, y, answer.as_mut_ptr()) }
}

pub fn cell_bounds(cx: u32, cy: u32, answer: &mut [u64; 8]) -> u32 {
    unsafe { ynv_cell_bounds(cx, cy, answer.as_mut_ptr()) }
}

pub fn serialize(strip: &[u32], work: &mut [u32], pages: &mut [u8], answer: &mut [u64; 8]) -> u32 {
    unsafe {
        ynv_serialize(
            strip.as_ptr(),
            strip.len(),
            work.as_mut_ptr(),
            work.len(),
            pages.as_mut_ptr(),
            pages.len(),
            answer.as_mut_ptr(),
        )
    }
}
