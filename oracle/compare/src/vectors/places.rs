//! Tag 5, place: in the end so far and the block's size (at most a page), out where it
//! starts (low word, high word).

use cases::Rng;

use super::Vectors;
use crate::reference;

fn place(out: &mut Vectors, end: u32, size: u32) {
    let start = reference::place(end, size);
    out.add(5, &[end, size], &[start as u32, (start >> 32) as u32]);
}

pub fn places(out: &mut Vectors) {
    // P11, empty blocks, blocks that fill a page, places beside a page's end.
    for (end, size) in [(16288, 96), (16288, 112), (0, 0), (0, 16384), (1, 16384), (16384, 0), (16385, 0), (16369, 0)] {
        place(out, end, size);
    }
    for end in [0, 1, 15, 16, 368, 8192, 16287, 16289, 16368, 16383, 16384, 32767, 32768] {
        for size in [0, 1, 16, 48, 96, 8192, 16383, 16384] {
            place(out, end, size);
        }
    }
    for end in [u32::MAX, u32::MAX - 15, u32::MAX - 16383, u32::MAX - 16384] {
        for size in [0, 16, 16384] {
            place(out, end, size);
        }
    }
    let mut rng = Rng::new(105);
    for _ in 0..100 {
        place(out, rng.below(1 << 22) as u32, rng.below(16385) as u32);
    }
}
