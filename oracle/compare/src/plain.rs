//! The polygon under the cursor as plain Rust: one pass over the strip that checks it, then
//! polygon by polygon and vertex by vertex up to the first that contains the spot. Nothing is
//! allocated, and a vertex's x becomes a short only where its side may be crossed, as in the
//! library, which is timed against it, since the Rust source has no such call. `plain_obj` and
//! `plain_seams` take the checks from here, the first one shorts too.

use strips::Refusal;

/// Words of a cell's record; bb_min stands at 5, bb_max at 8, bb_size at 11.
pub(crate) const CELL_WORDS: usize = 14;

/// The counts in a polygon's first word: vertices, edges, links.
pub(crate) fn counts(first: u32) -> (usize, usize, usize) {
    ((first & 0xFFF) as usize, (first >> 12 & 0xFFF) as usize, (first >> 24 & 0xF) as usize)
}

/// The words that follow a record's first word.
pub(crate) fn follow_up(first: u32) -> usize {
    match first >> 28 {
        1 => CELL_WORDS - 1,
        2 => {
            let (vertices, edges, links) = counts(first);
            3 + links + 3 * vertices + 6 * edges
        }
        3 => 10,
        4 => 3,
        _ => 0,
    }
}

/// Whether a first word may stand behind a record of kind `last` (0 at the start) and has no
/// unnamed bit set.
fn good_first(first: u32, last: u32) -> bool {
    match first >> 28 {
        1 => last == 0 && first << 4 == 0,
        2 => last == 1 || last == 2,
        kind @ (3 | 4) => last != 0 && kind >= last && first & 0x0FFF_0000 == 0,
        5 => last != 0 && first << 4 == 0,
        _ => false,
    }
}

/// Whether the words behind a first word have no unnamed bit set.
fn good_rest(first: u32, rest: &[u32]) -> bool {
    match first >> 28 {
        2 => {
            let (vertices, _, links) = counts(first);
            let (head, halves) = rest.split_at(3 + links + 3 * vertices);
            head[0] >> 16 == 0
                && head[3..3 + links].iter().all(|link| link >> 16 == 0)
                && halves.chunks_exact(3).all(|half| half[2] >> 24 == 0)
        }
        3 => rest[0] >> 16 == 0 && rest[9] >> 8 == 0,
        _ => true,
    }
}

/// The place of refusal 3, if the strip is badly formed.
pub(crate) fn check(strip: &[u32]) -> Result<(), usize> {
    let (mut at, mut last) = (0, 0);
    while let Some(&first) = strip.get(at) {
        if !good_first(first, last) {
            return Err(at);
        }
        let next = at + 1 + follow_up(first);
        let rest = strip.get(at + 1..next).ok_or(strip.len())?;
        if !good_rest(first, rest) {
            return Err(at);
        }
        (at, last) = (next, first >> 28);
        if last == 5 {
            return if at == strip.len() { Ok(()) } else { Err(at) };
        }
    }
    Err(strip.len())
}

/// The short of a coordinate on an axis with its lo and extent.
pub(crate) fn short(bits: u32, (lo, extent): (f32, f32)) -> i64 {
    if extent.abs() < f32::EPSILON {
        return 0;
    }
    let scaled = ((f32::from_bits(bits) - lo) / extent).clamp(0.0, 1.0) * 65535.0;
    // A NaN gives 0. A half is exact in f64, and goes away from zero.
    (f64::from(scaled) + 0.5) as i64
}

/// Whether the polygon with these vertices, three words each, contains the spot.
fn contains(vertices: &[u32], axes: [(f32, f32); 2], x: i64, y: i64) -> bool {
    if vertices.len() < 9 {
        return false;
    }
    let mut inside = false;
    let mut last = &vertices[vertices.len() - 3..];
    let mut y1 = short(last[1], axes[1]);
    for v in vertices.chunks_exact(3) {
        let y2 = short(v[1], axes[1]);
        if (y1 <= y) != (y2 <= y) {
            let (x1, x2) = (short(last[0], axes[0]), short(v[0], axes[0]));
            let (spot, side) = ((x - x1) * (y2 - y1), (y - y1) * (x2 - x1));
            inside ^= if y1 < y2 { spot < side } else { spot > side };
        }
        (last, y1) = (v, y2);
    }
    inside
}

/// Lo and extent of x, y and z, or 10.
pub(crate) fn axes(strip: &[u32]) -> Result<[(f32, f32); 3], Refusal> {
    let bounds: [f32; 9] = std::array::from_fn(|n| f32::from_bits(strip[5 + n]));
    if bounds.iter().all(|side| side.is_finite()) {
        Ok([(bounds[0], bounds[6]), (bounds[1], bounds[7]), (bounds[2], bounds[8])])
    } else {
        Err(Refusal::new(10, 0))
    }
}

/// The vertices of a polygon, from its first word and the rest.
pub(crate) fn vertices(first: u32, rest: &[u32]) -> &[u32] {
    let (vertices, _, links) = counts(first);
    &rest[3 + links..3 + links + 3 * vertices]
}

pub fn pick(strip: &[u32], x: u16, y: u16) -> Result<Option<usize>, Refusal> {
    check(strip).map_err(|place| Refusal::new(3, place))?;
    let [across, up, _] = axes(strip)?;
    let (mut at, mut number) = (CELL_WORDS, 0);
    while strip[at] >> 28 == 2 {
        let next = at + 1 + follow_up(strip[at]);
        if contains(vertices(strip[at], &strip[at + 1..next]), [across, up], x.into(), y.into()) {
            return Ok(Some(number));
        }
        (at, number) = (next, number + 1);
    }
    Ok(None)
}
