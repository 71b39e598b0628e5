//! The judge's own leaf functions, written from document 01 (modules 2, 3, 4, 7).

use rage::math::Vec3;

pub const PAGE_SIZE: u64 = 16384;

/// The short number of `a` on an axis. The product is rounded to f32 first; then
/// halves go away from zero, decided on the exact rest.
pub fn short(a: f32, lo: f32, extent: f32) -> u16 {
    if extent.abs() < 2f32.powi(-23) {
        return 0;
    }
    let t = (a - lo) / extent;
    if t.is_nan() || t <= 0.0 {
        return 0;
    }
    let product = if t > 1.0 { 65535.0 } else { t * 65535.0 } as f64;
    let whole = product as u64;
    (if product - whole as f64 >= 0.5 { whole + 1 } else { whole }) as u16
}

pub fn back(q: u16, lo: f32, extent: f32) -> f32 {
    lo + q as f32 / 65535.0 * extent
}

/// Saturated to 16 signed bits, NaN 0. A f32 is exact as f64, and so is four times it.
fn saturated(x: f64) -> i16 {
    if x.is_nan() {
        0
    } else if x >= 32767.0 {
        32767
    } else if x <= -32768.0 {
        -32768
    } else {
        x as i16
    }
}

pub fn quarter_floor(x: f32) -> i16 {
    let y = x as f64 * 4.0;
    let whole = saturated(y);
    if y > -32768.0 && y < whole as f64 {
        whole - 1
    } else {
        whole
    }
}

pub fn quarter_ceil(x: f32) -> i16 {
    let y = x as f64 * 4.0;
    let whole = saturated(y);
    if y < 32767.0 && y > whole as f64 {
        whole + 1
    } else {
        whole
    }
}

/// For x, y, z in turn floor of 4 × min, ceiling of 4 × max.
pub fn quarter_box(min: Vec3, max: Vec3) -> [i16; 6] {
    [
        quarter_floor(min.x),
        quarter_ceil(max.x),
        quarter_floor(min.y),
        quarter_ceil(max.y),
        quarter_floor(min.z),
        quarter_ceil(max.z),
    ]
}

/// One axis of a polygon's bounds: a NaN loses to the start value.
pub fn axis_bounds(values: impl Iterator<Item = f32>) -> (f32, f32) {
    let (mut min, mut max) = (f32::MAX, f32::MIN);
    for v in values {
        if v < min {
            min = v;
        }
        if v > max {
            max = v;
        }
    }
    (min, max)
}

/// The area table: count and ids.
#[derive(Debug, Clone, Copy, PartialEq, Eq, Default)]
pub struct AreaTable {
    pub count: u32,
    pub ids: [u32; 32],
}

impl AreaTable {
    pub fn seeded(own: u32) -> AreaTable {
        let mut table = AreaTable::default();
        for id in [own, 16383, own.wrapping_sub(100), own.wrapping_sub(1), own.wrapping_add(1), own.wrapping_add(100)] {
            assert!(table.ensure(id));
        }
        table
    }

    /// False for a 33rd area.
    pub fn ensure(&mut self, id: u32) -> bool {
        if self.ids[..self.count as usize].contains(&id) {
            return true;
        }
        if self.count == 32 {
            return false;
        }
        self.ids[self.count as usize] = id;
        self.count += 1;
        true
    }
}

/// The number of ids taken before a 33rd area was met, and the table at that moment.
pub fn areas(own: u32, ids: &[u32]) -> (usize, AreaTable) {
    let mut table = AreaTable::seeded(own);
    let taken = ids.iter().position(|&id| !table.ensure(id)).unwrap_or(ids.len());
    (taken, table)
}

/// Where a block of `size` bytes starts after `end` bytes.
pub fn place(end: u64, size: u64) -> u64 {
    let start = end.next_multiple_of(16);
    if start % PAGE_SIZE + size > PAGE_SIZE {
        start.next_multiple_of(PAGE_SIZE)
    } else {
        start
    }
}

#[cfg(test)]
mod tests {
    use super::*;

    /// The proved examples P1 to P8 and P11.
    #[test]
    fn proved_examples() {
        let tiny = 2f32.powi(-23);
        assert_eq!(short(1.0, 0.0, 2.0), 32768);
        assert_eq!(short(1.0, 0.0, tiny / 2.0), 0);
        assert_eq!(short(tiny, 0.0, tiny), 65535);
        assert_eq!(short(f32::NAN, 0.0, 1.0), 0);
        assert_eq!((quarter_floor(-0.375), quarter_ceil(-0.375)), (-2, -1));
        assert_eq!((quarter_floor(8192.0), quarter_ceil(8192.0)), (32767, 32767));
        assert_eq!((quarter_floor(-8192.0), quarter_ceil(-8192.0)), (-32768, -32768));
        assert_eq!(AreaTable::seeded(0).ids[..6], [0, 16383, 4294967196, 4294967295, 1, 100]);
        assert_eq!(AreaTable::seeded(16384).count, 5);
        assert_eq!((place(16288, 96), place(16288, 112)), (16288, 16384));
    }
}
