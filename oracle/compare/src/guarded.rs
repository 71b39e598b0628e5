//! Memory to lend, with a watch on what lies around it: guards that must stay, or a page
//! that can't be touched.

use std::ffi::c_void;
use std::ptr::null_mut;
use std::slice::{from_raw_parts, from_raw_parts_mut};

const PAGE: usize = 4096;
/// Items on each side of what is lent.
const MARGIN: usize = 16;

extern "C" {
    fn mmap(address: *mut c_void, length: usize, access: i32, flags: i32, file: i32, offset: i64) -> *mut c_void;
    fn mprotect(address: *mut c_void, length: usize, access: i32) -> i32;
    fn munmap(address: *mut c_void, length: usize) -> i32;
}

const NONE: i32 = 0;
const READ_WRITE: i32 = 1 | 2;
const PRIVATE_ANONYMOUS: i32 = 0x02 | 0x20;

/// Where the lent items lie.
#[derive(Clone, Copy, Debug, PartialEq, Eq)]
pub enum Place {
    /// In an allocation, guards before and behind.
    Between,
    /// They are the allocation: for a run under a memory checker.
    Whole,
    /// Guards before, an unmapped page right behind.
    AtEnd,
    /// An unmapped page right before, guards behind.
    AtStart,
}

pub const PLACES: [Place; 4] = [Place::Between, Place::Whole, Place::AtEnd, Place::AtStart];

/// Pages with an unmapped one on each side.
struct Mapped {
    all: *mut u8,
    length: usize,
}

impl Mapped {
    fn new(bytes: usize) -> Mapped {
        let length = bytes.next_multiple_of(PAGE) + 2 * PAGE;
        unsafe {
            let all = mmap(null_mut(), length, NONE, PRIVATE_ANONYMOUS, -1, 0) as *mut u8;
            assert!(all as isize != -1, "no memory");
            assert_eq!(mprotect(all.add(PAGE) as *mut c_void, length - 2 * PAGE, READ_WRITE), 0);
            Mapped { all, length }
        }
    }

    fn bytes(&self) -> usize {
        self.length - 2 * PAGE
    }
}

impl Drop for Mapped {
    fn drop(&mut self) {
        unsafe {
            munmap(self.all as *mut c_void, self.length);
        }
    }
}

/// Items that can be lent.
pub trait Item: Copy + PartialEq {
    fn dirt(n: usize) -> Self;
}

impl Item for u8 {
    fn dirt(n: usize) -> u8 {
        (n as u32).wrapping_mul(0x9E37_79B1).wrapping_add(0x5151_5151).to_be_bytes()[0]
    }
}

impl Item for u32 {
    fn dirt(n: usize) -> u32 {
        0xDEAD_0000 ^ (n as u32).wrapping_mul(0x9E37_79B1)
    }
}

impl Item for u64 {
    fn dirt(n: usize) -> u64 {
        0xD1D1_D1D1_0000_0000 ^ n as u64
    }
}

/// Memory for items of one type, lent again and again.
pub struct Lender<T> {
    mapped: Mapped,
    held: Vec<T>,
    lent: *mut T,
    count: usize,
    before: usize,
    behind: usize,
}

impl<T: Item> Lender<T> {
    pub fn new() -> Lender<T> {
        Lender { mapped: Mapped::new(PAGE), held: Vec::new(), lent: null_mut(), count: 0, before: 0, behind: 0 }
    }

    fn all(&mut self) -> &mut [T] {
        unsafe { from_raw_parts_mut(self.lent.sub(self.before), self.before + self.count + self.behind) }
    }

    /// Makes room for `count` items at such a place, all of it dirty.
    pub fn dirty(&mut self, place: Place, count: usize) {
        let size = size_of::<T>();
        if self.mapped.bytes() < (count + MARGIN) * size {
            self.mapped = Mapped::new(2 * (count + MARGIN) * size);
        }
        (self.before, self.behind) = match place {
            Place::Between => (MARGIN, MARGIN),
            Place::Whole => (0, 0),
            Place::AtEnd => (MARGIN, 0),
            Place::AtStart => (0, MARGIN),
        };
        let start = unsafe { self.mapped.all.add(PAGE) };
        self.lent = match place {
            Place::AtEnd => unsafe { start.add(self.mapped.bytes() - count * size) as *mut T },
            Place::AtStart => start as *mut T,
            Place::Between | Place::Whole => {
                self.held = vec![T::dirt(0); self.before + count + self.behind];
                unsafe { self.held.as_mut_ptr().add(self.before) }
            }
        };
        self.count = count;
        for (n, item) in self.all().iter_mut().enumerate() {
            *item = T::dirt(n);
        }
    }

    /// The same, holding these items.
    pub fn holding(&mut self, place: Place, items: &[T]) {
        self.dirty(place, items.len());
        let before = self.before;
        self.all()[before..before + items.len()].copy_from_slice(items);
    }

    /// What is lent. It lives as long as nothing else is asked of the lender.
    pub fn lent<'a>(&mut self) -> &'a mut [T] {
        unsafe { from_raw_parts_mut(self.lent, self.count) }
    }

    pub fn items(&self) -> &[T] {
        unsafe { from_raw_parts(self.lent, self.count) }
    }

    /// Whether the guards are as they were, and the lent items from `from` on.
    pub fn stays_from(&mut self, from: usize) -> bool {
        let (before, behind) = (self.before, self.before + from.min(self.count));
        let all = self.all();
        let dirty = |from: usize, to: usize| (from..to).fold(true, |same, n| same & (all[n] == T::dirt(n)));
        dirty(0, before) && dirty(behind, all.len())
    }

    /// Whether the guards and the lent items are as they were.
    pub fn stays_as(&mut self, items: &[T]) -> bool {
        self.stays_from(self.count) && self.items() == items
    }
}

impl<T: Item> Default for Lender<T> {
    fn default() -> Self {
        Self::new()
    }
}
