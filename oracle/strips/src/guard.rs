//! Calls of the Rust that neither unwind nor abort the caller.
//!
//! A panic (the `assert!` in `BlockWriter::alloc`) is caught by `catch_unwind`, its
//! message kept from standard error. An allocation that fails aborts the process and
//! can't be caught: `Vec::with_capacity` of a claimed count, or parts that are repeated
//! until they fill memory. So before a read the claims are added up, and pages that
//! claim more than `CLAIM_LIMIT` bytes in any one vector are not given to the Rust.
//! (Memory that is only reserved costs nothing, so the limit may be generous.)

use std::cell::Cell;
use std::mem::size_of;
use std::panic::{catch_unwind, set_hook, take_hook, AssertUnwindSafe};
use std::sync::Once;

use rage::math::Vec3;
use rage::resource::{container, u16_le, u32_le, u64_le, ResReader, SYSTEM_BASE};
use rage::ynv::{parse_ynv, serialize_ynv, NavEdge, NavPortal, Ynv};

pub const CLAIM_LIMIT: u64 = 1 << 28;

/// What `serialize_ynv` did.
#[derive(Debug, Clone, PartialEq)]
pub enum RustWrite {
    Bytes(Vec<u8>),
    Error(String),
    Panic(String),
}

/// What `parse_ynv` did. `NotRun`: the pages claim too much.
#[derive(Debug, Clone, PartialEq)]
pub enum RustRead {
    Cell(Ynv),
    Error(String),
    Panic(String),
    NotRun,
}

thread_local! {
    static QUIET: Cell<bool> = const { Cell::new(false) };
}

/// Runs `f`; a panic gives its message.
pub fn caught<T>(f: impl FnOnce() -> T) -> Result<T, String> {
    static HOOK: Once = Once::new();
    HOOK.call_once(|| {
        let usual = take_hook();
        set_hook(Box::new(move |info| {
            if !QUIET.get() {
                usual(info);
            }
        }));
    });
    QUIET.set(true);
    let result = catch_unwind(AssertUnwindSafe(f));
    QUIET.set(false);
    result.map_err(|why| match why.downcast::<String>() {
        Ok(text) => *text,
        Err(why) => why.downcast::<&str>().map_or_else(|_| String::new(), |text| text.to_string()),
    })
}

pub fn rust_write(cell: &Ynv) -> RustWrite {
    match caught(|| serialize_ynv(cell)) {
        Ok(Ok(bytes)) => RustWrite::Bytes(bytes),
        Ok(Err(error)) => RustWrite::Error(format!("{error:#}")),
        Err(text) => RustWrite::Panic(text),
    }
}

pub fn rust_read(system: &[u8], graphics: &[u8]) -> RustRead {
    if claimed_bytes(system, graphics) > CLAIM_LIMIT {
        return RustRead::NotRun;
    }
    let data = container(system, graphics);
    match caught(|| parse_ynv(&data)) {
        Ok(Ok(cell)) => RustRead::Cell(cell),
        Ok(Err(error)) => RustRead::Error(format!("{error:#}")),
        Err(text) => RustRead::Panic(text),
    }
}

/// What these pages may make `parse_ynv` reserve or hold, in bytes: the greatest of a
/// list's claimed items, the items of its parts decoded, the polygons' vertices and
/// edges, and the claimed portals.
pub fn claimed_bytes(system: &[u8], graphics: &[u8]) -> u64 {
    let r = ResReader { system, graphics };
    let Some(h) = r.resolve(SYSTEM_BASE, 368) else { return 0 };
    let mut most = u32_le(h, 0x14C) as u64 * size_of::<NavPortal>() as u64;
    for (at, item_size) in [(0x70, 6), (0x80, 2), (0x88, 8), (0x118, 48)] {
        let Some(list) = r.resolve(u64_le(h, at), 48) else { continue };
        most = most.max(u32_le(list, 8) as u64 * item_size);
        let Some(parts) = r.resolve(u64_le(list, 0x10), u32_le(list, 0x20) as usize * 16) else { continue };
        let mut held = 0;
        for p in parts.chunks_exact(16) {
            let count = u32_le(p, 8) as u64;
            let Some(items) = r.resolve(u64_le(p, 0), (count * item_size) as usize) else { break };
            // Decoded, an item takes at most four times its bytes.
            held += 4 * count * item_size;
            if held > CLAIM_LIMIT {
                break;
            }
            if at == 0x118 {
                let corners: u64 = items.chunks_exact(48).map(|poly| (u16_le(poly, 2) >> 5) as u64).sum();
                held += corners * (size_of::<Vec3>() + size_of::<NavEdge>()) as u64;
            }
        }
        most = most.max(held);
    }
    most
}
