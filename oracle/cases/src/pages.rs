//! Pages: what the Rust writes, damaged; odd part tables; shared and cyclic sectors;
//! tables that lie across each other.

use rage::ynv::{serialize_ynv, Ynv};

use crate::cells::vec3;
use crate::{cells, floats, Rng};

/// The two sections.
#[derive(Debug, Clone, Default)]
pub struct Pages {
    pub system: Vec<u8>,
    pub graphics: Vec<u8>,
}

pub const SYSTEM: u64 = 0x5000_0000;
pub const GRAPHICS: u64 = 0x6000_0000;

/// Addresses in the header: vertices, indices, edges, polygons, root, portals, links.
pub const ADDRESSES: [usize; 7] = [0x70, 0x80, 0x88, 0x118, 0x120, 0x128, 0x130];
pub const LISTS: [(usize, usize); 4] = [(0x70, 6), (0x80, 2), (0x88, 8), (0x118, 48)];

impl Pages {
    pub fn new(system: Vec<u8>) -> Pages {
        Pages { system, graphics: Vec::new() }
    }

    /// The pages that the Rust writes.
    pub fn written(cell: &Ynv) -> Pages {
        Pages::new(serialize_ynv(cell).expect("a cell that is accepted"))
    }

    pub fn u32(&self, at: usize) -> u32 {
        u32::from_le_bytes(self.system[at..at + 4].try_into().unwrap())
    }

    pub fn u64(&self, at: usize) -> u64 {
        u64::from_le_bytes(self.system[at..at + 8].try_into().unwrap())
    }

    pub fn put_u32(&mut self, at: usize, v: u32) {
        self.put(at, &v.to_le_bytes());
    }

    pub fn put_u64(&mut self, at: usize, v: u64) {
        self.put(at, &v.to_le_bytes());
    }

    /// Bytes stored as far as they fit.
    pub fn put(&mut self, at: usize, bytes: &[u8]) {
        for (to, from) in self.system.iter_mut().skip(at).zip(bytes) {
            *to = *from;
        }
    }

    /// A block at the system section's end; its address.
    pub fn block(&mut self, bytes: &[u8]) -> u64 {
        let at = self.system.len() as u64;
        self.system.extend_from_slice(bytes);
        SYSTEM + at
    }

    pub fn graphics_block(&mut self, bytes: &[u8]) -> u64 {
        let at = self.graphics.len() as u64;
        self.graphics.extend_from_slice(bytes);
        GRAPHICS + at
    }

    /// Where in the system section the header's address at `at` points, if inside.
    pub fn offset(&self, at: usize) -> Option<usize> {
        let offset = self.u64(at).checked_sub(SYSTEM)? as usize;
        (offset < self.system.len()).then_some(offset)
    }
}

fn le(values: &[(usize, u64)]) -> Vec<u8> {
    values.iter().flat_map(|&(width, v)| v.to_le_bytes()[..width].to_vec()).collect()
}

/// A list header of 48 bytes.
pub fn list_header(item_count: u32, parts: u64, part_count: u32) -> Vec<u8> {
    le(&[(4, 1), (4, 1), (8, item_count as u64), (8, parts), (8, 0), (8, part_count as u64), (8, 0)])
}

pub fn part(address: u64, count: u32) -> Vec<u8> {
    le(&[(8, address), (8, count as u64)])
}

/// A sector of 96 bytes over the box 0..150.
pub fn sector(data: u64, subs: [u64; 4]) -> Vec<u8> {
    let mut out = Vec::new();
    for v in [0f32, 0.0, 0.0, f32::NAN, 150.0, 150.0, 150.0, f32::NAN] {
        out.extend(v.to_le_bytes());
    }
    out.extend([0; 12]);
    out.extend(le(&[(8, data), (8, subs[0]), (8, subs[1]), (8, subs[2]), (8, subs[3])]));
    out.resize(96, 0);
    out
}

pub fn sector_data(points: u64, count: u16) -> Vec<u8> {
    le(&[(8, 0), (8, 0), (8, points), (2, 0), (2, count as u64), (4, 0)])
}

/// A header of 368 bytes over the box size 150 with a root and nothing else.
pub fn header(root: u64) -> Pages {
    let mut pages = Pages::new(vec![0; 368]);
    for axis in 0..3 {
        pages.put(0x60 + 4 * axis, &150f32.to_le_bytes());
    }
    pages.put_u32(0x140, 4040);
    pages.put_u64(0x120, root);
    pages
}

/// A number that a field may be spoilt with.
fn garbage(rng: &mut Rng, old: u64, length: usize) -> u64 {
    match rng.below(12) {
        0 => 0,
        1 => 1,
        2 => u64::MAX,
        3 => rng.u64(),
        4 => rng.u32() as u64,
        5 => old ^ 1 << rng.below(64),
        6 => old ^ 1 << rng.below(32),
        7 => SYSTEM + rng.below(length + 64) as u64,
        8 => rng.pick(&[0x4FFF_FFFF, 0x1000_0000, 0x7000_0000, 0x1_5000_0000, 0xD000_0000, 0x5000_0000, 0x6000_0000]),
        9 => SYSTEM + length as u64 - rng.below(length.min(400) + 1) as u64,
        10 => old.wrapping_add(rng.below(33) as u64).wrapping_sub(16),
        _ => old.wrapping_add(rng.below(3) as u64).wrapping_sub(1),
    }
}

/// Places in the system section that hold a field which reading looks at, with its width.
fn fields(pages: &Pages) -> Vec<(usize, usize)> {
    let mut out: Vec<(usize, usize)> = ADDRESSES.iter().map(|&at| (at, 8)).collect();
    out.extend(
        [0, 0x10, 0x60, 0x64, 0x68, 0x90, 0x94, 0x98, 0x138, 0x13C, 0x140, 0x148, 0x14C, 0x150, 0x160]
            .map(|at| (at, 4)),
    );
    for (at, _) in LISTS {
        let Some(list) = pages.offset(at) else { continue };
        out.extend([(list + 8, 4), (list + 0x10, 8), (list + 0x20, 4)]);
        if let Some(parts) = (list + 0x20 <= pages.system.len()).then(|| pages.offset(list + 0x10)).flatten() {
            out.extend([(parts, 8), (parts + 8, 4)]);
            if at == 0x118 && parts + 16 <= pages.system.len() {
                if let Some(poly) = pages.offset(parts) {
                    out.extend([(poly + 2, 2), (poly + 4, 2), (poly + 0x2C, 4)]);
                }
            }
        }
    }
    if let Some(root) = pages.offset(0x120) {
        out.extend((0..3).flat_map(|i| [(root + 4 * i, 4), (root + 16 + 4 * i, 4)]));
        out.extend((0..4).map(|i| (root + 0x34 + 8 * i, 8)));
        out.push((root + 0x2C, 8));
        if let Some(data) = (root + 0x34 <= pages.system.len()).then(|| pages.offset(root + 0x2C)).flatten() {
            out.extend([(data + 0x10, 8), (data + 0x1A, 2)]);
        }
    }
    out
}

/// The Rust's pages of a random cell with nothing to a few things damaged.
pub fn damaged(rng: &mut Rng) -> Pages {
    let cell = cells::valid(rng);
    damaged_of(rng, &cell)
}

/// The same of a small cell with one sector.
pub fn damaged_vehicle(rng: &mut Rng) -> Pages {
    let cell = cells::small_vehicle(rng);
    damaged_of(rng, &cell)
}

fn damaged_of(rng: &mut Rng, cell: &Ynv) -> Pages {
    let mut pages = Pages::written(cell);
    if rng.once_in(3) {
        // Part of the addresses moved to a graphics section with the same bytes.
        pages.graphics = pages.system.clone();
        for at in ADDRESSES {
            if pages.u64(at) != 0 && rng.once_in(2) {
                pages.put_u64(at, pages.u64(at) + 0x1000_0000);
            }
        }
    }
    for _ in 0..rng.pick(&[0, 1, 1, 1, 2, 4]) {
        let length = pages.system.len();
        match rng.below(10) {
            0 => {
                let at = rng.below(length);
                pages.system[at] ^= 1 << rng.below(8);
            }
            1 => pages.system.truncate(if rng.once_in(2) {
                rng.below(length)
            } else {
                length - rng.below(length.min(97))
            }),
            2 => pages.graphics.truncate(rng.below(pages.graphics.len() + 1)),
            3 => pages.system.extend([0x5A; 40]),
            _ => {
                let (at, width) = rng.pick(&fields(&pages));
                let mut old = [0; 8];
                for (to, from) in old[..width].iter_mut().zip(pages.system.iter().skip(at)) {
                    *to = *from;
                }
                let new = if (0x60..0x6C).contains(&at) && rng.once_in(2) {
                    floats::any(rng).to_bits() as u64
                } else {
                    garbage(rng, u64::from_le_bytes(old), length)
                };
                pages.put(at, &new.to_le_bytes()[..width]);
            }
        }
        if pages.system.len() < 368 {
            break;
        }
    }
    pages
}

/// A part table over a pool of items: any sizes, empty, overlapping, repeated parts.
/// The list's address, and the items that the parts hold.
fn odd_list(rng: &mut Rng, pages: &mut Pages, pool: &[u8], item_size: usize) -> (u64, Vec<u8>) {
    let in_graphics = rng.once_in(3);
    if rng.once_in(4) {
        pages.block(&vec![0xEE; rng.below(16)]);
    }
    let base = if in_graphics { pages.graphics_block(pool) } else { pages.block(pool) };
    let items = pool.len() / item_size;
    let (mut table, mut held) = (Vec::new(), Vec::new());
    let part_count = rng.below(6);
    for _ in 0..part_count {
        let first = rng.below(items + 1);
        let count = if rng.once_in(4) { 0 } else { rng.below(items - first + 1) };
        let mut address = base + (first * item_size) as u64;
        let mut claimed = count as u32;
        if count == 0 && rng.once_in(2) {
            address = rng.u64();
        }
        if rng.once_in(60) {
            claimed = rng.pick(&[u32::MAX, 1 << 31, 1 << 20, count as u32 + 1]);
        }
        table.extend(part(address, claimed));
        held.extend_from_slice(&pool[first * item_size..(first + count) * item_size]);
    }
    let mut item_count = (held.len() / item_size) as u32;
    if rng.once_in(40) {
        item_count = rng.pick(&[item_count.wrapping_sub(1), item_count + 1, 0, u32::MAX, 1 << 20]);
    }
    let table = if rng.once_in(3) { pages.graphics_block(&table) } else { pages.block(&table) };
    let claimed_parts =
        if rng.once_in(60) { rng.pick(&[part_count as u32 + 1, u32::MAX, 1 << 28]) } else { part_count as u32 };
    let table = if part_count == 0 && rng.once_in(2) { rng.u64() } else { table };
    let list = list_header(item_count, table, claimed_parts);
    let address = if rng.once_in(4) { pages.graphics_block(&list) } else { pages.block(&list) };
    (address, held)
}

fn random_bytes(rng: &mut Rng, count: usize) -> Vec<u8> {
    (0..count).map(|_| rng.u32() as u8).collect()
}

/// Pages built list by list, their parts as odd as they come.
pub fn odd_lists(rng: &mut Rng) -> Pages {
    let mut pages = header(0);
    let root = random_tree(rng, &mut pages, 3);
    pages.put_u64(0x120, root);
    let count = 1 + rng.below(30);
    let pool = random_bytes(rng, 6 * count);
    let (vertices, held) = odd_list(rng, &mut pages, &pool, 6);
    let vertex_count = (held.len() / 6).max(1);

    let count = rng.below(60);
    let stray = rng.once_in(8);
    let index = |rng: &mut Rng| {
        let past = if stray && rng.once_in(8) { 9 } else { 0 };
        rng.below(vertex_count + past) as u16
    };
    let pool: Vec<u8> = (0..count).flat_map(|_| index(rng).to_le_bytes()).collect();
    let (indices, held) = odd_list(rng, &mut pages, &pool, 2);
    let index_count = held.len() / 2;
    let count = rng.below(60) + 10;
    let pool = random_bytes(rng, 8 * count);
    let (edges, held) = odd_list(rng, &mut pages, &pool, 8);
    let run_limit = index_count.min(held.len() / 8);

    let link_count = rng.below(20);
    let mut pool = Vec::new();
    for _ in 0..rng.below(8) {
        let mut poly = random_bytes(rng, 48);
        let start = rng.below(run_limit + 1);
        let past = rng.once_in(20) as usize;
        let count = rng.below((run_limit - start).min(9) + 1) + past;
        poly[2..4].copy_from_slice(&((count as u16) << 5 | rng.below(32) as u16).to_le_bytes());
        poly[4..6].copy_from_slice(&(start as u16).to_le_bytes());
        let (first, links) = (rng.below(link_count + 2), rng.below(5));
        let word = (first << 15 | links << 12 | rng.below(4096)) as u32;
        poly[0x2C..].copy_from_slice(&word.to_le_bytes());
        pool.extend(poly);
    }
    let (polygons, _) = odd_list(rng, &mut pages, &pool, 48);
    for (at, address) in [(0x70, vertices), (0x80, indices), (0x88, edges), (0x118, polygons)] {
        pages.put_u64(at, if rng.once_in(30) { 0 } else { address });
    }

    let links = random_bytes(rng, 2 * link_count);
    let links = if rng.once_in(3) { pages.graphics_block(&links) } else { pages.block(&links) };
    pages.put_u64(0x130, if rng.once_in(6) { rng.u64() } else { links });
    pages.put_u32(0x150, if rng.once_in(10) { u32::MAX } else { link_count as u32 });
    let portal_count = rng.below(3);
    let portals = random_bytes(rng, 28 * portal_count);
    let portals = pages.block(&portals);
    pages.put_u64(0x128, portals);
    pages.put_u32(0x14C, if rng.once_in(20) { rng.pick(&[3, u32::MAX, 1 << 24]) } else { portal_count as u32 });
    pages.put_u32(0x94, rng.pick(&[0, 1, 6, 31, 32, 33, u32::MAX]));
    for i in 0..32 {
        pages.put_u32(0x98 + 4 * i, rng.u32());
    }
    for at in [0, 0x10, 0x138, 0x13C, 0x140, 0x144, 0x148, 0x160] {
        pages.put_u32(at, rng.u32());
    }
    pages
}

/// Sectors with data and points, each sub mostly a later sector (so shared ones and no
/// cycle), now and then any, or none that is there. The root's address.
fn random_tree(rng: &mut Rng, pages: &mut Pages, most: usize) -> u64 {
    let count = 1 + rng.below(most);
    let start = SYSTEM + pages.system.len() as u64;
    let at = |n: usize| start + 96 * n as u64;
    pages.block(&vec![0; 96 * count]);
    for n in 0..count {
        let mut subs = [0; 4];
        for sub in &mut subs {
            *sub = match rng.below(12) {
                0..=4 if n + 1 < count => at(n + 1 + rng.below(count - n - 1)),
                5 if rng.once_in(60) => at(rng.below(count)),
                6 if rng.once_in(60) => rng.u64(),
                _ => 0,
            };
        }
        let mut data = 0;
        if rng.once_in(2) {
            let points = rng.below(4);
            let bytes = random_bytes(rng, 8 * points);
            let mut address = if rng.once_in(3) { pages.graphics_block(&bytes) } else { pages.block(&bytes) };
            if rng.once_in(60) || points == 0 && rng.once_in(2) {
                address = rng.u64();
            }
            let claimed = if rng.once_in(100) { 65535 } else { points as u16 };
            data = pages.block(&sector_data(address, claimed));
            if rng.once_in(100) {
                data = rng.u64() | 1;
            }
        }
        let offset = (at(n) - SYSTEM) as usize;
        pages.put(offset, &sector(data, subs));
    }
    start
}

/// Trees: shared and cyclic sectors, more than 4,096 of them by sharing.
pub fn trees(rng: &mut Rng) -> Pages {
    let mut pages = header(0);
    let most = rng.pick(&[1, 4, 10, 25]);
    let root = random_tree(rng, &mut pages, most);
    pages.put_u64(0x120, if rng.once_in(40) { rng.u64() } else { root });
    if rng.once_in(4) {
        // The root's box and the size: any numbers, some not finite.
        let offset = (root - SYSTEM) as usize;
        for i in [0, 1, 2, 4, 5, 6] {
            let side = if rng.once_in(3) { floats::any(rng) } else { floats::usual(rng) };
            pages.put(offset + 4 * i, &side.to_le_bytes());
        }
        let size = if rng.once_in(2) { floats::any(rng) } else { floats::usual(rng) };
        pages.put(0x60, &size.to_le_bytes());
    }
    pages
}

/// Words of tangled pages: zeros, small numbers, addresses in either section.
fn tangle(rng: &mut Rng, words: usize, lengths: (usize, usize)) -> Vec<u8> {
    let mut out = Vec::new();
    while out.len() < 4 * words {
        match rng.below(12) {
            0..=4 => out.extend([0; 4]),
            5..=7 => out.extend((rng.below(4) as u32).to_le_bytes()),
            8 => out.extend((rng.u32() & 0x0003_0023).to_le_bytes()),
            _ => out.extend(inside(rng, lengths).to_le_bytes()),
        }
    }
    out.truncate(4 * words);
    out
}

/// An address in sections of so many words.
fn inside(rng: &mut Rng, (system, graphics): (usize, usize)) -> u64 {
    if rng.once_in(4) {
        GRAPHICS + 4 * rng.below(graphics + 1) as u64
    } else {
        SYSTEM + 4 * rng.below(system) as u64
    }
}

/// Sections of such words: tables lie across each other and across the header.
pub fn tangled(rng: &mut Rng) -> Pages {
    let lengths = (92 + rng.below(120), rng.below(80));
    let mut pages = Pages { system: tangle(rng, lengths.0, lengths), graphics: tangle(rng, lengths.1, lengths) };
    for axis in 0..3 {
        let side = if rng.once_in(60) { floats::any(rng) } else { floats::usual(rng) };
        pages.put(0x60 + 4 * axis, &side.to_le_bytes());
    }
    let root = 4 * rng.below(lengths.0 - 23);
    for at in (0x2C..0x54).step_by(8) {
        let to = if rng.once_in(4) { inside(rng, lengths) } else { 0 };
        pages.put_u64(root + at, to);
    }
    for (list, _) in LISTS {
        let to = if rng.once_in(3) { inside(rng, lengths) } else { 0 };
        pages.put_u64(list, to);
    }
    if !rng.once_in(8) {
        pages.put_u32(0x14C, rng.below(4) as u32);
    }
    pages.put_u64(0x120, SYSTEM + root as u64);
    pages
}

/// A generator and its name.
pub type Shape = (&'static str, fn(&mut Rng) -> Pages);

pub const SHAPES: [Shape; 5] = [
    ("trees", trees),
    ("odd part tables", odd_lists),
    ("damaged cells", damaged),
    ("damaged small cells", damaged_vehicle),
    ("tangled tables", tangled),
];

/// Pages of any shape.
pub fn any(rng: &mut Rng) -> Pages {
    let (_, shape) = rng.pick(&SHAPES);
    shape(rng)
}

pub struct Fixed {
    pub name: &'static str,
    pub pages: Pages,
    /// Number and place of the refusal, `None` where a strip is derived.
    pub refused: Option<(u32, usize)>,
}

/// A small grid cell with something of everything.
pub fn sample() -> Ynv {
    let mut rng = Rng::new(12);
    loop {
        let mut cell = cells::valid(&mut rng);
        cell.content_flags = 1;
        cell.polys.truncate(6);
        let links = cell.polys.iter().any(|p| !p.portal_links.is_empty());
        if cell.polys.len() > 3 && links && !cell.portals.is_empty() && cell.points.len() > 4 {
            return cell;
        }
    }
}

/// The same with one sector, and not much of it.
pub fn vehicle_sample() -> Ynv {
    let mut cell = sample();
    cell.content_flags = 4;
    cell.polys.sort_by_key(|p| (p.portal_links.is_empty(), p.vertices.len()));
    cell.polys.truncate(2);
    cell.portals.truncate(1);
    cell.points.truncate(2);
    cell
}

/// A chain of sectors, each the sub 0 of the one before.
pub fn chain(sectors: usize) -> Pages {
    let mut pages = header(SYSTEM + 368);
    for n in 0..sectors {
        let next = if n + 1 < sectors { SYSTEM + 368 + 96 * (n as u64 + 1) } else { 0 };
        pages.block(&sector(0, [next, 0, 0, 0]));
    }
    pages
}

/// Each of `subs` is a list of sub 0, 1 and so on by sector number; sector 0 is the root.
fn shared(subs: &[&[usize]]) -> Pages {
    let at = |n: usize| SYSTEM + 368 + 96 * n as u64;
    let mut pages = header(at(0));
    for of in subs {
        let mut addresses = [0; 4];
        for (to, &n) in addresses.iter_mut().zip(*of) {
            *to = at(n);
        }
        pages.block(&sector(0, addresses));
    }
    pages
}

/// A root without data, and nothing else.
fn bare() -> Pages {
    chain(1)
}

/// Bare pages with one list (1-4) whose parts are given; items lie at the end.
fn one_list(place: usize, item_count: u32, parts: &[Vec<u8>]) -> Pages {
    let mut pages = bare();
    let table = pages.block(&parts.concat());
    let list = pages.block(&list_header(item_count, table, parts.len() as u32));
    pages.put_u64(LISTS[place - 1].0, list);
    pages
}

/// Indices whose parts add up to 2^33 + 36, claimed as 36: a sum cut to 32 bits agrees.
/// The part table is long enough to hold a part's items.
fn huge_sum() -> Pages {
    let mut parts = vec![part(SYSTEM, 262_144); 32_768];
    parts.push(part(SYSTEM, 36));
    one_list(2, 36, &parts)
}

/// A polygon record at the end of the system section, repeated by 1,000 parts.
fn repeated_polygon() -> Pages {
    let at = SYSTEM + 368 + 96;
    let mut pages = bare();
    pages.block(&[0; 48]);
    let table = pages.block(&part(at, 1).repeat(1000));
    let list = pages.block(&list_header(1000, table, 1000));
    pages.put_u64(0x118, list);
    pages
}

/// Pages for each refusal of reading, and for what is close to it.
pub fn fixed() -> Vec<Fixed> {
    fixed_of(&sample())
}

/// The same from a cell with a link, a portal and two polygons.
pub fn fixed_of(cell: &Ynv) -> Vec<Fixed> {
    let written = Pages::written(cell);
    let at = |field: usize| written.offset(field).unwrap();
    let root = at(0x120);
    let with = |edits: &[(usize, u64, usize)]| {
        let mut pages = written.clone();
        for &(at, value, width) in edits {
            pages.put(at, &value.to_le_bytes()[..width]);
        }
        pages
    };
    let (nan, infinity) = (f32::NAN.to_bits() as u64, f32::INFINITY.to_bits() as u64);
    let mut out = Vec::new();
    let mut add = |name, pages, refused| out.push(Fixed { name, pages, refused });

    add("as written", written.clone(), None);
    add("with a tail of zeros", Pages::new([&written.system[..], &[0; 4096]].concat()), None);
    add("30: no bytes", Pages::default(), Some((30, 0)));
    add("30: 367 bytes", Pages::new(written.system[..367].to_vec()), Some((30, 0)));
    add("31: root 0, box infinite", with(&[(0x120, 0, 8), (0x60, infinity, 4)]), Some((31, 0)));
    add("32: root at the end less 95", with(&[(0x120, SYSTEM + written.system.len() as u64 - 95, 8)]), Some((32, 0)));
    add("32: root in no section", with(&[(0x120, 0x4FFF_FFFF, 8)]), Some((32, 0)));
    for field in [0x60, 0x64, 0x68, root, root + 4, root + 8, root + 16, root + 20, root + 24] {
        add("40: NaN", with(&[(field, nan, 4)]), Some((40, 0)));
        add("40: infinite", with(&[(field, infinity, 4)]), Some((40, 0)));
        add("40 before 34", with(&[(field, nan, 4), (root + 0x2C, 1, 8)]), Some((40, 0)));
    }
    add("34: data", with(&[(root + 0x2C, 1, 8)]), Some((34, 0)));
    add("33: a sector that is its own sub 3", with(&[(root + 0x4C, SYSTEM + root as u64, 8)]), Some((33, 0)));
    add(
        "32: sub 3 bad, sub 2 a cycle",
        with(&[(root + 0x4C, 1, 8), (root + 0x44, SYSTEM + root as u64, 8)]),
        Some((32, 0)),
    );
    add(
        "33: sub 3 a cycle, sub 2 bad",
        with(&[(root + 0x44, 1, 8), (root + 0x4C, SYSTEM + root as u64, 8)]),
        Some((33, 0)),
    );
    add("33: 4,096 sectors", chain(4096), None);
    add("33: a 4,097th sector", chain(4097), Some((33, 0)));
    // Sector 1's tree has 1,365 sectors, each reached by one path.
    let four: [&[usize]; 6] = [&[2; 4], &[3; 4], &[4; 4], &[5; 4], &[6; 4], &[]];
    let under = |root| shared(&[&[root], &four[..]].concat());
    add("4,096 sectors by sharing", under(&[1, 1, 1]), None);
    add("33: a 4,097th sector by sharing", under(&[1, 1, 1, 6]), Some((33, 0)));
    add("33: a 4,097th sector by sharing, in sub 0", under(&[6, 1, 1, 1]), Some((33, 0)));

    let lists: Vec<usize> = LISTS.iter().map(|&(field, _)| at(field)).collect();
    for (n, &list) in lists.iter().enumerate() {
        let place = n + 1;
        let parts = written.offset(list + 0x10).unwrap();
        let count = written.u32(list + 8) as u64;
        add("35: list header", with(&[(LISTS[n].0, 0x1000_0000, 8)]), Some((35, place)));
        add("35: part table", with(&[(list + 0x20, u32::MAX as u64, 4)]), Some((35, place)));
        add("35: part", with(&[(parts, 1, 8)]), Some((35, place)));
        add("35: part of 2^32 - 1 items", with(&[(parts + 8, u32::MAX as u64, 4)]), Some((35, place)));
        add("36: one item more", with(&[(list + 8, count + 1, 4)]), Some((36, place)));
        add("36: 2^32 - 1 items", with(&[(list + 8, u32::MAX as u64, 4)]), Some((36, place)));
        add("36: no part", with(&[(list + 0x20, 0, 4)]), Some((36, place)));
        add("35 behind a count that is wrong", with(&[(list + 8, 0, 4), (parts, 1, 8)]), Some((35, place)));
        add("an empty list, no parts", one_list(place, 0, &[]), None);
        add("parts of count 0 anywhere", one_list(place, 0, &[part(1, 0), part(u64::MAX, 0)]), None);
    }
    add("36: parts that add up to 2^33 + 36", huge_sum(), Some((36, 2)));
    add("a polygon repeated 1,000 times", repeated_polygon(), None);
    add("37: run past the indices and edges", with(&[(0x80, 0, 8)]), Some((37, 0)));
    add("37: run past the edges", with(&[(0x88, 0, 8)]), Some((37, 0)));
    add("38: no vertices", with(&[(0x70, 0, 8)]), Some((38, 0)));
    let polys = written.offset(written.offset(0x118).unwrap() + 0x10).unwrap();
    let polys = written.offset(polys).unwrap();
    add("37 before 38 in a polygon", with(&[(0x70, 0, 8), (polys + 2, 0xFFE0, 2)]), Some((37, 0)));
    add("37: polygon 1", with(&[(polys + 48 + 4, 65535, 2)]), Some((37, 1)));
    add("38 of polygon 0 before 37 of polygon 1", with(&[(0x70, 0, 8), (polys + 48 + 4, 65535, 2)]), Some((38, 0)));
    add("39: 2^32 - 1 portals", with(&[(0x14C, u32::MAX as u64, 4)]), Some((39, 0)));
    add("39: address 0", with(&[(0x128, 0, 8)]), Some((39, 0)));
    add("no portals, any address", with(&[(0x14C, 0, 4), (0x128, 1, 8)]), None);
    add("links not good", with(&[(0x130, 1, 8)]), None);
    add("links at address 0", with(&[(0x130, 0, 8)]), None);
    add("2^32 - 1 links", with(&[(0x150, u32::MAX as u64, 4)]), None);
    add(
        "counts that are not read",
        with(&[(0x90, u32::MAX as u64, 4), (0x138, u32::MAX as u64, 8), (0x148, u32::MAX as u64, 4)]),
        None,
    );
    add("no areas", with(&[(0x94, 0, 4)]), None);
    add("2^32 - 1 areas", with(&[(0x94, u32::MAX as u64, 4)]), None);
    let far = cells::empty(4, 1, vec3(3e38, 3e38, 0.0), vec3(3.2e38, 3.2e38, 0.0));
    add("a box near the greatest float", Pages::written(&far), None);
    out
}
