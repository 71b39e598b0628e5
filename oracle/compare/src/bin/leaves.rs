//! Compares the leaf functions with the Rust itself, and `check_strip` with the judge.
//! Prints cases and differences per function; exits 1 if there is any difference.

use std::process::exit;

use cases::cells::vec3;
use cases::floats::{any, axis, on_axis, ODD};
use cases::{damage, Rng};
use compare::tally::Tally;
use compare::{reference, under_test};
use rage::math::Vec3;

fn bits(v: Vec3) -> [u32; 3] {
    [v.x.to_bits(), v.y.to_bits(), v.z.to_bits()]
}

fn shorts_of(tally: &mut Tally, lo: Vec3, extent: Vec3, vertices: &[Vec3]) {
    for (v, q) in vertices.iter().zip(reference::shorts(lo, extent, vertices)) {
        for n in 0..3 {
            let (a, lo, extent) = (bits(*v)[n], bits(lo)[n], bits(extent)[n]);
            tally.compare((a, lo, extent), under_test::short(a, lo, extent), q[n] as u32);
        }
    }
}

/// Three axes at a time, from a list.
fn axes_of(list: &[(f32, f32)]) -> (Vec3, Vec3) {
    let at = |n: usize| list[n % list.len()];
    (vec3(at(0).0, at(1).0, at(2).0), vec3(at(0).1, at(1).1, at(2).1))
}

fn vertex_on(rng: &mut Rng, lo: Vec3, extent: Vec3) -> Vec3 {
    vec3(on_axis(rng, lo.x, extent.x), on_axis(rng, lo.y, extent.y), on_axis(rng, lo.z, extent.z))
}

fn odd_axes() -> Vec<(f32, f32)> {
    let odd = ODD.map(f32::from_bits);
    odd.iter().flat_map(|&lo| odd.map(|extent| (lo, extent))).collect()
}

fn short() -> u64 {
    let mut tally = Tally::new("short");
    let odd: Vec<Vec3> = ODD.map(f32::from_bits).map(|a| vec3(a, a, a)).to_vec();
    for three in odd_axes().chunks(3) {
        let (lo, extent) = axes_of(three);
        shorts_of(&mut tally, lo, extent, &odd);
    }
    // Beside every half step of a few boxes.
    for (lo, extent) in [(0f32, 1f32), (0.0, 150.0), (-6000.0, 150.0), (4.0, -2.0), (0.0, 2f32.powi(-23))] {
        let steps: Vec<u32> = (0..65536).collect();
        for some in steps.chunks(400) {
            let beside = |k: u32, off: u32| {
                let x = lo + (k as f32 + 0.5) / 65535.0 * extent;
                f32::from_bits(x.to_bits().wrapping_add(off).wrapping_sub(2))
            };
            let vertices: Vec<Vec3> = some
                .iter()
                .flat_map(|&k| {
                    [vec3(beside(k, 0), beside(k, 1), beside(k, 2)), vec3(beside(k, 3), beside(k, 4), beside(k, 5))]
                })
                .collect();
            shorts_of(&mut tally, vec3(lo, lo, lo), vec3(extent, extent, extent), &vertices);
        }
    }
    let mut rng = Rng::new(11);
    for _ in 0..60_000 {
        let (lo, extent) = axes_of(&[axis(&mut rng), axis(&mut rng), axis(&mut rng)]);
        let vertices: Vec<Vec3> = (0..12).map(|_| vertex_on(&mut rng, lo, extent)).collect();
        shorts_of(&mut tally, lo, extent, &vertices);
    }
    tally.done()
}

fn backs_of(tally: &mut Tally, lo: Vec3, extent: Vec3, shorts: &[[u16; 3]]) {
    for (q, v) in shorts.iter().zip(reference::backs(lo, extent, shorts)) {
        for (n, x) in [v.x, v.y, v.z].into_iter().enumerate() {
            let (q, lo, extent) = (q[n] as u32, bits(lo)[n], bits(extent)[n]);
            tally.compare((q, lo, extent), under_test::back(q, lo, extent), reference::one_nan(x));
        }
    }
}

fn back() -> u64 {
    let mut tally = Tally::new("back");
    let ends: Vec<[u16; 3]> = [0, 1, 105, 257, 32767, 32768, 65534, 65535].map(|q| [q; 3]).to_vec();
    for three in odd_axes().chunks(3) {
        let (lo, extent) = axes_of(three);
        backs_of(&mut tally, lo, extent, &ends);
    }
    let mut rng = Rng::new(12);
    let all: Vec<[u16; 3]> = (0..=65535).map(|q| [q; 3]).collect();
    let usual = [(0.0, 1.0), (0.0, 150.0), (-6000.0, 150.0), (-1.5, 0.375), (3e38, 3e38), (-16384.0, 4096.0)];
    for n in 0..8 {
        let three = [usual[n % 6], axis(&mut rng), axis(&mut rng)];
        let (lo, extent) = axes_of(&three);
        for half in all.chunks(32768) {
            backs_of(&mut tally, lo, extent, half);
        }
    }
    for _ in 0..20_000 {
        let (lo, extent) = axes_of(&[axis(&mut rng), axis(&mut rng), axis(&mut rng)]);
        let shorts: Vec<[u16; 3]> = (0..20).map(|_| [rng.u32() as u16, rng.u32() as u16, rng.u32() as u16]).collect();
        backs_of(&mut tally, lo, extent, &shorts);
    }
    tally.done()
}

fn quarter() -> u64 {
    let mut tally = Tally::new("quarter");
    let mut floats: Vec<f32> = ODD.map(f32::from_bits).to_vec();
    for eighths in -66_000..66_000 {
        let x = eighths as f32 * 0.125;
        floats.extend([x, f32::from_bits(x.to_bits().wrapping_add(1)), f32::from_bits(x.to_bits().wrapping_sub(1))]);
    }
    let mut rng = Rng::new(13);
    floats.extend((0..600_000).map(|_| any(&mut rng)));
    let compare = |tally: &mut Tally, x: f32, (floor, ceil): (u16, u16)| {
        let x = x.to_bits();
        tally.compare((x, "floor"), under_test::quarter(x, false), floor as u32);
        tally.compare((x, "ceil"), under_test::quarter(x, true), ceil as u32);
    };
    let threes: Vec<[f32; 3]> = floats.chunks_exact(3).map(|c| [c[0], c[1], c[2]]).collect();
    for three in &threes {
        for (x, sides) in three.iter().zip(reference::root_quarters(*three)) {
            compare(&mut tally, *x, sides);
        }
    }
    // Polygons' boxes; an axis of NaN only keeps the start values.
    for some in threes.chunks(300) {
        for (three, sides) in some.iter().zip(reference::polygon_quarters(some)) {
            for (x, sides) in three.iter().zip(sides) {
                if x.is_nan() {
                    let (min, max) = (f32::MAX.to_bits(), f32::MIN.to_bits());
                    tally.compare((min, "floor"), under_test::quarter(min, false), sides.0 as u32);
                    tally.compare((max, "ceil"), under_test::quarter(max, true), sides.1 as u32);
                } else {
                    compare(&mut tally, *x, sides);
                }
            }
        }
    }
    tally.done()
}

/// Area ids whose neighbours wrap, meet 16383 or each other.
#[rustfmt::skip]
const OWN: [u32; 20] = [
    0, 1, 6, 7, 8, 99, 100, 101, 107, 10000, 16283, 16382, 16383, 16384, 16483,
    1 << 31, u32::MAX, u32::MAX - 1, u32::MAX - 99, u32::MAX - 100,
];

fn areas() -> u64 {
    let mut tally = Tally::new("areas");
    let mut rng = Rng::new(14);
    for n in 0..1_000_000 {
        let own = if n < OWN.len() {
            OWN[n]
        } else if rng.once_in(2) {
            rng.pick(&OWN)
        } else {
            rng.u32()
        };
        let length = match rng.below(20) {
            0 => rng.below(300),
            1..=4 => 20 + rng.below(40),
            _ => rng.below(12),
        };
        let pool = rng.pick(&[5, 24, 26, 27, 40, 1000]);
        let from = rng.pick(&[1000, 0, own.wrapping_sub(10), 16370, u32::MAX - 20]);
        let ids: Vec<u32> = (0..length)
            .map(|i| match rng.below(8) {
                0 => rng.pick(&OWN),
                1..=3 => from.wrapping_add(i as u32 % pool),
                _ => from.wrapping_add(rng.below(pool as usize) as u32),
            })
            .collect();
        let ours = under_test::areas(own, &ids);
        tally.compare((own, &ids), ours, reference::areas(own, &ids));
    }
    tally.done()
}

fn place() -> u64 {
    let mut tally = Tally::new("place");
    let mut one =
        |end: u32, size: u32| tally.compare((end, size), under_test::place(end, size), reference::place(end, size));
    let sizes = [0, 1, 2, 15, 16, 17, 32, 48, 96, 112, 368, 8192, 16368, 16383, 16384];
    for end in 0..32_800 {
        for size in sizes {
            one(end, size);
        }
    }
    let mut rng = Rng::new(15);
    for _ in 0..600_000 {
        one(rng.below(1 << 16) as u32, rng.below(16385) as u32);
    }
    for _ in 0..4_000 {
        one(rng.below(1 << 22) as u32, rng.below(16385) as u32);
    }
    for end in [1 << 28, u32::MAX - 32768, u32::MAX - 16384, u32::MAX - 16383, u32::MAX - 15, u32::MAX - 14, u32::MAX] {
        for size in sizes {
            one(end, size);
        }
    }
    tally.done()
}

fn check_strip() -> u64 {
    let mut tally = Tally::new("check_strip");
    let mut rng = Rng::new(16);
    for _ in 0..1_000_000 {
        let strip = damage::strip(&mut rng);
        let judged =
            strips::scan(&strip).map(|cell| strips::counts(&cell)).map_err(|place| strips::Refusal::new(3, place));
        tally.compare(&strip, under_test::check_strip(&strip), judged);
    }
    tally.done()
}

/// The calls over whole lists, against the leaf values.
#[cfg(feature = "lib")]
fn whole_lists() -> u64 {
    use compare::ffi;
    use std::collections::HashMap;

    let mut rng = Rng::new(17);
    let mut quantise = Tally::new("quantise_all");
    for _ in 0..2_000 {
        let (lo, extent) = axes_of(&[axis(&mut rng), axis(&mut rng), axis(&mut rng)]);
        let vertices: Vec<Vec3> = (0..3 + rng.below(200)).map(|_| vertex_on(&mut rng, lo, extent)).collect();
        let words: Vec<u32> = vertices.iter().flat_map(|v| bits(*v)).collect();
        let bounds: [u32; 6] = [bits(lo), bits(extent)].concat().try_into().unwrap();
        let mut out = vec![0; words.len()];
        let done = ffi::quantise_all(&words, &bounds, &mut out);
        let rust: Vec<u32> = reference::shorts(lo, extent, &vertices).into_iter().flatten().map(|q| q as u32).collect();
        quantise.compare((&words, bounds), (done, out), (vertices.len(), rust));
    }
    let mut number = Tally::new("number_all");
    for n in 0..2_000 {
        let count = if n < 4 { 65_536 } else { rng.below(2_000) };
        let span = if n < 4 { 65_536 } else { rng.pick(&[2, 10, 41]) };
        let triples: Vec<[u16; 3]> = (0..count).map(|_| [span; 3].map(|span| rng.below(span) as u16)).collect();
        let mut seen: HashMap<[u16; 3], u32> = HashMap::new();
        let rust: Vec<u32> = triples
            .iter()
            .map(|&t| {
                let next = seen.len() as u32;
                *seen.entry(t).or_insert(next)
            })
            .collect();
        let words: Vec<u32> = triples.iter().flat_map(|t| [t[0] as u32 + 65536 * t[1] as u32, t[2] as u32]).collect();
        let mut work = vec![0xDEAD_BEEF; ffi::number_work(count)];
        let distinct = ffi::number_all(&words, &mut work);
        number.compare(count, (distinct, &work[..count]), (seen.len(), &rust[..]));
    }
    quantise.done() + number.done()
}

#[cfg(not(feature = "lib"))]
fn whole_lists() -> u64 {
    0
}

fn main() {
    println!("{}, compared with the Rust (check_strip: with the judge)", under_test::NAME);
    let differences = short() + back() + quarter() + areas() + place() + check_strip() + whole_lists();
    if differences > 0 {
        exit(1);
    }
}
