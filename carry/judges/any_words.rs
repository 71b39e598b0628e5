//! All the judges on any words: nothing panics, and what document 02 says of two of them
//! together holds. An integration test of the crate `judges`, written from document 02
//! alone.

use judges::compare_seam::compare_seam;
use judges::layout::bytes;
use judges::mentions::poly_mentioning;
use judges::numbered::{
    as_kind_2, compare_seam_either, convert_strip, poly_mentioning_either, reachable_either, scan_either, seams_either,
};
use judges::pushed::pushed;
use judges::reachable::reachable;
use judges::seams::{seams, touch};
use judges::seams9::seams9;

/// A plain generator of numbers (xorshift).
struct Numbers(u64);

impl Numbers {
    fn below(&mut self, n: u64) -> u64 {
        self.0 ^= self.0 << 13;
        self.0 ^= self.0 >> 7;
        self.0 ^= self.0 << 17;
        (self.0 >> 11) % n
    }

    fn of(&mut self, from: &[u32]) -> u32 {
        from[self.below(from.len() as u64) as usize]
    }

    /// A strip of kind 2 or 6, well formed and rightly numbered.
    fn strip(&mut self, area: u32, kind: u32) -> Vec<u32> {
        let mut w = vec![0x1000_0000, self.below(8) as u32, area];
        w.resize(14, 0);
        w[11] = 100.0f32.to_bits();
        w[12] = 100.0f32.to_bits();
        for number in 0..self.below(6) as u32 {
            let (vertices, edges, links) = (self.below(4) as u32, self.below(5) as u32, self.below(3) as u32);
            w.push(kind << 28 | vertices | edges << 12 | links << 24);
            if kind == 6 {
                w.push(number);
            }
            w.extend([1, 2, 3]);
            for _ in 0..links {
                w.push(4);
            }
            for _ in 0..3 * vertices {
                w.push((self.below(200) as f32 - 50.0).to_bits());
            }
            for _ in 0..2 * edges {
                let half_area = self.of(&[5, 6, 5, 6, 105, 99, 100, 16383]);
                let poly = self.of(&[0, 1, 2, 3, 4, 16382, 16383, 16384, 16385, 32767]);
                w.extend([half_area, poly, 0]);
            }
        }
        for _ in 0..self.below(3) {
            let polys = self.below(5) as u32 + 65536 * self.below(5) as u32;
            w.extend([0x3000_0000, 0, 0, 0, 0, 0, 0, 0, polys, area + 65536 * self.of(&[5, 6]), 0]);
        }
        for _ in 0..self.below(3) {
            w.extend([0x4000_0000, 0, 0, 0]);
        }
        w.push(0x5000_0000);
        w
    }

    /// Now and then spoilt: a word changed, the strip cut, or words added.
    fn spoilt(&mut self, mut w: Vec<u32>) -> Vec<u32> {
        let at = self.below(w.len() as u64) as usize;
        match self.below(6) {
            0 => w[at] ^= 1 << self.below(32),
            1 => w[at] = self.of(&[0, 1, u32::MAX, 0x1000_0000, 0x2000_0000, 0x5000_0000, 0x6000_0000, 0x7FC0_0000]),
            2 => w.truncate(at),
            3 => w.insert(at, 0x6000_0000),
            _ => (),
        }
        w
    }
}

/// How often strips were accepted: the test must not be one of refusals only.
#[derive(Debug, Default)]
struct Seen {
    accepted: u32,
    refused_3: u32,
    refused_44: u32,
    mentioned: u32,
    met: u32,
    converted: u32,
}

#[test]
fn any_words() {
    let mut n = Numbers(88172645463325252);
    let mut seen = Seen::default();
    for _ in 0..100_000 {
        let (kind_a, kind_b) = (n.of(&[2, 6]), n.of(&[2, 6]));
        let (a, b) = (n.strip(5, kind_a), n.strip(6, kind_b));
        let (a, b) = (n.spoilt(a), n.spoilt(b));
        let area = n.of(&[5, 6, 105, 99, 100, 16383, 7]);
        let start = n.below(6);
        let mut marks = vec![7; n.below(8) as usize];

        // None panics, whatever the words.
        let _ = (seams(&a), seams9(&a), poly_mentioning(&a, area), compare_seam(&a, &b), bytes(&a));
        let _ = reachable(&a, start, &mut marks.clone());

        let scanned = scan_either(&a);
        match &scanned {
            Ok(_) => seen.accepted += 1,
            Err((3, place)) => {
                assert!(*place <= a.len() as u64);
                seen.refused_3 += 1;
            }
            Err((number, place)) => {
                assert_eq!((*number, a[*place as usize] >> 28), (44, 6));
                seen.refused_44 += 1;
            }
        }

        // "44 ... directly after 3 in every call that checks 3, the seam count too"
        let refusal = scanned.as_ref().err().copied();
        assert_eq!(seams_either(&a).err(), refusal);
        assert_eq!(bytes(&a).err(), refusal);
        let before = marks.clone();
        let reached = reachable_either(&a, start, &mut marks);
        match reached {
            Ok(count) => assert_eq!(count, marks.iter().filter(|&&m| m == 1).count() as u64),
            Err(_) => assert_eq!(marks, before),
        }

        // No. 10: "equals that of a search through all of it" where all is well.
        let mentions = poly_mentioning_either(&a, area);
        if let Ok((cell, kind)) = &scanned {
            let mentioning =
                |p: &rage::ynv::NavPoly| p.edges.iter().any(|e| e.a.area_id == area || e.b.area_id == area);
            let full = cell.polys.iter().position(mentioning).map(|i| i as u64);
            assert_eq!(mentions, Ok(full));
            seen.mentioned += full.is_some() as u32;
            let _ = pushed(cell);

            // No. 9: "counts one less for each half counted until now whose cut poly is
            // 16383"
            let in_2 = as_kind_2(&a).unwrap();
            let halves = cell.polys.iter().flat_map(|p| &p.edges).flat_map(|e| [e.a, e.b]);
            let less = halves.filter(|h| touch(cell.area_id, h.area_id) && h.poly & 16383 == 16383).count();
            assert_eq!(seams(&in_2).unwrap() - seams9(&in_2).unwrap(), less as u64);

            // No. 12: "Going there and back, room given, returns the first strip"
            let wanted = *kind != 6;
            let (mut there, mut back) = (vec![0; 1000], vec![0; 1000]);
            let length = convert_strip(&a, wanted, &mut there).unwrap() as usize;
            let polygons = cell.polys.len();
            assert_eq!(length, if wanted { a.len() + polygons } else { a.len() - polygons });
            let returned = convert_strip(&there[..length], !wanted, &mut back).unwrap() as usize;
            assert_eq!(back[..returned], a[..]);
            let same = scan_either(&there[..length]).unwrap().0;
            assert_eq!(strips::encode(&same), strips::encode(cell)); // as words: a NaN is itself
            seen.converted += (polygons > 0) as u32;
        } else {
            assert!(mentions.is_err() || matches!(mentions, Ok(Some(_))));
            assert_eq!(convert_strip(&a, true, &mut [0; 1000]).err(), refusal);
        }
        // Before and after No. 11 nothing differs where no kind 6 is.
        if a.iter().all(|w| w >> 28 != 6) {
            assert_eq!(poly_mentioning(&a, area), mentions);
            assert_eq!(seams9(&a), seams_either(&a));
        }

        // No. 13: the checks' order, and "met and unmet make the halves that count".
        match compare_seam_either(&a, &b) {
            Err((number, place)) => {
                let in_b = scan_either(&b).err().map(|(_, place)| (46, place));
                assert_eq!(Some((number, place)), refusal.or(in_b).or(Some((47, 0))));
            }
            Ok((met, unmet, first)) => {
                let (a, b) = (scan_either(&a).unwrap().0, scan_either(&b).unwrap().0);
                assert_ne!(a.area_id, b.area_id);
                let mut count = 0;
                for p in &a.polys {
                    for e in p.edges.iter().take(p.vertices.len()) {
                        for h in [e.a, e.b] {
                            count += (h.area_id == b.area_id && h.poly & 16383 != 16383) as u64;
                        }
                    }
                }
                assert_eq!(met + unmet, count);
                assert_eq!(first.is_some(), unmet > 0);
                seen.met += (met > 0) as u32;
            }
        }
    }
    println!("{seen:?}");
    let Seen { accepted, refused_3, refused_44, mentioned, met, converted } = seen;
    assert!([accepted, refused_3, refused_44, mentioned, met, converted].iter().all(|&c| c > 50));
}
