//! Tag 4, areas: in own id, then the ids as edges name them; out the ids taken before a
//! 33rd area (all of them if there is none), the table's count and its 32 entries.

use cases::Rng;

use super::Vectors;
use crate::reference;

fn areas_of(out: &mut Vectors, own: u32, ids: &[u32]) {
    let (taken, table) = reference::areas(own, ids);
    let input = [&[own], ids].concat();
    let output = [&[taken as u32, table.count], &table.ids[..]].concat();
    out.add(4, &input, &output);
}

pub fn areas(out: &mut Vectors) {
    // P7, P8, and ids whose neighbours wrap or are 16383.
    let own =
        [0, 16384, 7, 10000, 16283, 16382, 16383, 16483, 1, 99, 100, u32::MAX, u32::MAX - 99, u32::MAX - 100, 1 << 31];
    for id in own {
        areas_of(out, id, &[]);
    }
    let up_to = |n: u32| (1000..1000 + n).collect::<Vec<u32>>();
    for n in [1, 2, 25, 26, 27, 28] {
        areas_of(out, 7, &up_to(n));
    }
    for n in [26, 27, 28] {
        areas_of(out, 16384, &up_to(n));
    }
    areas_of(out, 7, &[7, 16383, 6, 8, 107, 0xFFFF_FFA3, 7, 7]);
    areas_of(out, 7, &[up_to(26), vec![7, 1025, 16383, 1000], vec![9999, 7]].concat());
    areas_of(out, 7, &[9; 12]);
    let mut rng = Rng::new(104);
    for _ in 0..86 {
        let id = if rng.once_in(2) { rng.pick(&own) } else { rng.u32() };
        let pool = rng.pick(&[3, 20, 26, 60]);
        let length = rng.pick(&[3, 6, 12, 35]);
        let ids: Vec<u32> = (0..length).map(|_| id.wrapping_add(rng.below(pool) as u32).wrapping_sub(2)).collect();
        areas_of(out, id, &ids);
    }
}
