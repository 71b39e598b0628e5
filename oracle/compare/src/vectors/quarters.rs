//! Tag 3, quarter: in float bits, out floor and ceiling of four times it, saturated to
//! 16 signed bits, each as 16 bits.

use cases::floats::{any, quarters as near, ODD};
use cases::Rng;

use super::Vectors;
use crate::reference;

fn quarter(out: &mut Vectors, x: f32) {
    let (floor, ceil) = reference::root_quarters([x, 0.0, 0.0])[0];
    out.add(3, &[x.to_bits()], &[floor as u32, ceil as u32]);
}

pub fn quarters(out: &mut Vectors) {
    // P5, P6, the ends of the range, numbers that aren't finite.
    for x in
        [-0.375, 0.375, 8192.0, -8192.0, 8191.75, 8191.5, -8191.75, -8192.25, 0.0, -0.0, 0.125, -0.125, 0.25, -0.25]
    {
        quarter(out, x);
    }
    ODD.map(f32::from_bits).into_iter().for_each(|x| quarter(out, x));
    let mut rng = Rng::new(103);
    for _ in 0..150 {
        let (x, y) = (near(&mut rng), any(&mut rng));
        quarter(out, x);
        quarter(out, y);
    }
}
