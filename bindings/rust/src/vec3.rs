//! Three floats, with the names of rage-formats' `math::Vec3`.

use std::ops::{Add, Mul, Neg, Sub};

/// A position or an extent.
///
/// `==` compares as floats do: −0 equals 0, and a NaN equals nothing. [`Vec3::to_bits`] tells them apart.
///
/// ```
/// use ynv::Vec3;
/// let (minus, plus) = (Vec3::new(-0.0, 1.0, 2.0), Vec3::new(0.0, 1.0, 2.0));
/// assert_eq!(minus, plus);
/// assert_ne!(minus.to_bits(), plus.to_bits());
/// ```
#[derive(Debug, Clone, Copy, Default, PartialEq)]
pub struct Vec3 {
    /// East.
    pub x: f32,
    /// North.
    pub y: f32,
    /// Up.
    pub z: f32,
}

impl Vec3 {
    /// The origin.
    pub const ZERO: Vec3 = Vec3::new(0.0, 0.0, 0.0);
    /// One step along x.
    pub const X: Vec3 = Vec3::new(1.0, 0.0, 0.0);
    /// One step along y.
    pub const Y: Vec3 = Vec3::new(0.0, 1.0, 0.0);
    /// One step along z.
    pub const Z: Vec3 = Vec3::new(0.0, 0.0, 1.0);

    /// The vector of these coordinates.
    #[must_use]
    pub const fn new(x: f32, y: f32, z: f32) -> Self {
        Self { x, y, z }
    }

    /// The vector whose coordinates have these bits.
    #[must_use]
    pub const fn from_bits([x, y, z]: [u32; 3]) -> Self {
        Self::new(f32::from_bits(x), f32::from_bits(y), f32::from_bits(z))
    }

    /// The bits of its coordinates, a NaN's payload and the sign of a zero among them.
    #[must_use]
    pub const fn to_bits(self) -> [u32; 3] {
        [self.x.to_bits(), self.y.to_bits(), self.z.to_bits()]
    }

    /// Whether no coordinate is infinite or a NaN.
    #[must_use]
    pub fn is_finite(self) -> bool {
        self.x.is_finite() && self.y.is_finite() && self.z.is_finite()
    }

    /// The scalar product.
    #[must_use]
    pub fn dot(self, other: Vec3) -> f32 {
        self.x * other.x + self.y * other.y + self.z * other.z
    }

    /// The vector product.
    #[must_use]
    pub fn cross(self, other: Vec3) -> Vec3 {
        let (a, b) = (self, other);
        Vec3::new(a.y * b.z - a.z * b.y, a.z * b.x - a.x * b.z, a.x * b.y - a.y * b.x)
    }

    /// Its length.
    #[must_use]
    pub fn length(self) -> f32 {
        self.dot(self).sqrt()
    }

    /// A vector of length 1 in its direction; itself where it is shorter than 10^-8.
    #[must_use]
    pub fn normalize(self) -> Vec3 {
        match self.length() {
            length if length < 1e-8 => self,
            length => self * (1.0 / length),
        }
    }

    /// The lesser of each coordinate; a number wins over a NaN.
    #[must_use]
    pub fn min(self, other: Vec3) -> Vec3 {
        self.with(other, f32::min)
    }

    /// The greater of each coordinate; a number wins over a NaN.
    #[must_use]
    pub fn max(self, other: Vec3) -> Vec3 {
        self.with(other, f32::max)
    }

    /// The magnitude of each coordinate.
    #[must_use]
    pub fn abs(self) -> Vec3 {
        Vec3::new(self.x.abs(), self.y.abs(), self.z.abs())
    }

    fn with(self, other: Vec3, of: impl Fn(f32, f32) -> f32) -> Vec3 {
        Vec3::new(of(self.x, other.x), of(self.y, other.y), of(self.z, other.z))
    }
}

impl Add for Vec3 {
    type Output = Vec3;

    fn add(self, other: Vec3) -> Vec3 {
        self.with(other, |a, b| a + b)
    }
}

impl Sub for Vec3 {
    type Output = Vec3;

    fn sub(self, other: Vec3) -> Vec3 {
        self.with(other, |a, b| a - b)
    }
}

impl Mul<f32> for Vec3 {
    type Output = Vec3;

    fn mul(self, factor: f32) -> Vec3 {
        Vec3::new(self.x * factor, self.y * factor, self.z * factor)
    }
}

impl Neg for Vec3 {
    type Output = Vec3;

    fn neg(self) -> Vec3 {
        Vec3::new(-self.x, -self.y, -self.z)
    }
}
