//! Vector arithmetic that the carried files lean on, by the rules of document 01,
//! 'Arithmetic under the geometry'. The published Rust does not hold it.

use std::ops::{Add, Mul, Neg, Sub};

/// The first operand if equal, the other operand if one is NaN.
pub fn minimum(a: f64, b: f64) -> f64 {
    if a.is_nan() || b < a { b } else { a }
}

/// The first operand if equal, the other operand if one is NaN.
pub fn maximum(a: f64, b: f64) -> f64 {
    if a.is_nan() || b > a { b } else { a }
}

#[derive(Clone, Copy, Debug, PartialEq)]
pub struct Vec2 {
    pub x: f64,
    pub y: f64,
}

impl Vec2 {
    pub const fn new(x: f64, y: f64) -> Self {
        Self { x, y }
    }

    pub fn is_finite(self) -> bool {
        self.x.is_finite() && self.y.is_finite()
    }

    pub fn min_element(self) -> f64 {
        minimum(self.x, self.y)
    }
}

impl Mul for Vec2 {
    type Output = Self;

    fn mul(self, other: Self) -> Self {
        Self::new(self.x * other.x, self.y * other.y)
    }
}

#[derive(Clone, Copy, Debug, PartialEq)]
pub struct Vec3 {
    pub x: f64,
    pub y: f64,
    pub z: f64,
}

impl Vec3 {
    pub const ZERO: Self = Self::new(0.0, 0.0, 0.0);

    pub const fn new(x: f64, y: f64, z: f64) -> Self {
        Self { x, y, z }
    }

    pub const fn from_array(a: [f64; 3]) -> Self {
        Self::new(a[0], a[1], a[2])
    }

    pub const fn to_array(self) -> [f64; 3] {
        [self.x, self.y, self.z]
    }

    pub fn is_finite(self) -> bool {
        self.x.is_finite() && self.y.is_finite() && self.z.is_finite()
    }

    /// The products of x, y and z, added left to right.
    pub fn dot(self, other: Self) -> f64 {
        self.x * other.x + self.y * other.y + self.z * other.z
    }

    pub fn checked_dot(self, other: Self) -> Option<f64> {
        Some(self.dot(other)).filter(|dot| dot.is_finite())
    }

    pub fn cross(self, other: Self) -> Self {
        Self::new(
            self.y * other.z - self.z * other.y,
            self.z * other.x - self.x * other.z,
            self.x * other.y - self.y * other.x,
        )
    }

    pub fn length_squared(self) -> f64 {
        self.dot(self)
    }

    pub fn length(self) -> f64 {
        self.dot(self).sqrt()
    }

    /// Divides each component by the length; fails unless dot is finite and at least 2^-1022.
    pub fn try_normalize(self) -> Option<Self> {
        let dot = self.dot(self);
        if !dot.is_finite() || dot < f64::MIN_POSITIVE {
            return None;
        }
        let length = dot.sqrt();
        Some(Self::new(self.x / length, self.y / length, self.z / length))
    }

    pub fn abs(self) -> Self {
        Self::new(self.x.abs(), self.y.abs(), self.z.abs())
    }

    pub fn min(self, other: Self) -> Self {
        Self::new(
            minimum(self.x, other.x),
            minimum(self.y, other.y),
            minimum(self.z, other.z),
        )
    }

    pub fn max(self, other: Self) -> Self {
        Self::new(
            maximum(self.x, other.x),
            maximum(self.y, other.y),
            maximum(self.z, other.z),
        )
    }

    pub fn min_element(self) -> f64 {
        minimum(minimum(self.x, self.y), self.z)
    }

    pub fn max_element(self) -> f64 {
        maximum(maximum(self.x, self.y), self.z)
    }

    // The next three serve functions of query.rs that no cast reaches.

    pub fn checked_add(self, other: Self) -> Option<Self> {
        Some(self + other).filter(|sum| sum.is_finite())
    }

    pub fn checked_sub(self, other: Self) -> Option<Self> {
        Some(self - other).filter(|difference| difference.is_finite())
    }

    pub fn checked_mul_scalar(self, scalar: f64) -> Option<Self> {
        Some(self * scalar).filter(|product| product.is_finite())
    }
}

impl Add for Vec3 {
    type Output = Self;

    fn add(self, other: Self) -> Self {
        Self::new(self.x + other.x, self.y + other.y, self.z + other.z)
    }
}

impl Sub for Vec3 {
    type Output = Self;

    fn sub(self, other: Self) -> Self {
        Self::new(self.x - other.x, self.y - other.y, self.z - other.z)
    }
}

impl Neg for Vec3 {
    type Output = Self;

    fn neg(self) -> Self {
        Self::new(-self.x, -self.y, -self.z)
    }
}

impl Mul<f64> for Vec3 {
    type Output = Self;

    fn mul(self, scalar: f64) -> Self {
        Self::new(self.x * scalar, self.y * scalar, self.z * scalar)
    }
}

impl Mul for Vec3 {
    type Output = Self;

    fn mul(self, other: Self) -> Self {
        Self::new(self.x * other.x, self.y * other.y, self.z * other.z)
    }
}
