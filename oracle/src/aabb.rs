//! Boxes by the rules of document 01, 'Arithmetic under the geometry'.

use crate::math::Vec3;

#[derive(Clone, Copy, Debug, PartialEq)]
pub struct Aabb {
    min: Vec3,
    max: Vec3,
}

#[derive(Clone, Copy, Debug, PartialEq, Eq)]
pub struct AabbError;

impl Aabb {
    /// A box needs finite corners, minimum at most maximum.
    pub fn new(min: Vec3, max: Vec3) -> Result<Self, AabbError> {
        let ordered = min.x <= max.x && min.y <= max.y && min.z <= max.z;
        if min.is_finite() && max.is_finite() && ordered {
            Ok(Self { min, max })
        } else {
            Err(AabbError)
        }
    }

    /// A box as it stands in a lent area, valid or not.
    pub fn unchecked(b: &[f64]) -> Self {
        Self {
            min: Vec3::new(b[0], b[1], b[2]),
            max: Vec3::new(b[3], b[4], b[5]),
        }
    }

    pub fn to_array(self) -> [f64; 6] {
        let (min, max) = (self.min, self.max);
        [min.x, min.y, min.z, max.x, max.y, max.z]
    }

    pub fn min(self) -> Vec3 {
        self.min
    }

    pub fn max(self) -> Vec3 {
        self.max
    }

    pub fn center(self) -> Vec3 {
        self.min * 0.5 + self.max * 0.5
    }

    pub fn union(self, other: &Self) -> Self {
        Self {
            min: self.min.min(other.min),
            max: self.max.max(other.max),
        }
    }

    /// Closed intervals, tested by 'at most' alone, so a NaN side never touches.
    pub fn intersects(self, other: &Self) -> bool {
        self.min.x <= other.max.x
            && other.min.x <= self.max.x
            && self.min.y <= other.max.y
            && other.min.y <= self.max.y
            && self.min.z <= other.max.z
            && other.min.z <= self.max.z
    }
}
