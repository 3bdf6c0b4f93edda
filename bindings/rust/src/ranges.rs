//! Heights known only within ranges.
use crate::answer::Refusal;
use crate::{calls, sys, Ray};

/// A height grid for which only a low and a high are known: lows\[r · columns + c\] and highs\[r · columns + c\] are those of
/// row r and column c, at x = c · spacing\[0\] and y = r · spacing\[1\].
#[derive(Clone, Copy, Debug, PartialEq)]
pub struct HeightRanges<'a> {
    /// The number of rows, 2 to 1,024.
    pub rows: usize,
    /// The number of columns, 2 to 1,024.
    pub columns: usize,
    /// The spacing of the columns, and of the rows; finite and above 0.
    pub spacing: [f64; 2],
    /// The lowest that each height may be, row after row: rows · columns of them.
    pub lows: &'a [f64],
    /// The highest that each height may be, likewise.
    pub highs: &'a [f64],
}

/// What a cast at a grid whose heights are known only within ranges returns.
#[derive(Clone, Copy, Debug, PartialEq, Eq)]
#[must_use]
pub enum Clearance {
    /// No grid within the ranges has a triangle whose box touches the box of the ray's segment: the height cast is a miss on
    /// every such grid.
    Clear,
    /// Some grid within the ranges has one, first in this cell. Its number is row · (columns − 1) + column. The height cast
    /// need not be a hit on any of these grids.
    Possible(u32),
    /// The cast was refused: nothing is known.
    Refused(Refusal),
}

/// Casts a ray at heights known only within ranges.
///
/// Only the cells that the ray's segment visits count; ranges elsewhere may have any values. Refuses with 1, 2, 6, or with 9 if
/// a range that counts is out of order or not finite.
///
/// ```
/// use probe_rays::{ray_height_ranges, Clearance, HeightRanges, Ray, Refusal};
///
/// // veneer of 18 to 19 mm, and a probe that ends 18.5 mm over the ground, or 20 mm
/// let veneer = HeightRanges { rows: 2, columns: 3, spacing: [100.0; 2], lows: &[18.0; 6], highs: &[19.0; 6] };
/// let down = |far| Ray::new([150.0, 50.0, 30.0], [0.0, 0.0, -1.0], far);
/// assert_eq!(ray_height_ranges(&down(11.5), &veneer), Clearance::Possible(1));
/// assert_eq!(ray_height_ranges(&down(10.0), &veneer), Clearance::Clear);
///
/// let swapped = HeightRanges { lows: veneer.highs, highs: veneer.lows, ..veneer };
/// assert_eq!(ray_height_ranges(&down(10.0), &swapped), Clearance::Refused(Refusal::BadRange));
/// ```
pub fn ray_height_ranges(ray: &Ray, ranges: &HeightRanges<'_>) -> Clearance {
    let mut cell = [0_u32];
    match calls::ray_height_ranges(ray, ranges, &mut cell) {
        sys::CLEAR => Clearance::Clear,
        sys::POSSIBLE => Clearance::Possible(cell[0]),
        number => Clearance::Refused(Refusal::from_number(number)),
    }
}
