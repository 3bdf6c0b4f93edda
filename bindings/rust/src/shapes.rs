//! The casts at a plane, a triangle, a height grid and a distance grid.
use crate::answer::{Cast, Hit};
use crate::{calls, Ray};

/// The places of a hit: normal x, y, z, then the distance.
pub(crate) type Places = [f64; 4];

/// The hit in its places.
pub(crate) fn placed(places: &Places) -> Hit {
    Hit {
        normal: [places[0], places[1], places[2]],
        distance: places[3],
    }
}

/// The result of a call that writes a hit.
fn cast(call: impl FnOnce(&mut Places) -> u32) -> Cast {
    let mut places: Places = [0.0; 4];
    let answer = call(&mut places);
    Cast::of(answer, || placed(&places))
}

/// The plane of all points whose dot product with the normal is the distance.
#[derive(Clone, Copy, Debug, PartialEq)]
pub struct Plane {
    /// The normal, of length 1 within 1e-12.
    pub normal: [f64; 3],
    /// The distance from the frame's origin, along the normal; finite.
    pub distance: f64,
}

/// A height grid: heights\[r · columns + c\] is the height of row r and column c, at x = c · spacing\[0\] and
/// y = r · spacing\[1\]. Each cell is two triangles.
#[derive(Clone, Copy, Debug, PartialEq)]
pub struct HeightField<'a> {
    /// The number of rows, 2 to 1,024.
    pub rows: usize,
    /// The number of columns, 2 to 1,024.
    pub columns: usize,
    /// The spacing of the columns, and of the rows; finite and above 0.
    pub spacing: [f64; 2],
    /// The heights, row after row: rows · columns of them.
    pub heights: &'a [f64],
}

/// A grid of distances from a surface: values\[(k · sides\[1\] + j) · sides\[0\] + i\] is the distance at node (i, j, k), at
/// origin + (i, j, k) · spacing.
#[derive(Clone, Copy, Debug, PartialEq)]
pub struct LevelSet<'a> {
    /// The number of nodes along each axis, 2 to 256.
    pub sides: [u32; 3],
    /// The position of node (0, 0, 0); finite.
    pub origin: [f64; 3],
    /// The spacing of the nodes along each axis; finite and above 0.
    pub spacing: [f64; 3],
    /// The distances, x fastest: as many as the product of the sides.
    pub values: &'a [f64],
}

/// Casts a ray at a plane. The normal of a hit faces the ray. Refuses with 1, 2 or 6.
///
/// ```
/// use probe_rays::{ray_plane, Cast, Plane, Ray};
///
/// let ceiling = Plane { normal: [0.0, 0.0, 1.0], distance: 3.0 };
/// let up = Ray::new([0.0; 3], [0.0, 0.0, 1.0], 3.0);
/// let Cast::Hit(hit) = ray_plane(&up, &ceiling) else { panic!() };
/// assert_eq!((hit.distance, hit.normal[2]), (3.0, -1.0));
/// ```
pub fn ray_plane(ray: &Ray, plane: &Plane) -> Cast {
    cast(|hit| calls::ray_plane(ray, plane, hit))
}

/// Casts a ray at a triangle of three corners, from either side. The normal of a hit faces the ray.
/// Refuses with 1, 6 or 7.
///
/// ```
/// use probe_rays::{ray_triangle, Cast, Ray};
///
/// let corners = [[0.0, 0.0, 0.0], [1.0, 0.0, 0.0], [0.0, 1.0, 0.0]];
/// let inside = Ray::new([0.25, 0.25, 1.0], [0.0, 0.0, -1.0], 1.0);
/// assert!(matches!(ray_triangle(&inside, &corners), Cast::Hit(_)));
/// let outside = Ray::new([0.75, 0.5, 1.0], [0.0, 0.0, -1.0], 1.0);
/// assert_eq!(ray_triangle(&outside, &corners), Cast::None);
/// ```
pub fn ray_triangle(ray: &Ray, corners: &[[f64; 3]; 3]) -> Cast {
    cast(|hit| calls::ray_triangle(ray, corners, hit))
}

/// Casts a ray at a height grid. The hit is the nearest, and its normal faces the ray. Only the cells under the bounding box
/// of the ray's segment are tested. Refuses with 1, 2, 5, 6 or 7.
///
/// ```
/// use probe_rays::{ray_height_field, Cast, HeightField, Ray};
///
/// let flat = HeightField { rows: 2, columns: 2, spacing: [1.0, 1.0], heights: &[0.0; 4] };
/// let down = Ray::new([0.75, 0.25, 1.0], [0.0, 0.0, -1.0], 2.0);
/// let Cast::Hit(hit) = ray_height_field(&down, &flat) else { panic!() };
/// assert_eq!(hit.distance, 1.0);
/// ```
pub fn ray_height_field(ray: &Ray, field: &HeightField<'_>) -> Cast {
    cast(|hit| calls::ray_height_field(ray, field, hit))
}

/// Casts a ray at the zero surface of a distance grid. The normal of a hit points to where the distances grow, and
/// is not turned towards the ray. A hit may lie one float past the maximum. Refuses with 1, 2, 5, 6 or 8.
///
/// ```
/// use probe_rays::{ray_level_set, Cast, LevelSet, Ray};
///
/// // the surface z = 0.5: each value is the node's height less 0.5
/// let values = [-0.5, -0.5, -0.5, -0.5, 0.5, 0.5, 0.5, 0.5];
/// let grid = LevelSet { sides: [2; 3], origin: [0.0; 3], spacing: [1.0; 3], values: &values };
/// let down = Ray::new([0.5, 0.5, 2.0], [0.0, 0.0, -1.0], 5.0);
/// let Cast::Hit(hit) = ray_level_set(&down, &grid) else { panic!() };
/// assert!((hit.distance - 1.5).abs() < 1e-12);
/// ```
pub fn ray_level_set(ray: &Ray, grid: &LevelSet<'_>) -> Cast {
    cast(|hit| calls::ray_level_set(ray, grid, hit))
}
