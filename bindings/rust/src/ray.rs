//! A ray.
use std::ops::RangeInclusive;

/// The squares whose roots are not more than 1e-12 from 1.
const UNIT_SQUARES: RangeInclusive<f64> = 0.999_999_999_998..=1.000_000_000_002;

/// A ray: its origin, its direction (of length 1), its maximum distance, and the near distance from which on surfaces are hit.
#[derive(Clone, Copy, Debug, PartialEq)]
pub struct Ray {
    /// The origin.
    pub origin: [f64; 3],
    /// The direction, of length 1 within 1e-12.
    pub direction: [f64; 3],
    /// The maximum distance; a surface at exactly this distance is hit.
    pub max_distance: f64,
    /// The near distance, from 0 to `max_distance`: nearer surfaces are not hit, a surface at exactly this distance is.
    pub near_distance: f64,
}

impl Ray {
    /// A ray of these numbers, unchanged, with a near distance of 0. A cast refuses with 1 a ray that is not valid.
    pub fn new(origin: [f64; 3], direction: [f64; 3], max_distance: f64) -> Ray {
        Ray {
            origin,
            direction,
            max_distance,
            near_distance: 0.0,
        }
    }

    /// The same ray, ignoring surfaces nearer than a distance. Distances are still measured from the origin.
    ///
    /// ```
    /// use probe_rays::{ray_plane, Cast, Plane, Ray};
    ///
    /// let plane = Plane { normal: [0.0, 0.0, 1.0], distance: 0.0 };
    /// let down = Ray::new([0.0, 0.0, 2.0], [0.0, 0.0, -1.0], 5.0);
    /// assert!(matches!(ray_plane(&down.with_near(2.0), &plane), Cast::Hit(hit) if hit.distance == 2.0));
    /// assert_eq!(ray_plane(&down.with_near(2.5), &plane), Cast::None);
    /// ```
    pub fn with_near(self, near_distance: f64) -> Ray {
        Ray {
            near_distance,
            ..self
        }
    }

    /// A ray with the given direction, of any length, normalised. A direction that cannot be normalised (zero, or not finite)
    /// is left as it is, and a cast refuses it with 1.
    ///
    /// ```
    /// use probe_rays::Ray;
    ///
    /// let ray = Ray::toward([0.0; 3], [0.0, 3.0, 4.0], 10.0);
    /// assert_eq!(ray.direction, [0.0, 0.6, 0.8]);
    /// assert_eq!(ray.at(5.0), [0.0, 3.0, 4.0]);
    /// ```
    pub fn toward(origin: [f64; 3], direction: [f64; 3], max_distance: f64) -> Ray {
        // divided by the largest component first, so that no square overflows or vanishes
        let largest = direction
            .iter()
            .fold(0.0_f64, |most, part| most.max(part.abs()));
        let scaled = direction.map(|part| part / largest);
        let length = scaled.iter().map(|part| part * part).sum::<f64>().sqrt();
        let unit = scaled.map(|part| part / length);
        let direction = if unit.iter().all(|part| part.is_finite()) {
            unit
        } else {
            direction
        };
        Ray::new(origin, direction, max_distance)
    }

    /// The test of refusal 1 that the ray fails, in words; nothing if it fails none.
    ///
    /// ```
    /// use probe_rays::Ray;
    ///
    /// let still = Ray::toward([0.0; 3], [0.0; 3], 10.0);
    /// assert_eq!(still.fault(), Some("the direction is zero"));
    /// assert_eq!(Ray::new([0.0; 3], [0.0, 0.0, 1.0], f64::INFINITY).fault(), Some("the maximum is infinite"));
    /// assert_eq!(Ray::new([0.0; 3], [0.0, 0.0, 1.0], 10.0).fault(), None);
    /// ```
    pub fn fault(&self) -> Option<&'static str> {
        let any = |parts: &[f64], test: fn(f64) -> bool| parts.iter().any(|&part| test(part));
        let [x, y, z] = self.direction;
        let square = x * x + y * y + z * z;
        let (most, near) = (self.max_distance, self.near_distance);
        let tests = [
            (any(&self.origin, f64::is_nan), "the origin has a NaN"),
            (
                any(&self.origin, f64::is_infinite),
                "the origin is infinite",
            ),
            (any(&self.direction, f64::is_nan), "the direction has a NaN"),
            (
                any(&self.direction, f64::is_infinite),
                "the direction is infinite",
            ),
            (self.direction == [0.0; 3], "the direction is zero"),
            (
                !UNIT_SQUARES.contains(&square),
                "the direction's length is not 1",
            ),
            (most.is_nan(), "the maximum is NaN"),
            (most == f64::INFINITY, "the maximum is infinite"),
            (most < 0.0, "the maximum is below 0"),
            (near.is_nan(), "the near distance is NaN"),
            (near < 0.0, "the near distance is below 0"),
            (near > most, "the near distance is above the maximum"),
        ];
        tests
            .iter()
            .find(|(failed, _)| *failed)
            .map(|&(_, words)| words)
    }

    /// The ray's eight numbers, as the calls of many rays take them: origin, direction, maximum and near distance.
    pub fn numbers(&self) -> [f64; 8] {
        let ([x, y, z], [dx, dy, dz]) = (self.origin, self.direction);
        [x, y, z, dx, dy, dz, self.max_distance, self.near_distance]
    }

    /// The point at a distance along the ray.
    pub fn at(&self, distance: f64) -> [f64; 3] {
        std::array::from_fn(|axis| self.origin[axis] + self.direction[axis] * distance)
    }
}
