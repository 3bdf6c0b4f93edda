//! A drill.
use crate::Ray;

/// A drill: the closed, flat-ended cylinder of a radius about a ray's segment, from its near distance to its maximum.
/// [`Mesh::drill`](crate::Mesh::drill) says what is asked of it.
#[derive(Clone, Copy, Debug, PartialEq)]
pub struct Drill {
    /// Its axis.
    pub ray: Ray,
    /// Its radius, from 0 to 128.
    pub radius: f64,
}

impl Drill {
    /// The drill's nine numbers, as a call of many drills takes them: the ray's eight, and the radius.
    pub fn numbers(&self) -> [f64; 9] {
        let [x, y, z, dx, dy, dz, most, near] = self.ray.numbers();
        [x, y, z, dx, dy, dz, most, near, self.radius]
    }

    /// The test of refusal 1 that the ray or the radius fails, in words; nothing if neither fails one.
    ///
    /// ```
    /// use probe_rays::{Drill, Ray};
    ///
    /// let ray = Ray::new([0.0; 3], [0.0, 0.0, 1.0], 12.0);
    /// assert_eq!(Drill { ray, radius: -4.0 }.fault(), Some("the radius is below 0"));
    /// assert_eq!(Drill { ray, radius: 4.0 }.fault(), None);
    /// ```
    pub fn fault(&self) -> Option<&'static str> {
        let radius = self.radius;
        let tests = [
            (radius.is_nan(), "the radius is NaN"),
            (radius < 0.0, "the radius is below 0"),
            (radius == f64::INFINITY, "the radius is infinite"),
        ];
        let own = tests.iter().find(|(failed, _)| *failed);
        self.ray.fault().or(own.map(|&(_, words)| words))
    }
}
