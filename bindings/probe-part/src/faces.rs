//! The six faces of the box around a part, and probes straight into one.
use crate::shape::{Bounds, Shape};
use probe_rays::{Cast, MeshHit, Ray, Refusal, Scratch};

/// How far before the box a probe starts.
const MARGIN: f64 = 1.0;

/// A face of the box around a part.
#[derive(Clone, Copy, Debug, PartialEq, Eq)]
pub struct Face {
    /// The axis that it lies across: 0 is x, 1 is y, 2 is z.
    pub axis: usize,
    /// Whether it is the side of the larger coordinate.
    pub upper: bool,
}

/// The faces, each before its opposite.
pub const FACES: [Face; 6] = [
    Face::new(2, true),
    Face::new(2, false),
    Face::new(1, false),
    Face::new(1, true),
    Face::new(0, false),
    Face::new(0, true),
];

const NAMES: [&str; 6] = ["top", "bottom", "front", "back", "left", "right"];

impl Face {
    const fn new(axis: usize, upper: bool) -> Face {
        Face { axis, upper }
    }

    /// Its name: top (+z), bottom (-z), front (-y), back (+y), left (-x), right (+x).
    pub fn name(self) -> &'static str {
        NAMES[self.place()]
    }

    /// Its place among [`FACES`].
    pub fn place(self) -> usize {
        FACES.iter().position(|&face| face == self).unwrap_or(0)
    }

    /// The face of a name.
    pub fn named(name: &str) -> Option<Face> {
        let place = NAMES.iter().position(|&known| known == name)?;
        Some(FACES[place])
    }

    /// The face across the part.
    pub fn opposite(self) -> Face {
        Face::new(self.axis, !self.upper)
    }

    /// The two axes along it, the one that is drawn to the right or left first.
    pub fn along(self) -> [usize; 2] {
        [[1, 2], [0, 2], [0, 1]][self.axis]
    }

    /// Whether the first axis runs to the left, where somebody looks at the face with the second axis upwards.
    pub fn is_mirrored(self) -> bool {
        // top, right and front are drawn as their axes run; of front and back it is the lower that is
        self.upper == (self.axis == 1)
    }
}

/// A face of a part, to probe.
#[derive(Clone, Copy)]
pub struct View<'a> {
    /// The part.
    pub shape: &'a Shape,
    /// The face.
    pub face: Face,
    bounds: Bounds,
}

impl<'a> View<'a> {
    /// The view of a part's face.
    pub fn new(shape: &'a Shape, face: Face) -> View<'a> {
        View {
            shape,
            face,
            bounds: shape.bounds(),
        }
    }

    /// The least coordinates along the face.
    pub fn low(&self) -> [f64; 2] {
        self.face.along().map(|axis| self.bounds.low[axis])
    }

    /// The largest coordinates along the face.
    pub fn high(&self) -> [f64; 2] {
        self.face.along().map(|axis| self.bounds.high[axis])
    }

    /// How far it is from this face of the box to the opposite one.
    pub fn thickness(&self) -> f64 {
        self.bounds.high[self.face.axis] - self.bounds.low[self.face.axis]
    }

    /// The point at a depth below a place of the face.
    pub fn point(&self, place: [f64; 2], depth: f64) -> [f64; 3] {
        let [first, second] = self.face.along();
        let mut point = [0.0; 3];
        point[first] = place[0];
        point[second] = place[1];
        point[self.face.axis] = if self.face.upper {
            self.bounds.high[self.face.axis] - depth
        } else {
            self.bounds.low[self.face.axis] + depth
        };
        point
    }

    /// Straight into the face at a place, through the whole part.
    pub fn ray(&self, place: [f64; 2]) -> Ray {
        let mut direction = [0.0; 3];
        direction[self.face.axis] = if self.face.upper { -1.0 } else { 1.0 };
        Ray::new(
            self.point(place, -MARGIN),
            direction,
            self.thickness() + 2.0 * MARGIN,
        )
    }

    /// How deep below the box's face the first surface lies; infinite where there is none.
    pub fn depth(&self, place: [f64; 2], scratch: &mut Scratch) -> Result<f64, Refusal> {
        below(self.shape.cast(&self.ray(place), scratch))
    }
}

fn below(cast: Cast<MeshHit>) -> Result<f64, Refusal> {
    match cast {
        Cast::Hit(hit) => Ok(hit.distance - MARGIN),
        Cast::None => Ok(f64::INFINITY),
        Cast::Refused(refusal) => Err(refusal),
    }
}
