//! What the calls return.
use crate::{sys, Ray};
use std::error::Error;
use std::fmt;

/// A hit.
#[derive(Clone, Copy, Debug, PartialEq)]
pub struct Hit {
    /// The surface's unit normal. A zero of it may be -0.0: a normal that is negated negates its zeros too.
    pub normal: [f64; 3],
    /// The distance along the ray: never NaN; at the origin 0.0 or -0.0.
    pub distance: f64,
}

/// A hit on a mesh.
#[derive(Clone, Copy, Debug, PartialEq)]
pub struct MeshHit {
    /// The triangle's unit normal, which faces the ray. A zero of it may be -0.0.
    pub normal: [f64; 3],
    /// The distance along the ray: never NaN; at the origin 0.0 or -0.0.
    pub distance: f64,
    /// The triangle's index, from 0.
    pub triangle: u32,
}

/// The result of a cast.
///
/// ```
/// use probe_rays::{ray_plane, Cast, Plane, Ray, Refusal};
///
/// let floor = Plane { normal: [0.0, 0.0, 1.0], distance: 0.0 };
/// // the direction is not of length 1
/// let ray = Ray::new([0.0, 0.0, 2.0], [0.0, 0.0, -2.0], 5.0);
/// assert_eq!(ray_plane(&ray, &floor), Cast::Refused(Refusal::InvalidInput));
/// ```
#[derive(Clone, Copy, Debug, PartialEq)]
#[must_use]
pub enum Cast<H = Hit> {
    /// The nearest surface along the ray.
    Hit(H),
    /// A miss: no hit from near to the maximum, as the cast reads them, by the cast's definition.
    None,
    /// The cast was refused: nothing is known of the surface.
    Refused(Refusal),
}

impl<H> Cast<H> {
    /// The hit, if any, with a refusal as the error: a refusal cannot be taken for a miss.
    ///
    /// ```
    /// use probe_rays::{ray_plane, Plane, Ray, Refusal};
    ///
    /// let floor = Plane { normal: [0.0, 0.0, 1.0], distance: 0.0 };
    /// let short = Ray::new([0.0, 0.0, 2.0], [0.0, 0.0, -1.0], 1.0);
    /// assert_eq!(ray_plane(&short, &floor).into_result()?, None);
    /// # Ok::<(), Refusal>(())
    /// ```
    pub fn into_result(self) -> Result<Option<H>, Refusal> {
        match self {
            Cast::Hit(hit) => Ok(Some(hit)),
            Cast::None => Ok(None),
            Cast::Refused(refusal) => Err(refusal),
        }
    }

    /// The result of a call: its number, and the hit if there is one.
    pub(crate) fn of(answer: u32, hit: impl FnOnce() -> H) -> Cast<H> {
        match answer {
            sys::HIT => Cast::Hit(hit()),
            sys::NONE => Cast::None,
            number => Cast::Refused(Refusal::from_number(number)),
        }
    }
}

/// Why a call refused.
#[derive(Clone, Copy, Debug, PartialEq, Eq, Hash)]
#[non_exhaustive]
pub enum Refusal {
    /// 1: a ray's origin or maximum is not finite; its maximum is below 0; its direction is not finite, or has a length
    /// more than 1e-12 from 1; its near distance is not finite, below 0 or above the maximum; a query's box has a corner
    /// that is not finite, or a minimum above its maximum; a drill's radius is not finite, or below 0.
    InvalidInput,
    /// 2: a count, length, spacing, normal, plane distance or grid origin is outside the limits; the bytes are not one
    /// well-formed record.
    BadShape,
    /// 3: a buffer is shorter than stated; a listing has more hits than places.
    NoRoom,
    /// 4: the pose does not have as many vertices as the mesh.
    WrongPose,
    /// 5: an index or a box does not fit; a tree is broken where the traversal meets it; a tree to merge does not pass the
    /// check.
    OutOfBounds,
    /// 6: a computed number is not finite.
    Overflow,
    /// 7: the cross product of the hit triangle's edges is zero or not finite.
    NoNormal,
    /// 8: the traversal of a distance grid ends without an answer, or the gradient at its hit is zero.
    NotConvergent,
    /// 9: a range of a visited cell is out of order or not finite.
    BadRange,
    /// 10: the next node of a cabinet's traversals would exceed the limit.
    LimitReached,
    /// 11: a float of a record is NaN, or no f32 is exactly that number.
    NotRepresentable,
    /// 12, of an exact cast and of a drill: the origin or a corner of a triangle of the mesh is not a number from -8,192 to
    /// 8,192, or near or the maximum is above 32,768; a drill's radius is above 128.
    OutOfRange,
    /// A number that this crate has no name for: the library is newer than the crate.
    Other(u32),
}

impl Refusal {
    /// The refusal with this number.
    ///
    /// ```
    /// use probe_rays::Refusal;
    ///
    /// assert_eq!(Refusal::from_number(4), Refusal::WrongPose);
    /// assert_eq!(Refusal::from_number(200), Refusal::Other(200));
    /// ```
    pub fn from_number(number: u32) -> Refusal {
        match number {
            sys::REFUSED_INVALID_INPUT => Refusal::InvalidInput,
            sys::REFUSED_BAD_SHAPE => Refusal::BadShape,
            sys::REFUSED_NO_ROOM => Refusal::NoRoom,
            sys::REFUSED_WRONG_POSE => Refusal::WrongPose,
            sys::REFUSED_OUT_OF_BOUNDS => Refusal::OutOfBounds,
            sys::REFUSED_OVERFLOW => Refusal::Overflow,
            sys::REFUSED_NO_NORMAL => Refusal::NoNormal,
            sys::REFUSED_NOT_CONVERGENT => Refusal::NotConvergent,
            sys::REFUSED_BAD_RANGE => Refusal::BadRange,
            sys::REFUSED_LIMIT_REACHED => Refusal::LimitReached,
            sys::REFUSED_NOT_REPRESENTABLE => Refusal::NotRepresentable,
            sys::REFUSED_OUT_OF_RANGE => Refusal::OutOfRange,
            other => Refusal::Other(other),
        }
    }

    /// The number of the refusal.
    pub fn number(self) -> u32 {
        match self {
            Refusal::InvalidInput => sys::REFUSED_INVALID_INPUT,
            Refusal::BadShape => sys::REFUSED_BAD_SHAPE,
            Refusal::NoRoom => sys::REFUSED_NO_ROOM,
            Refusal::WrongPose => sys::REFUSED_WRONG_POSE,
            Refusal::OutOfBounds => sys::REFUSED_OUT_OF_BOUNDS,
            Refusal::Overflow => sys::REFUSED_OVERFLOW,
            Refusal::NoNormal => sys::REFUSED_NO_NORMAL,
            Refusal::NotConvergent => sys::REFUSED_NOT_CONVERGENT,
            Refusal::BadRange => sys::REFUSED_BAD_RANGE,
            Refusal::LimitReached => sys::REFUSED_LIMIT_REACHED,
            Refusal::NotRepresentable => sys::REFUSED_NOT_REPRESENTABLE,
            Refusal::OutOfRange => sys::REFUSED_OUT_OF_RANGE,
            Refusal::Other(number) => number,
        }
    }

    /// The refusal of a cast of this ray, in words; for refusal 1 with the test that the ray fails.
    ///
    /// ```
    /// use probe_rays::{Ray, Refusal};
    ///
    /// let ray = Ray::new([0.0; 3], [0.0, 0.0, 1.0], -1.0);
    /// assert_eq!(Refusal::InvalidInput.explained(&ray), "refused 1, invalid input: the maximum is below 0");
    /// ```
    pub fn explained(self, ray: &Ray) -> String {
        match (self, ray.fault()) {
            (Refusal::InvalidInput, Some(fault)) => format!("refused 1, invalid input: {fault}"),
            _ => self.to_string(),
        }
    }
}

impl fmt::Display for Refusal {
    fn fmt(&self, out: &mut fmt::Formatter<'_>) -> fmt::Result {
        let words = match self {
            Refusal::InvalidInput => "invalid input: the ray or the query box is not valid",
            Refusal::BadShape => "bad shape: a count, a length or a parameter is outside the limits, or a record is malformed",
            Refusal::NoRoom => "no room: a buffer is too short",
            Refusal::WrongPose => "wrong pose: the pose does not have as many vertices as the mesh",
            Refusal::OutOfBounds => "out of bounds: an index, a box or a tree does not fit",
            Refusal::Overflow => "overflow: a computed number is not finite",
            Refusal::NoNormal => "no normal: the surface that is hit has no unit normal",
            Refusal::NotConvergent => "not convergent: the traversal of the distance grid has no answer",
            Refusal::BadRange => "bad range: a range of heights is out of order or not finite",
            Refusal::LimitReached => {
                "limit reached: the cast would visit more nodes than the limit allows"
            }
            Refusal::NotRepresentable => "not representable: a float of the record is NaN, or no f32 is exactly that number",
            Refusal::OutOfRange => {
                "out of range: the origin or a corner is not within 8,192, near or the maximum is above 32,768, or the radius is above 128"
            }
            Refusal::Other(_) => "a refusal that this version does not know",
        };
        write!(out, "refused {}, {words}", self.number())
    }
}

impl Error for Refusal {}
