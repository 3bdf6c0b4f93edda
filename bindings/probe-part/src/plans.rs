//! Outer faces as somebody sees them who looks at them: flat coordinates, to the right and upwards, from the lower left
//! corner of the box around the part.
use crate::geometry::{cross, dot, scale, subtract, unit, Vector};
use crate::model::{Face, LeftOver, Part, Row};

/// A normal that leans less than this from z is that of a top or a bottom.
const LEVEL: f64 = 1e-6;

/// A face's flat coordinates.
#[derive(Clone, Copy, Debug, PartialEq)]
pub struct Plan {
    right: Vector,
    up: Vector,
    low: [f64; 2],
    /// How wide and high the box around the part is, seen from the face.
    pub size: [f64; 2],
}

impl Plan {
    /// The plan of a part's face.
    pub fn of(part: &Part, face: &Face) -> Plan {
        let normal = face.normal;
        let upwards = if normal[0].abs().max(normal[1].abs()) < LEVEL {
            [0.0, 1.0, 0.0]
        } else {
            [0.0, 0.0, 1.0]
        };
        let up = unit(subtract(upwards, scale(normal, dot(upwards, normal))));
        let right = cross(up, normal);
        let corner = |place: usize| -> Vector {
            std::array::from_fn(|axis| {
                if place >> axis & 1 == 0 {
                    part.low[axis]
                } else {
                    part.high[axis]
                }
            })
        };
        let corners: [Vector; 8] = std::array::from_fn(corner);
        let ends = |way: Vector| {
            let all = || corners.iter().map(|&point| dot(point, way));
            let low = all().fold(f64::INFINITY, f64::min);
            (low, all().fold(f64::NEG_INFINITY, f64::max) - low)
        };
        let ((left, width), (bottom, height)) = (ends(right), ends(up));
        Plan {
            right,
            up,
            low: [left, bottom],
            size: [width, height],
        }
    }

    /// A point, seen from the face.
    pub fn place(&self, point: Vector) -> [f64; 2] {
        [
            dot(point, self.right) - self.low[0],
            dot(point, self.up) - self.low[1],
        ]
    }

    /// The least and largest coordinates of a box's corners, seen from the face.
    pub fn box_of(&self, rest: &LeftOver) -> [[f64; 2]; 2] {
        let mut ends = [[f64::INFINITY; 2], [f64::NEG_INFINITY; 2]];
        for place in 0..8 {
            let corner = |axis: usize| {
                if place >> axis & 1 == 0 {
                    rest.low[axis]
                } else {
                    rest.high[axis]
                }
            };
            let point = self.place(std::array::from_fn(corner));
            for side in 0..2 {
                ends[0][side] = ends[0][side].min(point[side]);
                ends[1][side] = ends[1][side].max(point[side]);
            }
        }
        ends
    }
}

/// The rows that are entered from a face, with their numbers in the list, from 1.
pub fn rows_of(part: &Part, face: usize) -> Vec<(usize, &Row)> {
    let rows = part.rows.iter().enumerate();
    rows.filter(|(_, row)| row.face == Some(face))
        .map(|(place, row)| (place + 1, row))
        .collect()
}

/// What is left over and shown on a face: what reaches up to it; of what reaches no face, what lies below one of its rows;
/// of all else, on the first face.
pub fn left_over_of(part: &Part, face: usize) -> Vec<&LeftOver> {
    let shown = |rest: &&LeftOver| {
        let faces = || 0..part.faces.len();
        if faces().any(|other| reaches(part, rest, other)) {
            reaches(part, rest, face)
        } else if faces().any(|other| lies_below_a_row(part, rest, other)) {
            lies_below_a_row(part, rest, face)
        } else {
            face == 0
        }
    };
    part.left_over.iter().filter(shown).collect()
}

/// Whether the box around what is left over ends at a face.
fn reaches(part: &Part, rest: &LeftOver, face: usize) -> bool {
    let normal = part.faces[face].normal;
    (0..3).any(|axis| {
        let reach = 0.001 * (part.high[axis] - part.low[axis]).max(1.0);
        let upper = normal[axis] > 0.999 && part.high[axis] - rest.high[axis] < reach;
        upper || (normal[axis] < -0.999 && rest.low[axis] - part.low[axis] < reach)
    })
}

/// Whether a row of a face has its middle in the box, seen from the face.
fn lies_below_a_row(part: &Part, rest: &LeftOver, face: usize) -> bool {
    let plan = Plan::of(part, &part.faces[face]);
    let [low, high] = plan.box_of(rest);
    rows_of(part, face).iter().any(|(_, row)| {
        let middle = plan.place(row.centre);
        (0..2).all(|side| low[side] <= middle[side] && middle[side] <= high[side])
    })
}

/// The faces to show: those that rows are entered from, or that what is left over reaches; the first one where there are
/// none.
pub fn faces_to_show(part: &Part) -> Vec<usize> {
    let shown = |&face: &usize| {
        let entered = part.rows.iter().any(|row| row.face == Some(face));
        let flat = !part.faces[face].is_round;
        entered || (flat && !left_over_of(part, face).is_empty())
    };
    let faces: Vec<usize> = (0..part.faces.len()).filter(shown).collect();
    if faces.is_empty() && !part.faces.is_empty() {
        return vec![0];
    }
    faces
}
