//! Coordinates from a part's least corner.
use crate::geometry::{add, scale, Vector};
use crate::model::{Part, Report};

/// The report with every part's frame moved to the least corner of the box around it.
pub fn from_corner(report: &Report) -> Report {
    let mut moved = report.clone();
    moved.parts.iter_mut().for_each(move_part);
    moved
}

fn move_part(part: &mut Part) {
    let corner = part.low;
    part.frame.origin = part.frame.place_in_file(corner);
    moved_by(part, scale(corner, -1.0));
}

/// Moves every place of a part, and leaves its frame.
pub(crate) fn moved_by(part: &mut Part, by: Vector) {
    let shift = |point: &mut Vector| *point = add(*point, by);
    shift(&mut part.low);
    shift(&mut part.high);
    for face in &mut part.faces {
        shift(&mut face.point);
        face.outline.iter_mut().flatten().for_each(shift);
    }
    for row in &mut part.rows {
        shift(&mut row.centre);
        row.loops.iter_mut().flatten().for_each(shift);
    }
    for rest in &mut part.left_over {
        shift(&mut rest.low);
        shift(&mut rest.high);
    }
}
