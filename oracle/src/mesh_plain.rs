//! Document 02's M-100, written down plainly: the mesh cast without a tree.

use crate::{
    answer::{Answer, Ray},
    model::{candidates, corners, indices_admitted, nearest, vertices_admitted, vertices_box},
    plain::{ray_admitted, segment_box},
    slips::{Slip::*, slipped},
};

/// Whether a triangle has a valid box; one with an index past the vertices has none.
fn has_box(vertices: &[f64], indices: &[u32], triangle: usize) -> bool {
    slipped(PlainUnfit)
        || corners(vertices, indices, triangle).map_or(slipped(PlainIndex), |corners| {
            vertices_box(corners).is_some()
        })
}

/// 1, then 2, then the segment end's 6, then 5 where a triangle, touching or not, has no
/// valid box, and only then the candidates, ascending.
pub fn ray_mesh_plain(ray: &Ray, vertices: &[f64], indices: &[u32]) -> Answer {
    if !ray_admitted(ray) {
        return Answer::Refused(1);
    }
    if !vertices_admitted(vertices) || !indices_admitted(indices) {
        return Answer::Refused(2);
    }
    let n = indices.len() / 3;
    let unfit = (0..n).find(|&triangle| !has_box(vertices, indices, triangle));
    if segment_box(ray).is_none() && !(slipped(PlainEnd) && unfit.is_some()) {
        return Answer::Refused(6);
    }
    if slipped(PlainEmpty) && n == 0 {
        return Answer::Refused(5);
    }
    let mut candidates = candidates(ray, vertices, indices);
    if let Some(unfit) = unfit {
        candidates.retain(|&triangle| slipped(PlainLate) && triangle < unfit as u32);
        return match nearest(ray, vertices, indices, &candidates) {
            Answer::Refused(number) => Answer::Refused(number),
            _ => Answer::Refused(5),
        };
    }
    nearest(ray, vertices, indices, &candidates)
}
