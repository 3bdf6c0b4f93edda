//! The outline of an outer face, as somebody sees it who looks at it: that of the face and of what its rows take away along
//! its sides.
use crate::geometry::{along, dot, straightened, Sheet, Vector};
use crate::loops::border;
use crate::topology::NONE;
use crate::work::Work;

/// The outlines of the outer faces. A round one has none.
///
/// The face's own surface and that of the rows which are entered from it are one patch: down a wall into the floor of a
/// rabbet the patch goes on, and seen from the face the wall is a line. So its border is the outline.
pub fn outlines(work: &Work<'_>) -> Vec<Vec<Vec<Vector>>> {
    let faces = work.outer.faces.iter().enumerate();
    faces
        .map(|(number, face)| match face.is_round {
            true => Vec::new(),
            false => outline(work, number as u32),
        })
        .collect()
}

fn outline(work: &Work<'_>, face: u32) -> Vec<Vec<Vector>> {
    let normal = work.outer.faces[face as usize].normal;
    let offset = work.outer.offsets[face as usize];
    let belongs = |region: u32| {
        let owner = work.owner[region as usize];
        work.face(region) == Some(face)
            || (owner != NONE && work.drafts[owner as usize].face == Some(face))
    };
    let patch: Vec<bool> = (0..work.owner.len() as u32).map(belongs).collect();
    let inside = |triangle: u32| {
        let region = work.regions.of_triangle(triangle);
        region != NONE && patch[region as usize]
    };
    let all = work.regions.all.iter().zip(&patch);
    let triangles: Vec<u32> = all
        .filter(|(_, &is_part)| is_part)
        .flat_map(|(region, _)| region.triangles.iter().copied())
        .collect();
    let flat = |&vertex: &u32| {
        let point = work.shell.vertices[vertex as usize];
        along(point, normal, offset - dot(point, normal))
    };
    let polygons = border(work.shell, &triangles, inside, normal)
        .iter()
        .filter(|around| around.area > 0.0)
        .map(|around| straightened(&around.vertices.iter().map(flat).collect::<Vec<_>>()))
        .filter(|polygon| polygon.len() >= 3)
        .collect();
    outermost(polygons, normal)
}

/// The polygons, from the largest on, that lie within no other.
fn outermost(polygons: Vec<Vec<Vector>>, normal: Vector) -> Vec<Vec<Vector>> {
    let sheet = Sheet::of(normal);
    let mut kept: Vec<Vec<Vector>> = Vec::new();
    for polygon in polygons {
        let point = sheet.flat(polygon[0]);
        let is_within = |other: &Vec<Vector>| {
            let corners: Vec<[f64; 2]> = other.iter().map(|&corner| sheet.flat(corner)).collect();
            encloses(&corners, point)
        };
        if !kept.iter().any(is_within) {
            kept.push(polygon);
        }
    }
    kept
}

/// Whether a polygon has a point within: a line from it to the right crosses the sides an odd number of times.
pub fn encloses(corners: &[[f64; 2]], [x, y]: [f64; 2]) -> bool {
    let next = corners.iter().cycle().skip(1);
    let crossed = corners.iter().zip(next).filter(|(a, b)| {
        (a[1] > y) != (b[1] > y) && x < a[0] + (y - a[1]) / (b[1] - a[1]) * (b[0] - a[0])
    });
    crossed.count() % 2 == 1
}
