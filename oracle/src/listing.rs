//! Document 02's listing of every hit along a ray (M-107, in the order of M-111), written down plainly over flat areas,
//! with every refusal and what the hit area holds afterwards.

use crate::{
    answer::{Answer, Ray},
    model::{self, Tree},
    plain,
    tree::segment_box,
};

/// Places of u32 indices, one each, and f64 numbers, four each: distance, then normal.
pub struct HitArea<'a> {
    pub indices: &'a mut [u32],
    pub numbers: &'a mut [f64],
}

/// A hit as it stands at a place: the triangle, the distance and the normal.
pub type Row = (u32, [f64; 4]);

/// The hits of a list of triangles, in its order; the refusal of the first that refuses.
pub fn rows(ray: &Ray, vertices: &[f64], indices: &[u32], list: &[u32]) -> Result<Vec<Row>, u32> {
    let mut rows = Vec::new();
    for &index in list {
        let corners = model::corners(vertices, indices, index as usize).ok_or(5u32)?;
        match plain::triangle(ray, corners) {
            Answer::None => {}
            Answer::Refused(number) => return Err(number),
            Answer::Hit {
                normal: [x, y, z],
                distance,
                ..
            } => rows.push((index, [distance, x, y, z])),
        }
    }
    Ok(rows)
}

/// Refusals 1 to 4, of which the hit area is no part.
#[allow(clippy::too_many_arguments)]
fn early(
    ray: &Ray,
    vertices: &[f64],
    indices: &[u32],
    pose: &[f64],
    tree: Tree,
    list_length: usize,
    stack_length: usize,
) -> Result<(), u32> {
    let n = indices.len() / 3;
    let lengths = model::vertices_admitted(vertices)
        && model::vertices_admitted(pose)
        && model::indices_admitted(indices);
    if !plain::ray_admitted(ray) {
        Err(1)
    } else if !lengths || tree.node_count > 2 * n {
        Err(2)
    } else if !tree.is_long_enough(n) || list_length < n || stack_length < tree.node_count + 1 {
        Err(3)
    } else if vertices.len() != pose.len() {
        Err(4)
    } else {
        Ok(())
    }
}

/// Every hit in the first places of the area: their count, or a refusal. After 1, 2, the 3 of the other areas, and 4
/// nothing has changed; after any later refusal every place of both slices is zero.
#[allow(clippy::too_many_arguments)]
pub fn ray_mesh_all(
    ray: &Ray,
    vertices: &[f64],
    indices: &[u32],
    pose: &[f64],
    tree: Tree,
    list_length: usize,
    stack_length: usize,
    area: &mut HitArea,
) -> Result<usize, u32> {
    early(
        ray,
        vertices,
        indices,
        pose,
        tree,
        list_length,
        stack_length,
    )?;
    put(late(ray, indices, pose, tree), area)
}

/// Hits in the first places of the area, and their count: 3 where there are more than places. After a refusal every place of both
/// slices is zero.
pub(crate) fn put(found: Result<Vec<Row>, u32>, area: &mut HitArea) -> Result<usize, u32> {
    let places = area.indices.len().min(area.numbers.len() / 4);
    let listed = found.and_then(|rows| {
        if rows.len() > places {
            Err(3)
        } else {
            Ok(rows)
        }
    });
    match &listed {
        Ok(rows) => {
            for (place, (index, numbers)) in rows.iter().enumerate() {
                area.indices[place] = *index;
                area.numbers[4 * place..4 * place + 4].copy_from_slice(numbers);
            }
        }
        Err(_) => {
            area.indices.fill(0);
            area.numbers.fill(0.0);
        }
    }
    listed.map(|rows| rows.len())
}

/// Ascending distance, then ascending triangle index; plus and minus zero are equal, and no distance is NaN.
pub fn in_order_of_depth(mut rows: Vec<Row>) -> Vec<Row> {
    let depth = |row: &Row| row.1[0];
    rows.sort_by(|a, b| {
        let by_depth = depth(a).partial_cmp(&depth(b)).expect("a number");
        by_depth.then(a.0.cmp(&b.0))
    });
    rows
}

/// Past refusals 1 to 4: the segment's 6, the walk's 5, then the triangles, ascending, and their hits in order.
fn late(ray: &Ray, indices: &[u32], pose: &[f64], tree: Tree) -> Result<Vec<Row>, u32> {
    let segment = segment_box(ray).ok_or(6u32)?;
    let mut list = model::walk(tree, indices.len() / 3, &segment).ok_or(5u32)?;
    list.sort_unstable();
    rows(ray, pose, indices, &list).map(in_order_of_depth)
}
