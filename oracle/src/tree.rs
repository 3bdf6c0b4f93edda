//! A box tree in the layout of the lent areas, and the Rust's own tree in it.

use crate::{
    aabb::Aabb,
    answer::{Ray, refusal_of_collision},
    collision::mesh::{self, TriangleBvh},
    math::Vec3,
    shape::{TriangleMesh, triangle_mesh},
};

/// Node boxes 6 floats a node, triangle boxes 6 floats a triangle, node words 3 a
/// node (kind 0 leaf or 1 branch, then start and count or left and right), order.
#[derive(Clone, Debug, Default, PartialEq)]
pub struct FlatTree {
    pub node_boxes: Vec<f64>,
    pub triangle_boxes: Vec<f64>,
    pub node_words: Vec<u32>,
    pub order: Vec<u32>,
    pub node_count: usize,
}

impl FlatTree {
    /// The same tree in areas of the stated lengths for `n` triangles.
    pub fn padded(mut self, n: usize) -> Self {
        self.node_boxes.resize(12 * n, 0.0);
        self.triangle_boxes.resize(6 * n, 0.0);
        self.node_words.resize(6 * n, 0);
        self.order.resize(n, 0);
        self
    }

    /// The tree in plain text, floats as their bits.
    pub fn text(&self) -> String {
        let bits = |sides: &[f64]| -> String {
            let side = |side: &f64| format!(" {:016x}", side.to_bits());
            sides.iter().map(side).collect()
        };
        let mut text = format!("nodes {}\n", self.node_count);
        for node in 0..self.node_count {
            let [kind, first, second] = [0, 1, 2].map(|k| self.node_words[3 * node + k]);
            let kind = ["leaf", "branch"][kind as usize];
            let sides = bits(&self.node_boxes[6 * node..6 * node + 6]);
            text += &format!("node {node} {kind} {first} {second}{sides}\n");
        }
        text += "order";
        self.order
            .iter()
            .for_each(|triangle| text += &format!(" {triangle}"));
        text += "\n";
        for (triangle, sides) in self.triangle_boxes.chunks_exact(6).enumerate() {
            text += &format!("triangle {triangle}{}\n", bits(sides));
        }
        text
    }
}

pub(crate) fn points(vertices: &[f64]) -> Vec<Vec3> {
    let point = |v: &[f64]| Vec3::new(v[0], v[1], v[2]);
    vertices.chunks_exact(3).map(point).collect()
}

pub(crate) fn corners(indices: &[u32]) -> Vec<[usize; 3]> {
    let triangle = |t: &[u32]| [t[0] as usize, t[1] as usize, t[2] as usize];
    indices.chunks_exact(3).map(triangle).collect()
}

pub(crate) fn rust_mesh(vertices: &[f64], indices: &[u32]) -> TriangleMesh {
    triangle_mesh::unchecked(points(vertices), corners(indices))
}

pub(crate) fn rust_tree(mesh: &TriangleMesh) -> Result<TriangleBvh, u32> {
    TriangleBvh::build(mesh).map_err(refusal_of_collision)
}

/// The tree that the Rust builds, or the number of its refusal.
pub fn build(vertices: &[f64], indices: &[u32]) -> Result<FlatTree, u32> {
    rust_tree(&rust_mesh(vertices, indices)).map(|bvh| mesh::to_flat(&bvh))
}

/// The Rust's query over any tree in areas long enough. Its walk over a tree with a
/// cycle has no end, so give it only trees that are known to end.
pub fn query(tree: &FlatTree, triangle_count: usize, bounds: [f64; 6]) -> Result<Vec<u32>, u32> {
    let bvh = mesh::from_flat(tree, triangle_count);
    let listed = mesh::listed(&bvh, Aabb::unchecked(&bounds)).map_err(refusal_of_collision)?;
    Ok(listed.into_iter().map(|t| t as u32).collect())
}

/// The box of the ray's segment, or none if its end is not finite.
pub fn segment_box(ray: &Ray) -> Option<[f64; 6]> {
    let origin = Vec3::from_array(ray.origin);
    let end = origin + Vec3::from_array(ray.direction) * ray.maximum;
    let bounds = Aabb::new(origin.min(end), origin.max(end)).ok()?;
    end.is_finite().then(|| bounds.to_array())
}
