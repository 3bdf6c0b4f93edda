//! Rays, shapes and lent areas, as our calls take them, and the calls.

pub use probe_rays::Ray;
use probe_rays::{
    HeightField, HeightRanges, LevelSet, Plane, calls,
    lent::{BoardRef, TreeAreas, TreeRef},
};

pub struct Mesh {
    pub vertices: Vec<f64>,
    pub triangles: Vec<u32>,
}

impl Mesh {
    pub fn count(&self) -> usize {
        self.triangles.len() / 3
    }

    pub fn corners(&self, index: usize) -> [[f64; 3]; 3] {
        [0, 1, 2].map(|corner| {
            let vertex = 3 * self.triangles[3 * index + corner] as usize;
            [0, 1, 2].map(|axis| self.vertices[vertex + axis])
        })
    }
}

#[derive(PartialEq)]
pub struct Tree {
    pub nodes: usize,
    pub node_boxes: Vec<f64>,
    pub triangle_boxes: Vec<f64>,
    pub node_words: Vec<u32>,
    pub order: Vec<u32>,
}

impl Tree {
    pub fn for_triangles(n: usize) -> Self {
        Self {
            nodes: 0,
            node_boxes: vec![0.0; 12 * n],
            triangle_boxes: vec![0.0; 6 * n],
            node_words: vec![0; 6 * n],
            order: vec![0; n],
        }
    }

    pub fn lent(&self) -> TreeRef<'_> {
        TreeRef {
            nodes: self.nodes,
            node_boxes: &self.node_boxes,
            triangle_boxes: &self.triangle_boxes,
            node_words: &self.node_words,
            order: &self.order,
        }
    }
}

pub struct Heights {
    pub rows: usize,
    pub columns: usize,
    pub spacing: [f64; 2],
    pub heights: Vec<f64>,
}

pub struct Ranges {
    pub rows: usize,
    pub columns: usize,
    pub spacing: [f64; 2],
    pub lows: Vec<f64>,
    pub highs: Vec<f64>,
}

pub struct Distances {
    pub sides: [u32; 3],
    pub origin: [f64; 3],
    pub spacing: [f64; 3],
    pub values: Vec<f64>,
}

/// The areas that a cast or a query is lent.
pub struct Lent {
    pub list: Vec<u32>,
    pub stack: Vec<u32>,
    pub hit: [f64; 4],
    pub index: [u32; 1],
    pub found: [usize; 1],
}

impl Lent {
    pub fn for_tree(triangles: usize, nodes: usize) -> Self {
        Self {
            list: vec![0; triangles],
            stack: vec![0; nodes + 1],
            hit: [0.0; 4],
            index: [0],
            found: [0],
        }
    }
}

#[inline(always)]
pub fn plane(ray: &Ray, normal: &[f64; 3], distance: f64, hit: &mut [f64; 4]) -> u32 {
    let normal = *normal;
    calls::ray_plane(ray, &Plane { normal, distance }, hit)
}

#[inline(always)]
pub fn triangle(ray: &Ray, corners: &[[f64; 3]; 3], hit: &mut [f64; 4]) -> u32 {
    calls::ray_triangle(ray, corners, hit)
}

/// The same casts, with the numbers of ray and shape as slices.
#[inline(always)]
pub fn plane_slices(ray: &[f64; 8], plane: &[f64; 4], hit: &mut [f64; 4]) -> u32 {
    calls::ray_plane_slices(ray, plane, hit)
}

#[inline(always)]
pub fn triangle_slices(ray: &[f64; 8], corners: &[f64; 9], hit: &mut [f64; 4]) -> u32 {
    calls::ray_triangle_slices(ray, corners, hit)
}

#[inline(always)]
pub fn mesh(ray: &Ray, mesh: &Mesh, tree: &Tree, lent: &mut Lent) -> u32 {
    calls::ray_mesh(
        ray,
        &mesh.vertices,
        &mesh.triangles,
        &mesh.vertices,
        &tree.lent(),
        &mut lent.list,
        &mut lent.stack,
        &mut lent.hit,
        &mut lent.index,
    )
}

#[inline(always)]
pub fn exact_mesh(ray: &Ray, mesh: &Mesh, tree: &Tree, lent: &mut Lent) -> u32 {
    calls::ray_mesh_exact(
        ray,
        &mesh.vertices,
        &mesh.triangles,
        &mesh.vertices,
        &tree.lent(),
        &mut lent.stack,
        &mut lent.hit,
        &mut lent.index,
    )
}

#[inline(always)]
pub fn plain(ray: &Ray, mesh: &Mesh, hit: &mut [f64; 4], index: &mut [u32; 1]) -> u32 {
    calls::ray_mesh_plain(ray, &mesh.vertices, &mesh.triangles, hit, index)
}

#[inline(always)]
pub fn exact(ray: &Ray, mesh: &Mesh, hit: &mut [f64; 4], index: &mut [u32; 1]) -> u32 {
    calls::ray_mesh_exact_plain(ray, &mesh.vertices, &mesh.triangles, hit, index)
}

/// A drill: its ray, and its radius.
#[derive(Clone, Copy, Debug)]
pub struct Drill {
    pub ray: Ray,
    pub radius: f64,
}

#[inline(always)]
pub fn drill_plain(drill: &Drill, mesh: &Mesh, index: &mut [u32; 1]) -> u32 {
    calls::drill_plain(
        &drill.ray,
        drill.radius,
        &mesh.vertices,
        &mesh.triangles,
        index,
    )
}

#[inline(always)]
pub fn drill(drill: &Drill, mesh: &Mesh, tree: &Tree, lent: &mut Lent) -> u32 {
    calls::drill(
        &drill.ray,
        drill.radius,
        &mesh.vertices,
        &mesh.triangles,
        &tree.lent(),
        &mut lent.list,
        &mut lent.stack,
        &mut lent.index,
    )
}

#[inline(always)]
pub fn query(bounds: &[f64; 6], triangles: usize, tree: &Tree, lent: &mut Lent) -> u32 {
    let [a, b, c, d, e, f] = *bounds;
    calls::query(
        [a, b, c],
        [d, e, f],
        triangles,
        &tree.lent(),
        &mut lent.list,
        &mut lent.stack,
        &mut lent.found,
    )
}

/// The node count goes into the tree.
#[inline(always)]
pub fn build(mesh: &Mesh, tree: &mut Tree, work: &mut [u32]) -> u32 {
    let areas = TreeAreas {
        node_boxes: &mut tree.node_boxes,
        triangle_boxes: &mut tree.triangle_boxes,
        node_words: &mut tree.node_words,
        order: &mut tree.order,
    };
    let nodes = std::slice::from_mut(&mut tree.nodes);
    calls::build(&mesh.vertices, &mesh.triangles, areas, work, nodes)
}

/// Glues two boards into a mesh and a tree with room for both.
#[inline(always)]
pub fn merge(
    boards: [(&Mesh, &Tree); 2],
    mesh: &mut Mesh,
    tree: &mut Tree,
    marks: &mut [u32],
) -> u32 {
    let [first, second] = boards.map(|(mesh, tree)| BoardRef {
        vertices: &mesh.vertices,
        triangles: &mesh.triangles,
        tree: tree.lent(),
    });
    let areas = TreeAreas {
        node_boxes: &mut tree.node_boxes,
        triangle_boxes: &mut tree.triangle_boxes,
        node_words: &mut tree.node_words,
        order: &mut tree.order,
    };
    let nodes = std::slice::from_mut(&mut tree.nodes);
    calls::merge(
        &first,
        &second,
        &mut mesh.vertices,
        &mut mesh.triangles,
        areas,
        marks,
        nodes,
    )
}

#[inline(always)]
pub fn check(mesh: &Mesh, tree: &Tree, marks: &mut [u32]) -> u32 {
    calls::tree_check(&mesh.vertices, &mesh.triangles, &tree.lent(), marks)
}

#[inline(always)]
pub fn height_field(ray: &Ray, field: &Heights, hit: &mut [f64; 4]) -> u32 {
    let field = HeightField {
        rows: field.rows,
        columns: field.columns,
        spacing: field.spacing,
        heights: &field.heights,
    };
    calls::ray_height_field(ray, &field, hit)
}

#[inline(always)]
pub fn height_ranges(ray: &Ray, ranges: &Ranges, cell: &mut [u32; 1]) -> u32 {
    let ranges = HeightRanges {
        rows: ranges.rows,
        columns: ranges.columns,
        spacing: ranges.spacing,
        lows: &ranges.lows,
        highs: &ranges.highs,
    };
    calls::ray_height_ranges(ray, &ranges, cell)
}

#[inline(always)]
pub fn level_set(ray: &Ray, grid: &Distances, hit: &mut [f64; 4]) -> u32 {
    let grid = LevelSet {
        sides: grid.sides,
        origin: grid.origin,
        spacing: grid.spacing,
        values: &grid.values,
    };
    calls::ray_level_set(ray, &grid, hit)
}
