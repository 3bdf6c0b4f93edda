//! Inputs for a differential run of build, query, tree check and mesh cast over lent
//! areas: any mesh, ray, tree and area lengths.

use crate::{
    answer::{MOST_TRIANGLES, MOST_VERTICES, Ray},
    generate,
    random::Random,
    record::Shape,
    tree::{self, FlatTree},
    trees,
};

/// One input of all four calls. Areas hold more than zeros where a call must leave
/// them unchanged; a driver copies them for each call.
#[derive(Clone, Debug)]
pub struct Case {
    pub ray: Ray,
    pub vertices: Vec<f64>,
    pub indices: Vec<u32>,
    /// The vertices to cast at.
    pub cast_vertices: Vec<f64>,
    /// The tree for query, check and cast.
    pub tree: FlatTree,
    /// The triangle count and the box for the query.
    pub query_triangles: usize,
    pub query_box: [f64; 6],
    pub list: Vec<u32>,
    pub stack: Vec<u32>,
    pub marks: Vec<u32>,
    /// The areas for the build.
    pub build: FlatTree,
    pub work: Vec<u32>,
}

pub fn filled(random: &mut Random, length: usize) -> Vec<u32> {
    (0..length).map(|_| random.bits() as u32).collect()
}

pub fn filled_floats(random: &mut Random, length: usize) -> Vec<f64> {
    (0..length).map(|_| random.special()).collect()
}

/// A stated length, at times one or more too short or too long.
pub fn about(random: &mut Random, stated: usize) -> usize {
    match random.below(40) {
        0 => stated.saturating_sub(1),
        1 => random.below(stated + 1),
        2..12 => stated + random.below(4),
        _ => stated,
    }
}

/// The mesh of a record, at times with more triangles than a record holds, ragged,
/// or above what is admitted.
pub fn mesh(random: &mut Random, seed: u64, number: u64) -> (Ray, Vec<f64>, Vec<u32>) {
    let record = generate::record(seed, number, &[3]);
    let Shape::Mesh {
        mut vertices,
        mut indices,
    } = record.shape
    else {
        unreachable!("only meshes were asked for")
    };
    match random.below(200) {
        0..4 => {
            let more = random.within(61, 600) as usize;
            vertices = (0..9 * more).map(|_| random.coordinate()).collect();
            indices = (0..3 * more as u32).collect();
        }
        4 => drop(vertices.pop()),
        5 => drop(indices.pop()),
        6 if random.once_in(10) => vertices.resize(3 * (MOST_VERTICES + 1), 0.0),
        7 if random.once_in(10) => indices.resize(3 * (MOST_TRIANGLES + 1), 0),
        _ => {}
    }
    (record.ray, vertices, indices)
}

/// A tree for the mesh: the Rust's, another valid one, a damaged one, or none at all.
fn tree_for(random: &mut Random, vertices: &[f64], indices: &[u32]) -> FlatTree {
    let n = indices.len() / 3;
    let Ok(built) = tree::build(vertices, indices) else {
        let node_count = random.below(2 * n + 2);
        let mut areas = areas(random, n);
        areas.node_count = node_count;
        return areas;
    };
    match random.below(4) {
        0 => built.padded(n),
        1 | 2 => trees::valid(random, &built),
        _ => {
            let sound = trees::valid(random, &built);
            trees::damaged(random, &sound).0
        }
    }
}

/// Areas of the stated lengths for `n` triangles that hold anything.
pub fn areas(random: &mut Random, n: usize) -> FlatTree {
    FlatTree {
        node_boxes: filled_floats(random, 12 * n),
        triangle_boxes: filled_floats(random, 6 * n),
        node_words: filled(random, 6 * n),
        order: filled(random, n),
        node_count: 0,
    }
}

/// Cuts or lengthens the areas of a tree a little.
pub fn about_tree(random: &mut Random, tree: &mut FlatTree) {
    let float = random.special();
    tree.node_boxes
        .resize(about(random, tree.node_boxes.len()), float);
    tree.triangle_boxes
        .resize(about(random, tree.triangle_boxes.len()), float);
    tree.node_words
        .resize(about(random, tree.node_words.len()), 7);
    tree.order.resize(about(random, tree.order.len()), 7);
}

pub fn pose(random: &mut Random, vertices: &[f64]) -> Vec<f64> {
    let mut posed = vertices.to_vec();
    match random.below(12) {
        0 if !posed.is_empty() => {
            let place = random.below(posed.len());
            posed[place] = random.special();
        }
        1 => posed.iter_mut().for_each(|x| *x += 0.25),
        2 => posed.extend([0.0; 3]),
        3 => posed.truncate(posed.len().saturating_sub(3)),
        4 => drop(posed.pop()),
        _ => {}
    }
    posed
}

/// A box to query: the ray's segment's, any other, or one that is not valid.
fn query_box(random: &mut Random, ray: &Ray) -> [f64; 6] {
    let mut sides = [0.0; 6];
    for k in 0..3 {
        let (a, b) = (random.coordinate(), random.coordinate());
        (sides[k], sides[k + 3]) = (a.min(b), a.max(b));
    }
    if random.once_in(2) {
        sides = tree::segment_box(ray).unwrap_or(sides);
    }
    if random.once_in(16) {
        sides[random.below(6)] = random.special();
    }
    sides
}

/// Case `number` of the run `seed`.
pub fn case(seed: u64, number: u64) -> Case {
    let random = &mut Random::of_record(!seed, number);
    let (ray, vertices, indices) = mesh(random, seed, number);
    of_mesh(random, ray, vertices, indices)
}

/// A case for a ray and a mesh.
pub fn of_mesh(random: &mut Random, ray: Ray, vertices: Vec<f64>, indices: Vec<u32>) -> Case {
    let n = indices.len() / 3;
    let mut tree = tree_for(random, &vertices, &indices);
    let stack = about(random, tree.node_count.min(2 * n) + 1);
    let (list, marks, work) = (about(random, n), about(random, 3 * n), about(random, n));
    let mut build = areas(random, n);
    if random.once_in(2) {
        about_tree(random, &mut tree);
    }
    if random.once_in(2) {
        about_tree(random, &mut build);
    }
    Case {
        ray,
        cast_vertices: pose(random, &vertices),
        query_triangles: if random.once_in(30) {
            random.below(2 * n + 2)
        } else {
            n
        },
        query_box: query_box(random, &ray),
        list: filled(random, list),
        stack: filled(random, stack),
        marks: filled(random, marks),
        work: filled(random, work),
        vertices,
        indices,
        tree,
        build,
    }
}
