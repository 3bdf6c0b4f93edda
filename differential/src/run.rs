//! One case: a mesh and a ray, and from these the inputs of all calls. The inputs follow
//! from the seed, the number and the mesh, so that a case can be run again with fewer
//! triangles.

use crate::{
    calls, drill, drill_many, exact,
    library::{Build, Cast, Check, Query},
    listing,
    log::Log,
    many, merge,
    other_trees::{any_words, one_clause},
    panel, plain, ranges, shapes, slices,
};
use oracle::{
    answer::{self, Answer, Constructed, MOST_TRIANGLES, MOST_VERTICES, Ray},
    cases::{self, about, about_tree, filled},
    generate::{self, ray_to},
    model, plain as plainly,
    random::Random,
    tree::FlatTree,
    trees,
};

#[derive(Clone, Debug)]
pub struct Mesh {
    pub ray: Ray,
    pub vertices: Vec<f64>,
    pub indices: Vec<u32>,
}

/// The mesh of case `number` of the run `seed`: now and then a larger one, or one with
/// exactly as many vertices as are admitted.
pub fn mesh_of(seed: u64, number: u64) -> Mesh {
    let random = &mut Random::of_record(!seed, number);
    let (ray, mut vertices, mut indices) = cases::mesh(random, seed, number);
    if indices.len() > 3 * MOST_TRIANGLES && !random.once_in(8) {
        // Their trees take long to make, and refusal 2 needs few of them.
        indices.truncate(3);
    }
    match number % 2_000 {
        999 => (vertices, indices) = large(random),
        1_999 => {
            let length = random.pick(&[3 * MOST_VERTICES, 3 * MOST_VERTICES - 3]);
            vertices.resize(length.max(vertices.len()), 1.0);
        }
        _ => {}
    }
    Mesh {
        ray,
        vertices,
        indices,
    }
}

/// A panel of some thousand triangles, at times shuffled or damaged in one place.
fn large(random: &mut Random) -> (Vec<f64>, Vec<u32>) {
    let (columns, rows) = (
        random.within(20, 60) as usize,
        random.within(20, 50) as usize,
    );
    let bump = random.pick(&[0.0, 0.5, 4.0, 1e160]);
    let (mut vertices, mut indices) =
        panel::panel(columns, rows, |_, _| bump * random.coordinate());
    if random.once_in(2) {
        indices = panel::shuffled(random, &indices);
    }
    if random.once_in(4) {
        let place = random.below(vertices.len());
        vertices[place] = random.special();
    }
    if random.once_in(8) {
        let place = random.below(indices.len());
        indices[place] = vertices.len() as u32 / 3;
    }
    (vertices, indices)
}

/// All comparisons of one case.
pub fn compare(log: &mut Log, seed: u64, number: u64, mesh: &Mesh) {
    let random = &mut Random::of_record(seed.rotate_left(32) ^ 0x7472_6565, number);
    count_constructed(log, mesh);
    as_drawn(log, random, mesh);
    if let Some(built) = built_tree(log, random, mesh) {
        log.context = "the library's tree";
        with_tree(log, random, mesh, &built, Some(true));
        log.context = "another builder's tree";
        let other = trees::valid(random, &built);
        with_tree(log, random, mesh, &other, Some(true));
        let sound = if random.once_in(2) { &built } else { &other };
        let (damaged, damage) = trees::damaged(random, sound);
        log.context = damage;
        if let Some(number) = with_tree(log, random, mesh, &damaged, None) {
            log.verdict(damage, number);
        }
        if let Some((broken, clause)) = one_clause(random, &other) {
            log.context = clause;
            if let Some(number) = with_tree(log, random, mesh, &broken, Some(false)) {
                log.verdict(clause, number);
            }
        }
        log.context = "a tree of any words";
        let any = any_words(random, &built);
        with_tree(log, random, mesh, &any, None);
        log.context = "a tree of another mesh";
        let another = changed(random, mesh);
        with_tree(log, random, &another, sound, None);
    }
    shapes::compare(log, random, seed, number);
    slices::compare(log, seed, number);
    plain::compare(log, seed, number, mesh);
    exact::compare(log, seed, number, mesh);
    drill::compare(log, seed, number, mesh);
    ranges::compare(log, random, seed, number);
    merge::compare(log, seed, number, mesh);
    many::compare(log, seed, number, mesh);
    drill_many::compare(log, seed, number, mesh);
}

fn count_constructed(log: &mut Log, mesh: &Mesh) {
    if mesh.vertices.len().is_multiple_of(3) && mesh.indices.len().is_multiple_of(3) {
        log.count(
            match answer::mesh_constructed(&mesh.vertices, &mesh.indices) {
                Constructed::Kept => "meshes that the Rust's own constructor admits",
                _ => "meshes that the Rust's own constructor refuses, made past it",
            },
        );
    }
}

/// A result slice of `places` places: now and then too short, or longer.
pub(crate) fn result<T>(random: &mut Random, places: usize, value: fn(&mut Random) -> T) -> Vec<T> {
    let length = match random.below(24) {
        0 => random.below(places),
        1..5 => places + random.within(1, 3) as usize,
        _ => places,
    };
    (0..length).map(|_| value(random)).collect()
}

pub(crate) fn places(random: &mut Random) -> Vec<usize> {
    result(random, 1, |random| random.bits() as usize)
}

/// The four calls on areas of any length and a tree of any sort.
fn as_drawn(log: &mut Log, random: &mut Random, mesh: &Mesh) {
    let (vertices, indices) = (mesh.vertices.clone(), mesh.indices.clone());
    let case = cases::of_mesh(random, mesh.ray, vertices, indices);
    log.context = "as drawn";
    let build = Build {
        vertices: &case.vertices,
        indices: &case.indices,
        areas: &case.build,
        work: &case.work,
        nodes: &places(random),
    };
    calls::build(log, &build);
    let check = Check {
        vertices: &case.vertices,
        indices: &case.indices,
        tree: &case.tree,
        marks: &case.marks,
    };
    calls::check(log, &check, None);
    query_and_cast_as_drawn(log, random, &case);
}

fn query_and_cast_as_drawn(log: &mut Log, random: &mut Random, case: &cases::Case) {
    let (triangles, tree) = sizes(random, case);
    let query = Query {
        bounds: case.query_box,
        triangles,
        tree: &tree,
        list: &case.list,
        stack: &case.stack,
        found: &places(random),
    };
    calls::query(log, &query);
    let cast = Cast {
        ray: case.ray,
        vertices: &case.vertices,
        indices: &case.indices,
        pose: &case.cast_vertices,
        tree: &case.tree,
        list: &case.list,
        stack: &case.stack,
        hit: &result(random, 4, Random::special),
        index: &result(random, 1, |random| random.bits() as u32),
    };
    calls::cast(log, &cast);
    listing::listing(log, random, &cast);
}

/// The triangle and node counts of a query, now and then at the ends of what is admitted.
fn sizes(random: &mut Random, case: &cases::Case) -> (usize, FlatTree) {
    let mut tree = case.tree.clone();
    let mut triangles = case.query_triangles;
    if random.once_in(40) {
        let ends = [MOST_TRIANGLES, MOST_TRIANGLES + 1, 1 << 63, usize::MAX];
        triangles = random.pick(&ends);
        tree.node_count = random.pick(&[0, tree.node_count, 2 * MOST_TRIANGLES, usize::MAX]);
    }
    (triangles, tree)
}

/// The mesh with one coordinate or one index changed.
pub(crate) fn changed(random: &mut Random, mesh: &Mesh) -> Mesh {
    let mut other = mesh.clone();
    let place = random.below(other.vertices.len());
    match random.below(4) {
        0 => other.vertices[place] = random.nudged(other.vertices[place]),
        1 => other.vertices[place] = random.special(),
        2 => other.vertices[place] += 0.5,
        _ => {
            let index = random.below(other.indices.len());
            other.indices[index] = random.below(other.vertices.len() / 3 + 1) as u32;
        }
    }
    other
}

/// The tree that the library builds in areas of the stated lengths.
fn built_tree(log: &mut Log, random: &mut Random, mesh: &Mesh) -> Option<FlatTree> {
    log.context = "areas of the stated lengths";
    let n = mesh.indices.len() / 3;
    let build = Build {
        vertices: &mesh.vertices,
        indices: &mesh.indices,
        areas: &cases::areas(random, n),
        work: &filled(random, n),
        nodes: &[random.bits() as usize],
    };
    calls::build(log, &build)
}

/// Check, query and casts with a tree; the check's answer. `sound` says whether the tree
/// is one for the mesh, where that is known from how it was made.
fn with_tree(
    log: &mut Log,
    random: &mut Random,
    mesh: &Mesh,
    tree: &FlatTree,
    sound: Option<bool>,
) -> Option<u32> {
    let n = mesh.indices.len() / 3;
    let bounds = query_box(random, tree, n);
    let mut lent = tree.clone();
    if random.once_in(4) {
        about_tree(random, &mut lent);
    }
    let marks = about(random, 3 * n);
    let check = Check {
        vertices: &mesh.vertices,
        indices: &mesh.indices,
        tree: &lent,
        marks: &filled(random, marks),
    };
    let answer = calls::check(log, &check, sound);
    let [list, stack] = work_areas(random, n, lent.node_count);
    let query = Query {
        bounds,
        triangles: n,
        tree: &lent,
        list: &list,
        stack: &stack,
        found: &places(random),
    };
    calls::query(log, &query);
    casts(log, random, mesh, &lent);
    answer
}

/// The mesh's ray at its own vertices, and another ray at vertices of any sort.
fn casts(log: &mut Log, random: &mut Random, mesh: &Mesh, tree: &FlatTree) {
    let n = mesh.indices.len() / 3;
    let pose = cases::pose(random, &mesh.vertices);
    let aimed = aimed_ray(random, mesh);
    for (mut ray, pose) in [(mesh.ray, &mesh.vertices), (aimed, &pose)] {
        let [list, stack] = work_areas(random, n, tree.node_count);
        if random.once_in(3) {
            ray.near = near_to(random, &ray, pose, &mesh.indices);
        }
        let cast = Cast {
            ray,
            vertices: &mesh.vertices,
            indices: &mesh.indices,
            pose,
            tree,
            list: &list,
            stack: &stack,
            hit: &result(random, 4, Random::special),
            index: &result(random, 1, |random| random.bits() as u32),
        };
        calls::cast(log, &cast);
        listing::listing(log, random, &cast);
    }
}

/// A near distance about that of some triangle, or any other.
pub fn near_to(random: &mut Random, ray: &Ray, pose: &[f64], indices: &[u32]) -> f64 {
    let triangle = random.below(indices.len() / 3);
    let hit = match model::corners(pose, indices, triangle)
        .map(|corners| plainly::triangle(ray, corners))
    {
        Some(Answer::Hit { distance, .. }) => Some(distance),
        _ => None,
    };
    generate::near(random, ray.maximum, hit)
}

/// A list and a stack that hold anything.
pub(crate) fn work_areas(random: &mut Random, n: usize, nodes: usize) -> [Vec<u32>; 2] {
    let lengths = [about(random, n), about(random, nodes.min(2 * n) + 1)];
    lengths.map(|length| filled(random, length))
}

/// A box that meets one of the tree's boxes exactly, is a step off, or is any other.
fn query_box(random: &mut Random, tree: &FlatTree, n: usize) -> [f64; 6] {
    let (boxes, count) = if random.once_in(2) {
        (&tree.triangle_boxes, n)
    } else {
        (&tree.node_boxes, tree.node_count.clamp(1, 2 * n))
    };
    let place = 6 * random.below(count);
    let met: [f64; 6] = boxes[place..place + 6].try_into().expect("six sides");
    let (mut bounds, axis) = (met, random.below(3));
    let (low, high) = (met[axis], met[axis + 3]);
    let mut set = |min, max| (bounds[axis], bounds[axis + 3]) = (min, max);
    match random.below(12) {
        0..3 => set(high, high + 1.0),
        3..6 => set(low - 1.0, low),
        6 => set(high.next_up(), high.next_up() + 1.0),
        7 => set(low.next_down() - 1.0, low.next_down()),
        8 => bounds = a_corner(random, met),
        9 => bounds = [0, 1, 2, 3, 4, 5].map(|k| [-f64::MAX, f64::MAX][k / 3]),
        10 => crossed(random, &mut bounds),
        _ => {}
    }
    bounds
}

/// One of the eight corners.
fn a_corner(random: &mut Random, met: [f64; 6]) -> [f64; 6] {
    let [x, y, z] = [0, 1, 2].map(|k| met[k + 3 * random.below(2)]);
    [x, y, z, x, y, z]
}

/// One side is any float, or passes the other by a step.
fn crossed(random: &mut Random, bounds: &mut [f64; 6]) {
    let place = random.below(6);
    bounds[place] = match random.below(3) {
        0 => random.special(),
        _ if place < 3 => bounds[place + 3].next_up(),
        _ => bounds[place - 3].next_down(),
    };
}

/// A ray at a corner or an edge of some triangle, or between them.
pub(crate) fn aimed_ray(random: &mut Random, mesh: &Mesh) -> Ray {
    let triangle = random.below(mesh.indices.len() / 3);
    let corner = |k: usize| {
        let vertex = 3 * mesh.indices[3 * triangle + k] as usize;
        mesh.vertices.get(vertex..vertex + 3).unwrap_or(&[0.0; 3])
    };
    let parts = [
        [1.0, 0.0, 0.0],
        [0.0, 0.5, 0.5],
        [0.5, 0.0, 0.5],
        [0.5, 0.25, 0.25],
        [0.25, 0.25, 0.5],
    ];
    let parts = random.pick(&parts);
    let target = [0, 1, 2].map(|axis| (0..3).map(|k| parts[k] * corner(k)[axis]).sum::<f64>());
    ray_to(random, target, 1.0)
}

/// A large mesh is not shrunk for longer than this.
const MOST_TRIES: usize = 1_000;

/// The mesh with as few triangles as still give a difference in the same call.
pub fn shrunk(seed: u64, number: u64, mesh: &Mesh, call: &str) -> Mesh {
    let differs = |mesh: &Mesh| {
        let mut log = Log::default();
        compare(&mut log, seed, number, mesh);
        log.differences.iter().any(|found| found.call == call)
    };
    let mut mesh = mesh.clone();
    let (mut run, mut tries) = ((mesh.indices.len() / 3).div_ceil(2), 0);
    while run > 0 && tries < MOST_TRIES {
        let mut start = 0;
        while 3 * start < mesh.indices.len() {
            let mut fewer = mesh.clone();
            let end = (3 * (start + run)).min(fewer.indices.len());
            fewer.indices.drain(3 * start..end);
            tries += 1;
            if differs(&fewer) {
                mesh = fewer;
            } else {
                start += run;
            }
        }
        run /= 2;
    }
    mesh
}
