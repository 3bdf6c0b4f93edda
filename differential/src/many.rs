//! Many rays in one call, by the mesh cast and by the exact cast: a loop of single calls is the model, each lent the four numbers
//! and the index that stood at its ray's places. The refusals of the whole call are written out here. The slices of rays and results
//! are a place too short, exact, longer, or of no whole ray; trees, poses and work areas are those of the single casts.

use crate::{
    calls::{Held, run},
    lent::Lent,
    library::{self, Cast, Fault, LentTree, only_read, written},
    log::Log,
    other_trees::any_words,
    plain::built_tree,
    run::{Mesh, aimed_ray, work_areas},
};
use oracle::{
    answer::{MOST_TRIANGLES, MOST_VERTICES, Ray},
    cases::{self, about, about_tree, filled, filled_floats},
    random::Random,
    tree::FlatTree,
    trees,
};
use probe_rays::{calls, sys};

pub const MANY: &str = "many rays";
pub const EXACT_MANY: &str = "many rays, exactly";

const SINGLE: &str = "the single calls";
const REFUSALS: &str = "the refusals of the call";

/// Which cast.
#[derive(Clone, Copy, Debug, PartialEq)]
enum By {
    Mesh,
    Exact,
}

/// A call's inputs.
#[derive(Clone, Debug)]
struct Many<'a> {
    by: By,
    rays: &'a [f64],
    mesh: &'a Mesh,
    pose: &'a [f64],
    tree: &'a FlatTree,
    list: &'a [u32],
    stack: &'a [u32],
    codes: &'a [u32],
    hits: &'a [f64],
    indices: &'a [u32],
}

/// The number that a call answered, and what its slices hold afterwards.
struct Done {
    number: u32,
    list: Vec<u32>,
    stack: Vec<u32>,
    codes: Vec<u32>,
    hits: Vec<f64>,
    indices: Vec<u32>,
}

/// Calls at the case's mesh, through the library's tree, another builder's, a damaged one or one of any words.
pub fn compare(log: &mut Log, seed: u64, number: u64, mesh: &Mesh) {
    let random = &mut Random::of_record(seed.rotate_left(16) ^ 0x6d61_6e79, number);
    let Some(built) = built_tree(&mesh.vertices, &mesh.indices) else {
        return no_tree(log, random, mesh);
    };
    let mut tree = match random.below(6) {
        0 => trees::valid(random, &built),
        1 => trees::damaged(random, &built).0,
        2 => any_words(random, &built),
        _ => built,
    };
    if random.once_in(8) {
        about_tree(random, &mut tree);
    }
    for by in [By::Mesh, By::Exact] {
        drawn(log, random, by, mesh, &tree);
    }
}

/// A mesh that has no tree is refused, or cast at through areas that hold anything.
fn no_tree(log: &mut Log, random: &mut Random, mesh: &Mesh) {
    if mesh.indices.len() > 300 {
        return;
    }
    let tree = cases::areas(random, mesh.indices.len() / 3);
    drawn(log, random, By::Mesh, mesh, &tree);
}

/// None to five rays and slices of about the stated lengths.
fn drawn(log: &mut Log, random: &mut Random, by: By, mesh: &Mesh, tree: &FlatTree) {
    log.context = "many rays";
    let count = random.below(6);
    let mut rays: Vec<f64> = (0..count)
        .flat_map(|_| library::ray(&a_ray(random, mesh)).numbers())
        .collect();
    match random.below(16) {
        0 => drop(rays.pop()),
        1 => rays.extend(filled_floats(random, 1)),
        2 => rays.truncate(random.below(rays.len() + 1)),
        _ => {}
    }
    let pose = if random.once_in(3) {
        cases::pose(random, &mesh.vertices)
    } else {
        mesh.vertices.clone()
    };
    let [list, stack] = work_areas(random, mesh.indices.len() / 3, tree.node_count);
    let [codes, indices] = [0, 1].map(|_| {
        let length = about(random, count);
        filled(random, length)
    });
    let hits = about(random, 4 * count);
    held(
        log,
        &Many {
            by,
            rays: &rays,
            mesh,
            pose: &pose,
            tree,
            list: &list,
            stack: &stack,
            codes: &codes,
            hits: &filled_floats(random, hits),
            indices: &indices,
        },
    );
}

/// The case's own ray, one at a triangle of the mesh, or one with a number that no ray has.
fn a_ray(random: &mut Random, mesh: &Mesh) -> Ray {
    let mut ray = if mesh.indices.len() < 3 || random.once_in(3) {
        mesh.ray
    } else {
        aimed_ray(random, mesh)
    };
    match random.below(12) {
        0 => ray.origin[random.below(3)] = random.special(),
        1 => ray.direction[random.below(3)] = random.special(),
        2 => ray.maximum = random.special(),
        3 => ray.near = random.special(),
        4 => ray.near = 0.5 * ray.maximum,
        _ => {}
    }
    ray
}

fn library(call: &Many) -> Result<Done, Fault> {
    let rays = Lent::new(call.rays);
    let vertices = Lent::new(&call.mesh.vertices);
    let triangles = Lent::new(&call.mesh.indices);
    let pose = Lent::new(call.pose);
    let tree = LentTree::new(call.tree);
    let mut list = Lent::new(call.list);
    let mut stack = Lent::new(call.stack);
    let mut codes = Lent::new(call.codes);
    let mut hits = Lent::new(call.hits);
    let mut indices = Lent::new(call.indices);
    let lent = &tree.lent(call.tree.node_count);
    let (all, own) = (rays.contents(), vertices.contents());
    let (corners, posed) = (triangles.contents(), pose.contents());
    let (c, h, i) = (codes.slice(), hits.slice(), indices.slice());
    let (l, s) = (list.slice(), stack.slice());
    let number = match call.by {
        By::Mesh => calls::ray_mesh_many(all, own, corners, posed, lent, l, s, c, h, i),
        By::Exact => calls::ray_mesh_exact_many(all, own, corners, posed, lent, s, c, h, i),
    };
    only_read("the rays", &rays, call.rays)?;
    only_read("the vertices", &vertices, &call.mesh.vertices)?;
    only_read("the triangles", &triangles, &call.mesh.indices)?;
    only_read("the pose", &pose, call.pose)?;
    tree.only_read(call.tree)?;
    Ok(Done {
        number,
        list: written("the list", &list)?,
        stack: written("the stack", &stack)?,
        codes: written("the codes", &codes)?,
        hits: written("the hits", &hits)?,
        indices: written("the indices", &indices)?,
    })
}

/// What refuses the whole call: 2, then 3, then 4.
fn refused(call: &Many) -> Option<u32> {
    let (mesh, n, count) = (call.mesh, call.mesh.indices.len() / 3, call.rays.len() / 8);
    let triples = |length: usize, most: usize| length.is_multiple_of(3) && length <= 3 * most;
    let admitted = call.rays.len().is_multiple_of(8)
        && triples(mesh.vertices.len(), MOST_VERTICES)
        && triples(call.pose.len(), MOST_VERTICES)
        && triples(mesh.indices.len(), MOST_TRIANGLES)
        && call.tree.node_count <= 2 * n;
    if !admitted {
        return Some(2);
    }
    let tree = call.tree;
    let room = tree.node_boxes.len() >= 12 * n
        && tree.triangle_boxes.len() >= 6 * n
        && tree.node_words.len() >= 6 * n
        && tree.order.len() >= n
        && (call.by == By::Exact || call.list.len() >= n)
        && call.stack.len() > tree.node_count
        && call.codes.len() >= count
        && call.hits.len() >= 4 * count
        && call.indices.len() >= count;
    if !room {
        return Some(3);
    }
    (call.pose.len() != mesh.vertices.len()).then_some(4)
}

/// The single call of one ray.
fn single(call: &Many, ray: usize) -> Result<library::Hit, Fault> {
    let [x, y, z, dx, dy, dz, maximum, near] =
        std::array::from_fn(|place| call.rays[8 * ray + place]);
    let cast = Cast {
        ray: Ray {
            origin: [x, y, z],
            direction: [dx, dy, dz],
            maximum,
            near,
        },
        vertices: &call.mesh.vertices,
        indices: &call.mesh.indices,
        pose: call.pose,
        tree: call.tree,
        list: call.list,
        stack: call.stack,
        hit: &call.hits[4 * ray..4 * ray + 4],
        index: &call.indices[ray..ray + 1],
    };
    match call.by {
        By::Mesh => library::cast(&cast),
        By::Exact => library::cast_by(
            |ray, vertices, triangles, pose, tree, _, stack, hit, index| {
                calls::ray_mesh_exact(ray, vertices, triangles, pose, tree, stack, hit, index)
            },
            &cast,
        ),
    }
}

fn held(log: &mut Log, call: &Many) {
    let name = match call.by {
        By::Mesh => MANY,
        By::Exact => EXACT_MANY,
    };
    let held = &mut Held { log, name, call };
    let Some(done) = run(held, library(call), |done| done.number) else {
        return;
    };
    let expected = refused(call);
    held.compared(REFUSALS);
    held.number(done.number, expected.unwrap_or(sys::DONE), REFUSALS);
    let (mut codes, mut hits) = (call.codes.to_vec(), call.hits.to_vec());
    let mut indices = call.indices.to_vec();
    if expected.is_some() {
        held.slice("the list", &done.list, call.list);
        held.slice("the stack", &done.stack, call.stack);
    } else {
        for ray in 0..call.rays.len() / 8 {
            match single(call, ray) {
                Ok(one) => {
                    codes[ray] = one.number;
                    hits[4 * ray..4 * ray + 4].copy_from_slice(&one.hit);
                    indices[ray] = one.index[0];
                    held.log.count(kind(one.number));
                }
                Err(fault) => return held.differs(fault),
            }
            held.compared(SINGLE);
        }
    }
    held.slice("the codes", &done.codes, &codes);
    held.slice("the hits", &done.hits, &hits);
    held.slice("the indices", &done.indices, &indices);
}

fn kind(number: u32) -> &'static str {
    match number {
        sys::HIT => "rays of many that hit",
        sys::NONE => "rays of many that meet nothing",
        _ => "rays of many that are refused",
    }
}
