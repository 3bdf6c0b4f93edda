//! Many drills in one call: a loop of single calls through the same tree is the model, each lent the index that stood at its drill's
//! place. The refusals of the whole call are written out here. The slices of drills and results are a place too short, exact, longer,
//! or of no whole drill; trees and work areas are those of the single drills.

use crate::{
    calls::{Held, run},
    drill::a_radius,
    drill_tree::{TreeDrill, through},
    exact::ray_at,
    lent::Lent,
    library::{self, Fault, Hit, LentTree, only_read, written},
    log::Log,
    other_trees::any_words,
    plain::built_tree,
    run::{Mesh, work_areas},
};
use oracle::{
    answer::{MOST_TRIANGLES, MOST_VERTICES, Ray},
    cases::{self, about, about_tree, filled, filled_floats},
    drill::Drill,
    random::Random,
    tree::FlatTree,
    trees,
};
use probe_rays::{calls, sys};

pub const DRILL_MANY: &str = "many drills";

const SINGLE: &str = "the single drills";
const REFUSALS: &str = "the refusals of the call";

/// Numbers of a drill: origin, direction, maximum, near, radius.
const NUMBERS: usize = 9;

/// A call's inputs.
#[derive(Clone, Debug)]
struct Many<'a> {
    drills: &'a [f64],
    mesh: &'a Mesh,
    tree: &'a FlatTree,
    list: &'a [u32],
    stack: &'a [u32],
    codes: &'a [u32],
    indices: &'a [u32],
}

/// The number that a call answered, and what its slices hold afterwards.
struct Done {
    number: u32,
    list: Vec<u32>,
    stack: Vec<u32>,
    codes: Vec<u32>,
    indices: Vec<u32>,
}

/// At the case's mesh, through the library's tree, another builder's, a damaged one, one of any words, or areas that hold anything.
pub fn compare(log: &mut Log, seed: u64, number: u64, mesh: &Mesh) {
    let random = &mut Random::of_record(seed.rotate_left(16) ^ 0x6472_696c_6c73, number);
    let mut tree = match built_tree(&mesh.vertices, &mesh.indices) {
        None if mesh.indices.len() > 300 => return,
        None => cases::areas(random, mesh.indices.len() / 3),
        Some(built) => match random.below(6) {
            0 => trees::valid(random, &built),
            1 => trees::damaged(random, &built).0,
            2 => any_words(random, &built),
            _ => built,
        },
    };
    if random.once_in(8) {
        about_tree(random, &mut tree);
    }
    some(log, random, mesh, &tree);
}

/// None to five drills and slices of about the stated lengths.
fn some(log: &mut Log, random: &mut Random, mesh: &Mesh, tree: &FlatTree) {
    log.context = "many drills";
    let count = random.below(6);
    let mut drills: Vec<f64> = (0..count).flat_map(|_| a_drill(random, mesh)).collect();
    match random.below(16) {
        0 => drop(drills.pop()),
        1 => drills.extend(filled_floats(random, 1)),
        2 => drills.truncate(random.below(drills.len() + 1)),
        _ => {}
    }
    let [list, stack] = work_areas(random, mesh.indices.len() / 3, tree.node_count);
    let [codes, indices] = [0, 1].map(|_| {
        let length = about(random, count);
        filled(random, length)
    });
    checked(
        log,
        &Many {
            drills: &drills,
            mesh,
            tree,
            list: &list,
            stack: &stack,
            codes: &codes,
            indices: &indices,
        },
    );
}

/// The case's own ray or one at a corner or a side, with a number that no ray has now and then, and a radius.
fn a_drill(random: &mut Random, mesh: &Mesh) -> Vec<f64> {
    let mut ray = if mesh.vertices.len() < 3 || random.once_in(3) {
        mesh.ray
    } else {
        ray_at(random, mesh)
    };
    match random.below(12) {
        0 => ray.origin[random.below(3)] = random.special(),
        1 => ray.direction[random.below(3)] = random.special(),
        2 => ray.maximum = random.special(),
        3 => ray.near = random.special(),
        4 => ray.near = 0.5 * ray.maximum,
        _ => {}
    }
    let mut numbers = library::ray(&ray).numbers().to_vec();
    numbers.push(a_radius(random));
    numbers
}

fn library(call: &Many) -> Result<Done, Fault> {
    let drills = Lent::new(call.drills);
    let vertices = Lent::new(&call.mesh.vertices);
    let triangles = Lent::new(&call.mesh.indices);
    let tree = LentTree::new(call.tree);
    let mut list = Lent::new(call.list);
    let mut stack = Lent::new(call.stack);
    let mut codes = Lent::new(call.codes);
    let mut indices = Lent::new(call.indices);
    let number = calls::drill_many(
        drills.contents(),
        vertices.contents(),
        triangles.contents(),
        &tree.lent(call.tree.node_count),
        list.slice(),
        stack.slice(),
        codes.slice(),
        indices.slice(),
    );
    only_read("the drills", &drills, call.drills)?;
    only_read("the vertices", &vertices, &call.mesh.vertices)?;
    only_read("the triangles", &triangles, &call.mesh.indices)?;
    tree.only_read(call.tree)?;
    Ok(Done {
        number,
        list: written("the list", &list)?,
        stack: written("the stack", &stack)?,
        codes: written("the codes", &codes)?,
        indices: written("the indices", &indices)?,
    })
}

/// What refuses the whole call: 2, then 3.
fn refused(call: &Many) -> Option<u32> {
    let (mesh, n) = (call.mesh, call.mesh.indices.len() / 3);
    let count = call.drills.len() / NUMBERS;
    let triples = |length: usize, most: usize| length.is_multiple_of(3) && length <= 3 * most;
    let admitted = call.drills.len().is_multiple_of(NUMBERS)
        && triples(mesh.vertices.len(), MOST_VERTICES)
        && triples(mesh.indices.len(), MOST_TRIANGLES)
        && call.tree.node_count <= 2 * n;
    if !admitted {
        return Some(2);
    }
    let tree = call.tree;
    let room = tree.node_boxes.len() >= 12 * n
        && tree.triangle_boxes.len() >= 6 * n
        && tree.node_words.len() >= 6 * n
        && tree.order.len() >= n
        && call.list.len() >= n
        && call.stack.len() > tree.node_count
        && call.codes.len() >= count
        && call.indices.len() >= count;
    (!room).then_some(3)
}

/// The single call of one drill.
fn single(call: &Many, drill: usize) -> Result<Hit, Fault> {
    let [x, y, z, dx, dy, dz, maximum, near, radius] =
        std::array::from_fn(|place| call.drills[NUMBERS * drill + place]);
    let ray = Ray {
        origin: [x, y, z],
        direction: [dx, dy, dz],
        maximum,
        near,
    };
    through(&TreeDrill {
        drill: Drill { ray, radius },
        vertices: &call.mesh.vertices,
        indices: &call.mesh.indices,
        tree: call.tree,
        list: call.list,
        stack: call.stack,
        index: &call.indices[drill..drill + 1],
    })
}

fn checked(log: &mut Log, call: &Many) {
    let held = &mut Held {
        log,
        name: DRILL_MANY,
        call,
    };
    let Some(done) = run(held, library(call), |done| done.number) else {
        return;
    };
    let expected = refused(call);
    held.compared(REFUSALS);
    held.number(done.number, expected.unwrap_or(sys::DONE), REFUSALS);
    let (mut codes, mut indices) = (call.codes.to_vec(), call.indices.to_vec());
    if expected.is_some() {
        held.slice("the list", &done.list, call.list);
        held.slice("the stack", &done.stack, call.stack);
    } else {
        for drill in 0..call.drills.len() / NUMBERS {
            match single(call, drill) {
                Ok(one) => {
                    codes[drill] = one.number;
                    indices[drill] = one.index[0];
                    held.log.count(kind(one.number));
                }
                Err(fault) => return held.differs(fault),
            }
            held.compared(SINGLE);
        }
    }
    held.slice("the codes", &done.codes, &codes);
    held.slice("the indices", &done.indices, &indices);
}

fn kind(number: u32) -> &'static str {
    match number {
        sys::HIT => "drills of many that touch",
        sys::NONE => "drills of many that are clear",
        _ => "drills of many that are refused",
    }
}
