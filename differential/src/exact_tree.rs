//! The exact cast through trees of every sort: its refusals beside the model; through a tree that passes the check, for a mesh
//! without a NaN, beside the library's own cast without a tree and the model; through any other tree, or at other vertices, that
//! the call ends, and that a hit is the model's of its triangle.

use crate::{
    calls::{Held, MODEL, SHORT_RESULT, answer_is, exact, run},
    exact::exact_cast,
    exact_listing,
    lent::same_bits,
    library::{self, Cast},
    log::Log,
    other_trees::{any_words, one_clause},
    plain::{PlainCast, built_tree},
    run::{Mesh, result, work_areas},
};
use oracle::{
    answer::{Answer, Ray},
    cases::{self, about_tree},
    mesh_exact, model,
    random::Random,
    tree::FlatTree,
    trees,
};
use probe_rays::{calls, sys};

pub const EXACT_TREE: &str = "exact cast through a tree";

const WITHOUT: &str = "the library's cast without a tree";

/// Trees that are cast through at one mesh.
const TREES: usize = 2;

/// The library's tree, another builder's, a damaged one, one that breaks a clause of the check, or one of any words.
pub fn compare(log: &mut Log, random: &mut Random, mesh: &Mesh, rays: &[Ray]) {
    let Some(built) = built_tree(&mesh.vertices, &mesh.indices) else {
        return;
    };
    for ray in rays.iter().cycle().take(TREES) {
        let tree = match random.below(6) {
            0 | 1 => trees::valid(random, &built),
            2 => trees::damaged(random, &built).0,
            3 => one_clause(random, &built).map_or(built.clone(), |(broken, _)| broken),
            4 => any_words(random, &built),
            _ => built.clone(),
        };
        casts(log, random, mesh, tree, ray);
    }
}

/// At the mesh's own vertices, and at vertices of any sort; areas of any length.
fn casts(log: &mut Log, random: &mut Random, mesh: &Mesh, mut tree: FlatTree, ray: &Ray) {
    if random.once_in(8) {
        about_tree(random, &mut tree);
    }
    let pose = cases::pose(random, &mesh.vertices);
    for pose in [&mesh.vertices, &pose] {
        let [list, stack] = work_areas(random, mesh.indices.len() / 3, tree.node_count);
        let call = Cast {
            ray: *ray,
            vertices: &mesh.vertices,
            indices: &mesh.indices,
            pose,
            tree: &tree,
            list: &list,
            stack: &stack,
            hit: &result(random, 4, Random::special),
            index: &result(random, 1, |random| random.bits() as u32),
        };
        cast(log, &Cast { list: &[], ..call });
        exact_listing::compare(log, random, &call);
    }
}

/// The call has no list.
fn through(call: &Cast) -> Result<library::Hit, library::Fault> {
    library::cast_by(
        |ray, vertices, triangles, pose, tree, _, stack, hit, index| {
            calls::ray_mesh_exact(ray, vertices, triangles, pose, tree, stack, hit, index)
        },
        call,
    )
}

fn cast(log: &mut Log, call: &Cast) {
    let held = &mut Held {
        log,
        name: EXACT_TREE,
        call,
    };
    let Some(done) = run(held, through(call), |done| done.number) else {
        return;
    };
    let short = call.hit.len() < 4 || call.index.is_empty();
    let refused = mesh_exact::refused_before_walk(
        &call.ray,
        call.vertices,
        call.indices,
        call.pose,
        call.tree.into(),
        call.stack.len(),
    );
    let refused = match refused {
        None | Some(4) if short => Some(3),
        refused => refused,
    };
    if let Some(number) = refused {
        held.number(done.number, number, MODEL);
        held.slice("the stack", &done.stack, call.stack);
    }
    let written = done.number == sys::HIT;
    let (values, indices) = if written { (4, 1) } else { (0, 0) };
    held.slice("the hit", &done.hit[values..], &call.hit[values..]);
    held.slice("the index", &done.index[indices..], &call.index[indices..]);
    if short {
        return held.left_out(SHORT_RESULT);
    }
    if refused.is_none() {
        after_walk(held, call, &done);
        beside_no_tree(held, call, &done);
    }
}

/// Through any tree and at any vertices: a hit is that of its triangle, 12 has a corner out of range, and nothing but these, 5
/// and none is answered.
fn after_walk(held: &mut Held, call: &Cast, done: &library::Hit) {
    let at = |index| mesh_exact::triangle_at(&call.ray, call.pose, call.indices, index);
    match done.number {
        sys::HIT => match at(done.index[0]) {
            Answer::Hit {
                normal, distance, ..
            } => {
                let index = Some(done.index[0]);
                let found = Answer::Hit {
                    normal,
                    distance,
                    index,
                };
                answer_is(held, done, &found, exact, MODEL);
            }
            other => held.differs(format!("hits a triangle that answers {other:?}")),
        },
        12 => {
            held.compared(MODEL);
            let mut all = 0..call.indices.len() as u32 / 3;
            if !all.any(|index| at(index) == Answer::Refused(12)) {
                held.differs("answers 12, and no corner is out of range".to_owned());
            }
        }
        5 | sys::NONE => {}
        number => held.differs(format!("answers {number} after the walk")),
    }
}

/// Number, hit and index are those of the cast without a tree, to the bit, where the tree passes the check and no corner is NaN.
fn beside_no_tree(held: &mut Held, call: &Cast, done: &library::Hit) {
    if !same_bits(call.pose, call.vertices) {
        return held.left_out("cast at other vertices");
    }
    let marks = call.indices.len();
    let passes = model::tree_check(call.vertices, call.indices, call.tree.into(), marks);
    if passes != model::Check::Yes {
        return held.left_out("the tree does not pass the check");
    }
    if !mesh_exact::mesh_has_numbers(call.vertices, call.indices) {
        return held.left_out("a corner is NaN");
    }
    let without = exact_cast(&PlainCast {
        ray: call.ray,
        vertices: call.vertices,
        indices: call.indices,
        hit: call.hit,
        index: call.index,
    });
    match without {
        Ok(without) => same(held, done, &without),
        Err(fault) => held.differs(fault),
    }
}

fn same(held: &mut Held, done: &library::Hit, without: &library::Hit) {
    held.compared(WITHOUT);
    held.number(done.number, without.number, WITHOUT);
    held.slice("the hit", &done.hit, &without.hit);
    held.slice("the index", &done.index, &without.index);
}

/// A board through the tree that the library builds for it: as `without` a tree.
pub fn board(log: &mut Log, call: &PlainCast, without: &library::Hit) {
    let held = &mut Held {
        log,
        name: EXACT_TREE,
        call,
    };
    let Some(built) = built_tree(call.vertices, call.indices) else {
        return held.differs("no tree is built".to_owned());
    };
    let call = Cast {
        ray: call.ray,
        vertices: call.vertices,
        indices: call.indices,
        pose: call.vertices,
        tree: &built,
        list: &[],
        stack: &vec![0; built.node_count + 1],
        hit: call.hit,
        index: call.index,
    };
    if let Some(done) = run(held, through(&call), |done| done.number) {
        same(held, &done, without);
    }
}
