//! The drill through trees of every sort: its refusals beside the model; through a tree that passes the check, for a mesh without a
//! NaN, beside the library's own drill without a tree; through any other tree, that the call ends, and that a triangle it names is
//! touched.

use crate::{
    calls::{Held, MODEL, SHORT_RESULT, run},
    drill::{PlainDrill, answer_is, plain_drill},
    lent::Lent,
    library::{self, Fault, Hit, LentTree, only_read, written},
    log::Log,
    other_trees::{any_words, one_clause},
    plain::built_tree,
    run::{Mesh, result, work_areas},
};
use oracle::{
    cases::about_tree,
    drill::{self, Answer, Drill},
    mesh_exact, model,
    random::Random,
    tree::FlatTree,
    trees,
};
use probe_rays::{calls, sys};

pub const DRILL_TREE: &str = "drill through a tree";

const WITHOUT: &str = "the library's drill without a tree";

/// Trees that are drilled through at one mesh.
const TREES: usize = 2;

#[derive(Clone, Copy, Debug)]
pub struct TreeDrill<'a> {
    pub drill: Drill,
    pub vertices: &'a [f64],
    pub indices: &'a [u32],
    pub tree: &'a FlatTree,
    pub list: &'a [u32],
    pub stack: &'a [u32],
    pub index: &'a [u32],
}

pub(crate) fn through(call: &TreeDrill) -> Result<Hit, Fault> {
    let vertices = Lent::new(call.vertices);
    let indices = Lent::new(call.indices);
    let tree = LentTree::new(call.tree);
    let mut list = Lent::new(call.list);
    let mut stack = Lent::new(call.stack);
    let mut index = Lent::new(call.index);
    let number = calls::drill(
        &library::ray(&call.drill.ray),
        call.drill.radius,
        vertices.contents(),
        indices.contents(),
        &tree.lent(call.tree.node_count),
        list.slice(),
        stack.slice(),
        index.slice(),
    );
    only_read("the vertices", &vertices, call.vertices)?;
    only_read("the triangles", &indices, call.indices)?;
    tree.only_read(call.tree)?;
    Ok(Hit {
        number,
        list: written("the list", &list)?,
        stack: written("the stack", &stack)?,
        hit: Vec::new(),
        index: written("the index", &index)?,
    })
}

/// The library's tree, another builder's, a damaged one, one that breaks a clause of the check, or one of any words.
pub fn compare(log: &mut Log, random: &mut Random, mesh: &Mesh, drills: &[Drill]) {
    let Some(built) = built_tree(&mesh.vertices, &mesh.indices) else {
        return;
    };
    for &drill in drills.iter().cycle().take(TREES) {
        let mut tree = match random.below(6) {
            0 | 1 => trees::valid(random, &built),
            2 => trees::damaged(random, &built).0,
            3 => one_clause(random, &built).map_or(built.clone(), |(broken, _)| broken),
            4 => any_words(random, &built),
            _ => built.clone(),
        };
        if random.once_in(8) {
            about_tree(random, &mut tree);
        }
        let [list, stack] = work_areas(random, mesh.indices.len() / 3, tree.node_count);
        checked(
            log,
            &TreeDrill {
                drill,
                vertices: &mesh.vertices,
                indices: &mesh.indices,
                tree: &tree,
                list: &list,
                stack: &stack,
                index: &result(random, 1, |random| random.bits() as u32),
            },
        );
    }
}

fn checked(log: &mut Log, call: &TreeDrill) {
    let held = &mut Held {
        log,
        name: DRILL_TREE,
        call,
    };
    let Some(done) = run(held, through(call), |done| done.number) else {
        return;
    };
    let short = call.index.is_empty();
    let refused = drill::refused_before_walk(
        &call.drill,
        call.vertices,
        call.indices,
        call.tree.into(),
        call.list.len(),
        call.stack.len(),
    );
    let refused = match refused {
        None if short => Some(3),
        refused => refused,
    };
    if let Some(number) = refused {
        held.compared(MODEL);
        held.number(done.number, number, MODEL);
        held.slice("the list", &done.list, call.list);
        held.slice("the stack", &done.stack, call.stack);
    }
    let written = usize::from(done.number == sys::HIT && !short);
    held.slice("the index", &done.index[written..], &call.index[written..]);
    if short {
        return held.left_out(SHORT_RESULT);
    }
    if refused.is_none() {
        after_walk(held, call, &done);
        beside_no_tree(held, call, &done);
    }
}

/// Through any tree: a triangle that is named is touched, 12 has a corner out of range, and nothing but these, 5 and none is
/// answered.
fn after_walk(held: &mut Held, call: &TreeDrill, done: &Hit) {
    let at = |index| drill::triangle_at(&call.drill, call.vertices, call.indices, index);
    match done.number {
        sys::HIT => {
            let named = done.index[0];
            answer_is(held, done, at(named), MODEL);
        }
        12 => {
            held.compared(MODEL);
            let mut all = 0..call.indices.len() as u32 / 3;
            if !all.any(|index| at(index) == Answer::Refused(12)) {
                held.differs("answers 12, and no corner is out of range".to_owned());
            }
        }
        5 | sys::NONE => {}
        number => held.differs(format!("answers {number} after the walk")),
    }
}

/// Number and index are those of the drill without a tree where the tree passes the check and no corner is NaN.
fn beside_no_tree(held: &mut Held, call: &TreeDrill, done: &Hit) {
    let marks = call.indices.len();
    let passes = model::tree_check(call.vertices, call.indices, call.tree.into(), marks);
    if passes != model::Check::Yes {
        return held.left_out("the tree does not pass the check");
    }
    if !mesh_exact::mesh_has_numbers(call.vertices, call.indices) {
        return held.left_out("a corner is NaN");
    }
    let without = plain_drill(&PlainDrill {
        drill: call.drill,
        vertices: call.vertices,
        indices: call.indices,
        index: call.index,
    });
    match without {
        Ok(without) => same(held, done, &without),
        Err(fault) => held.differs(fault),
    }
}

fn same(held: &mut Held, done: &Hit, without: &Hit) {
    held.compared(WITHOUT);
    held.number(done.number, without.number, WITHOUT);
    held.slice("the index", &done.index, &without.index);
}

/// A board through the tree that the library builds for it: as `without` a tree.
pub fn board(log: &mut Log, call: &PlainDrill, without: &Hit) {
    let held = &mut Held {
        log,
        name: DRILL_TREE,
        call,
    };
    let Some(tree) = built_tree(call.vertices, call.indices) else {
        return held.differs("no tree is built".to_owned());
    };
    let n = call.indices.len() / 3;
    let done = through(&TreeDrill {
        drill: call.drill,
        vertices: call.vertices,
        indices: call.indices,
        tree: &tree,
        list: &vec![0; n],
        stack: &vec![0; tree.node_count + 1],
        index: call.index,
    });
    if let Some(done) = run(held, done, |done| done.number) {
        same(held, &done, without);
    }
}
