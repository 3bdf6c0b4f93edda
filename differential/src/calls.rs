//! Build, tree check, query and mesh cast of the library, each held against the model
//! and, where the Rust has the thing, against the Rust.

use crate::{
    lent::{Word, same_bits},
    library::{self, Build, Cast, Check, Query},
    log::{Log, in_words},
};
use oracle::{
    answer::{self, Answer, agree},
    model::{self, BuildAreas},
    plain,
    tree::{self, FlatTree},
};
use probe_rays::sys;
use std::fmt::Debug;

pub const BUILD: &str = "build";
pub const CHECK: &str = "check";
pub const QUERY: &str = "query";
pub const CAST: &str = "mesh cast";

pub(crate) const MODEL: &str = "the model";
pub(crate) const RUST: &str = "the Rust";
const DEMAND: &str = "demand 3 without a tree";

pub(crate) const SHORT_RESULT: &str = "a result slice is too short";
const REFUSED_1: &str = "1: the Rust's boxes are valid where they are made";
pub(crate) const REFUSED_2: &str = "2: the Rust has no such limit";
pub(crate) const REFUSED_3: &str = "3: the Rust's areas grow";
pub(crate) const NO_END: &str = "5: the Rust's walk has no end";
pub(crate) const NO_LIMIT: &str = "5 by a limit of the walk or the list that the Rust lacks";

/// The floats are the same bits, or both are NaN.
pub fn exact(a: f64, b: f64) -> bool {
    a.to_bits() == b.to_bits() || (a.is_nan() && b.is_nan())
}

fn all_agree(a: &[f64], b: &[f64]) -> bool {
    a.len() == b.len() && a.iter().zip(b).all(|(a, b)| agree(*a, *b))
}

/// One call under comparison.
pub(crate) struct Held<'a> {
    pub log: &'a mut Log,
    pub name: &'static str,
    pub call: &'a dyn Debug,
}

impl Held<'_> {
    pub(crate) fn differs(&mut self, text: String) {
        self.log
            .differs(self.name, text, format!("{:?}", self.call));
    }

    pub(crate) fn number(&mut self, number: u32, expected: u32, by: &str) {
        if number != expected {
            let (number, expected) = (in_words(number), in_words(expected));
            self.differs(format!("answers {number}, {by} {expected}"));
        }
    }

    pub(crate) fn slice<T: Word + Debug>(&mut self, what: &str, holds: &[T], expected: &[T]) {
        if same_bits(holds, expected) {
            return;
        }
        let place = (0..holds.len())
            .find(|&place| holds[place].bits() != expected[place].bits())
            .expect("the lengths are those lent");
        let (is, should) = (&holds[place], &expected[place]);
        let bits = (is.bits(), should.bits());
        self.differs(format!(
            "{what} holds {is:?} at {place}, not {should:?} (bits {:x}, {:x})",
            bits.0, bits.1
        ));
    }

    pub(crate) fn that(&mut self, holds: bool, text: &str) {
        if !holds {
            self.differs(text.to_owned());
        }
    }

    pub(crate) fn compared(&mut self, with: &'static str) {
        self.log.compared(self.name, with);
    }

    pub(crate) fn left_out(&mut self, reason: &'static str) {
        self.log.left_out(self.name, reason);
    }
}

/// Runs a call and counts its answer; none if it wrote where it must not.
pub(crate) fn run<T>(
    held: &mut Held,
    done: Result<T, String>,
    number: impl Fn(&T) -> u32,
) -> Option<T> {
    match done {
        Ok(done) => {
            held.log.answered(held.name, number(&done));
            Some(done)
        }
        Err(fault) => {
            held.differs(fault);
            None
        }
    }
}

/// The tree that the library built, in its areas.
pub fn build(log: &mut Log, call: &Build) -> Option<FlatTree> {
    let held = &mut Held {
        log,
        name: BUILD,
        call,
    };
    let done = run(held, library::build(call), |done| done.number)?;
    let mut areas = call.areas.clone();
    let mut nodes = call.nodes.to_vec();
    let expected = if nodes.is_empty() {
        // 2 goes before a result slice that is too short.
        let admitted = model::mesh_admitted(call.vertices, call.indices);
        Err(if admitted { 3 } else { 2 })
    } else {
        let areas = &mut BuildAreas {
            node_boxes: &mut areas.node_boxes,
            triangle_boxes: &mut areas.triangle_boxes,
            node_words: &mut areas.node_words,
            order: &mut areas.order,
        };
        model::build(call.vertices, call.indices, areas, call.work.len())
    };
    let number = match expected {
        Ok(count) => {
            nodes[0] = count;
            sys::DONE
        }
        Err(number) => number,
    };
    held.compared(MODEL);
    held.number(done.number, number, MODEL);
    held.slice("the node count", &done.nodes, &nodes);
    held.slice("node boxes", &done.areas.node_boxes, &areas.node_boxes);
    held.slice(
        "triangle boxes",
        &done.areas.triangle_boxes,
        &areas.triangle_boxes,
    );
    held.slice("node words", &done.areas.node_words, &areas.node_words);
    held.slice("order", &done.areas.order, &areas.order);
    if matches!(number, 2 | 3) {
        held.slice("the work area", &done.work, call.work);
    }
    build_beside_the_rust(held, call, &done);
    (done.number == sys::DONE).then(|| FlatTree {
        node_count: done.nodes[0],
        ..done.areas
    })
}

fn build_beside_the_rust(held: &mut Held, call: &Build, done: &library::Built) {
    match done.number {
        _ if call.nodes.is_empty() => return held.left_out(SHORT_RESULT),
        2 => return held.left_out(REFUSED_2),
        3 => return held.left_out(REFUSED_3),
        _ => held.compared(RUST),
    }
    let rust = match tree::build(call.vertices, call.indices) {
        Ok(rust) => rust,
        Err(number) => return held.number(done.number, number, RUST),
    };
    held.number(done.number, sys::DONE, RUST);
    if done.number != sys::DONE {
        return;
    }
    let (n, nodes) = (call.indices.len() / 3, done.nodes[0]);
    held.that(nodes == rust.node_count, "other node count than the Rust's");
    if nodes == rust.node_count {
        let areas = &done.areas;
        let boxes = all_agree(&areas.node_boxes[..6 * nodes], &rust.node_boxes);
        held.that(boxes, "other node boxes than the Rust's");
        let boxes = all_agree(&areas.triangle_boxes[..6 * n], &rust.triangle_boxes);
        held.that(boxes, "other triangle boxes than the Rust's");
        let words = areas.node_words[..3 * nodes] == rust.node_words;
        held.that(words, "other node words than the Rust's");
        held.that(
            areas.order[..n] == rust.order,
            "other order than the Rust's",
        );
    }
}

/// The check's answer. `sound` says whether the tree is one for the mesh, where that is
/// known from how it was made.
pub fn check(log: &mut Log, call: &Check, sound: Option<bool>) -> Option<u32> {
    let held = &mut Held {
        log,
        name: CHECK,
        call,
    };
    let done = run(held, library::check(call), |done| done.number)?;
    let lent = call.tree.into();
    let number = match model::tree_check(call.vertices, call.indices, lent, call.marks.len()) {
        model::Check::Yes => sys::YES,
        model::Check::No => sys::NO,
        model::Check::Refused(number) => number,
    };
    held.compared(MODEL);
    held.number(done.number, number, MODEL);
    if number < 256 {
        held.slice("the marks", &done.marks, call.marks);
    } else if let Some(sound) = sound {
        let expected = if sound { sys::YES } else { sys::NO };
        held.number(done.number, expected, "as the tree was made");
    }
    held.left_out("the Rust has no tree check");
    Some(done.number)
}

/// How far the Rust would walk, which has no limit of its own.
pub(crate) struct Walk {
    pub ends: bool,
    pub within_limits: bool,
}

pub(crate) fn rust_walk(tree: &FlatTree, n: usize, bounds: &[f64; 6]) -> Walk {
    let touches = |b: &[f64]| (0..3).all(|k| b[k] <= bounds[k + 3] && bounds[k] <= b[k + 3]);
    let (mut taken, mut listed, mut falls) = (0, 0, false);
    let mut stack = vec![0; usize::from(tree.node_count > 0)];
    let mut ends = true;
    while let Some(node) = stack.pop() {
        taken += 1;
        if taken > 4 * tree.node_count + 16 {
            ends = false;
            break;
        }
        if node >= tree.node_count {
            break;
        }
        if !touches(&tree.node_boxes[6 * node..]) {
            continue;
        }
        let [kind, first, second] = [0, 1, 2].map(|k| tree.node_words[3 * node + k] as usize);
        match kind {
            0 if first + second <= n => {
                for &triangle in &tree.order[first..first + second] {
                    if triangle as usize >= n {
                        stack.clear();
                        break;
                    }
                    let bounds = &tree.triangle_boxes[6 * triangle as usize..];
                    listed += usize::from(touches(bounds));
                }
            }
            1 => {
                falls |= first <= node || second <= node;
                stack.extend([second, first]);
            }
            _ => break,
        }
    }
    Walk {
        ends,
        within_limits: !falls && taken <= tree.node_count && listed <= n,
    }
}

pub fn query(log: &mut Log, call: &Query) {
    let held = &mut Held {
        log,
        name: QUERY,
        call,
    };
    let Some(done) = run(held, library::query(call), |done| done.number) else {
        return;
    };
    let mut list = call.list.to_vec();
    let mut found = call.found.to_vec();
    let expected = if found.is_empty() {
        // 1 and 2 go before a result slice that is too short.
        let stated = model::query(call.tree.into(), call.triangles, call.bounds, &mut [], 0);
        Err(stated.err().filter(|number| *number < 3).unwrap_or(3))
    } else {
        let tree = call.tree.into();
        model::query(
            tree,
            call.triangles,
            call.bounds,
            &mut list,
            call.stack.len(),
        )
    };
    let number = match expected {
        Ok(count) => {
            found[0] = count;
            sys::DONE
        }
        Err(number) => number,
    };
    held.compared(MODEL);
    held.number(done.number, number, MODEL);
    held.slice("the list's length", &done.found, &found);
    held.slice("the list", &done.list, &list);
    if number < 5 {
        held.slice("the stack", &done.stack, call.stack);
    }
    query_beside_the_rust(held, call, &done);
}

fn query_beside_the_rust(held: &mut Held, call: &Query, done: &library::Queried) {
    match done.number {
        _ if call.found.is_empty() => return held.left_out(SHORT_RESULT),
        1 => return held.left_out(REFUSED_1),
        2 => return held.left_out(REFUSED_2),
        3 => return held.left_out(REFUSED_3),
        _ => {}
    }
    let walk = rust_walk(call.tree, call.triangles, &call.bounds);
    if !walk.ends {
        return held.left_out(NO_END);
    }
    let listed = match tree::query(call.tree, call.triangles, call.bounds) {
        Ok(listed) => listed,
        Err(number) => {
            held.compared(RUST);
            return held.number(done.number, number, RUST);
        }
    };
    if !walk.within_limits && done.number == 5 {
        return held.left_out(NO_LIMIT);
    }
    held.compared(RUST);
    held.number(done.number, sys::DONE, RUST);
    if done.number == sys::DONE {
        let same = done.list[..done.found[0].min(done.list.len())] == listed;
        held.that(same, "other list than the Rust's");
    }
}

/// Whether a number and the hit slice say the answer.
pub fn says(number: u32, hit: &[f64], answer: &Answer, same: fn(f64, f64) -> bool) -> bool {
    match answer {
        Answer::None => number == sys::NONE,
        Answer::Refused(refusal) => number == *refusal,
        Answer::Hit {
            normal: [x, y, z],
            distance,
            ..
        } => {
            let values = [x, y, z, distance];
            number == sys::HIT && (0..4).all(|k| same(hit[k], *values[k]))
        }
    }
}

fn index_of(answer: &Answer) -> Option<u32> {
    match answer {
        Answer::Hit { index, .. } => *index,
        _ => None,
    }
}

pub fn cast(log: &mut Log, call: &Cast) {
    let held = &mut Held {
        log,
        name: CAST,
        call,
    };
    let Some(done) = run(held, library::cast(call), |done| done.number) else {
        return;
    };
    let short = call.hit.len() < 4 || call.index.is_empty();
    let (expected, reason) = plain::beside_the_rust(|| {
        // 1 and 2 go before a result slice that is too short.
        let lengths = if short {
            [0; 2]
        } else {
            [call.list.len(), call.stack.len()]
        };
        let cast = model::ray_mesh(
            &call.ray,
            call.vertices,
            call.indices,
            call.pose,
            call.tree.into(),
            lengths[0],
            lengths[1],
        );
        match cast {
            Answer::Refused(1 | 2) => cast,
            _ if short => Answer::Refused(3),
            _ => cast,
        }
    });
    answer_is(held, &done, &expected, exact, MODEL);
    // Only a hit writes its places, and none writes behind them.
    let (values, indices) = if done.number == sys::HIT && !short {
        (4, 1)
    } else {
        (0, 0)
    };
    held.slice("the hit", &done.hit[values..], &call.hit[values..]);
    held.slice("the index", &done.index[indices..], &call.index[indices..]);
    if matches!(expected, Answer::Refused(1..=4)) {
        held.slice("the list", &done.list, call.list);
        held.slice("the stack", &done.stack, call.stack);
    }
    if short {
        held.left_out(SHORT_RESULT);
    } else {
        match reason {
            Some(reason) => held.left_out(reason),
            None => cast_beside_the_rust(held, call, &done),
        }
        cast_beside_demand_3(held, call, &done);
    }
}

pub(crate) fn answer_is(
    held: &mut Held,
    done: &library::Hit,
    expected: &Answer,
    same: fn(f64, f64) -> bool,
    by: &'static str,
) {
    held.compared(by);
    let index = index_of(expected).is_none_or(|index| done.index.first() == Some(&index));
    if !says(done.number, &done.hit, expected, same) || !index {
        let number = in_words(done.number);
        let (hit, index) = (&done.hit, &done.index);
        held.differs(format!(
            "answers {number} with {hit:?} and index {index:?}, {by} {expected:?}"
        ));
    }
}

fn cast_beside_the_rust(held: &mut Held, call: &Cast, done: &library::Hit) {
    match done.number {
        2 => return held.left_out(REFUSED_2),
        3 => return held.left_out(REFUSED_3),
        _ => {}
    }
    let n = call.indices.len() / 3;
    let walk = match tree::segment_box(&call.ray) {
        Some(bounds) if !matches!(done.number, 1 | 4) => rust_walk(call.tree, n, &bounds),
        _ => Walk {
            ends: true,
            within_limits: true,
        },
    };
    if !walk.ends {
        return held.left_out(NO_END);
    }
    let rust = answer::mesh_with_tree(&call.ray, call.vertices, call.indices, call.pose, call.tree);
    if !walk.within_limits && done.number == 5 && rust != Answer::Refused(5) {
        return held.left_out(NO_LIMIT);
    }
    answer_is(held, done, &rust, agree, RUST);
}

fn cast_beside_demand_3(held: &mut Held, call: &Cast, done: &library::Hit) {
    let n = call.indices.len() / 3;
    if matches!(done.number, 1..=4) {
        return held.left_out("demand 3: refused with 1 to 4");
    }
    if !same_bits(call.pose, call.vertices) {
        return held.left_out("demand 3: cast at other vertices than the mesh's");
    }
    let passes = model::tree_check(call.vertices, call.indices, call.tree.into(), 3 * n);
    if passes != model::Check::Yes {
        return held.left_out("demand 3: the tree does not pass the check");
    }
    let expected = model::ray_mesh_without_tree(&call.ray, call.vertices, call.indices);
    answer_is(held, done, &expected, exact, DEMAND);
}
