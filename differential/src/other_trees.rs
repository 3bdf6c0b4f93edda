//! Trees besides the sound and the damaged ones of `oracle::trees`: those that break one
//! clause of the check alone, and those of any words.

use oracle::{random::Random, tree::FlatTree};

/// A tree whose words are drawn, most of them within their limits, so that nodes and
/// order places are met more than once, or never, and walks meet their limits.
pub fn any_words(random: &mut Random, built: &FlatTree) -> FlatTree {
    let n = built.order.len();
    let mut tree = built.clone();
    tree.node_count = random.below(2 * n + 1);
    let far = random.once_in(8);
    for node in 0..tree.node_count {
        let from = random.below(built.node_count);
        let place = if random.once_in(4) { 6 * from } else { 0 };
        tree.node_boxes[6 * node..6 * node + 6]
            .copy_from_slice(&built.node_boxes[place..place + 6]);
        let child = |random: &mut Random| {
            let child = node as i64 + random.within(if far { -1 } else { 1 }, 3);
            child.max(0) as u32
        };
        let words = match random.below(40) {
            0 => [2, 0, 0],
            1..22 => [1, child(random), child(random)],
            _ => {
                let start = random.below(n);
                [0, start as u32, random.below((n - start).min(5) + 1) as u32]
            }
        };
        tree.node_words[3 * node..3 * node + 3].copy_from_slice(&words);
    }
    let limit = if far { n + 1 } else { n };
    tree.order.fill_with(|| random.below(limit) as u32);
    tree
}

const CLAUSES: [&str; 6] = [
    "one clause: a leaf is empty",
    "one clause: an order place lies in two leaves",
    "one clause: a node is named twice",
    "one clause: a triangle stands twice in the order",
    "one clause: a triangle box is a step too small",
    "one clause: the root's box is not finite",
];

/// The sound tree with every node box as large as the root's, and then one clause of the
/// check broken and no other, with the clause's name; none if it finds no place.
pub fn one_clause(random: &mut Random, sound: &FlatTree) -> Option<(FlatTree, &'static str)> {
    let mut tree = sound.clone();
    for node in 0..2 * tree.order.len() {
        tree.node_boxes.copy_within(..6, 6 * node);
    }
    let node = random.below(tree.node_count);
    let drawn = random.below(6);
    let broken = match drawn {
        0 => empty_leaf(&mut tree, node),
        1 => moved_leaf(&mut tree, node),
        2 => renamed(random, &mut tree, node),
        3 => doubled(random, &mut tree),
        4 => smaller(random, &mut tree),
        _ => infinite(random, &mut tree),
    };
    broken.then_some((tree, CLAUSES[drawn]))
}

fn words(tree: &FlatTree, node: usize) -> [u32; 3] {
    [0, 1, 2].map(|k| tree.node_words[3 * node + k])
}

fn set_words(tree: &mut FlatTree, node: usize, words: [u32; 3]) {
    tree.node_words[3 * node..3 * node + 3].copy_from_slice(&words);
}

/// A leaf becomes a branch of itself and of an empty leaf.
fn empty_leaf(tree: &mut FlatTree, node: usize) -> bool {
    let [kind, start, count] = words(tree, node);
    let next = tree.node_count;
    if kind != 0 || next + 2 > 2 * tree.order.len() {
        return false;
    }
    set_words(tree, node, [1, next as u32, next as u32 + 1]);
    set_words(tree, next, [0, start, count]);
    set_words(tree, next + 1, [0, start, 0]);
    tree.node_count += 2;
    true
}

/// A leaf's range moves by one place.
fn moved_leaf(tree: &mut FlatTree, node: usize) -> bool {
    let [kind, start, count] = words(tree, node);
    if kind != 0 || count as usize >= tree.order.len() {
        return false;
    }
    let moved = if start == 0 { 1 } else { start - 1 };
    set_words(tree, node, [0, moved, count]);
    true
}

/// A branch names another node above it in place of a child.
fn renamed(random: &mut Random, tree: &mut FlatTree, node: usize) -> bool {
    let [kind, left, right] = words(tree, node);
    if kind != 1 {
        return false;
    }
    let other = random.within(node as i64 + 1, tree.node_count as i64 - 1) as u32;
    if other == left || other == right {
        return false;
    }
    tree.node_words[3 * node + random.within(1, 2) as usize] = other;
    true
}

/// A triangle stands at another's place in the order too.
fn doubled(random: &mut Random, tree: &mut FlatTree) -> bool {
    let n = tree.order.len();
    if n < 2 {
        return false;
    }
    let place = random.below(n);
    let other = (place + random.within(1, n as i64 - 1) as usize) % n;
    tree.order[place] = tree.order[other];
    true
}

/// A triangle box loses a step of one side.
fn smaller(random: &mut Random, tree: &mut FlatTree) -> bool {
    let low = 6 * random.below(tree.order.len()) + random.below(3);
    let [min, max] = [tree.triangle_boxes[low], tree.triangle_boxes[low + 3]];
    if min == max {
        return false;
    }
    if random.once_in(2) {
        tree.triangle_boxes[low] = min.next_up();
    } else {
        tree.triangle_boxes[low + 3] = max.next_down();
    }
    true
}

fn infinite(random: &mut Random, tree: &mut FlatTree) -> bool {
    let place = random.below(6);
    tree.node_boxes[place] = [-f64::INFINITY, f64::INFINITY][place / 3];
    true
}
