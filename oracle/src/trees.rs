//! Random trees that other builders could write: valid ones of any shape, and
//! damaged ones, one damage each.

use crate::{aabb::Aabb, random::Random, tree::FlatTree};

/// The plan of a node before it has its index.
struct Planned {
    bounds: Aabb,
    children: Vec<usize>,
    leaf: Vec<u32>,
}

/// A valid tree over the triangle boxes `built` holds (the tree of our builder or
/// the Rust's): other order, leaf sizes, shape, child order and node places, boxes
/// at times larger than needed. Areas have the stated lengths.
pub fn valid(random: &mut Random, built: &FlatTree) -> FlatTree {
    let n = built.triangle_boxes.len() / 6;
    let mut triangles: Vec<u32> = (0..n as u32).collect();
    random.shuffle(&mut triangles);
    let mut plan = Vec::new();
    let most = random.pick(&[1, 2, 4, 7, n]);
    // A chain is as deep as it has triangles, and the planning recurses.
    let lopsided = n <= 1_000 && random.once_in(3);
    plan_node(random, built, triangles, most, lopsided, &mut plan);

    let mut leaves: Vec<usize> = (0..plan.len())
        .filter(|&k| plan[k].children.is_empty())
        .collect();
    random.shuffle(&mut leaves);
    let mut starts = vec![0; plan.len()];
    let mut order = Vec::new();
    for leaf in leaves {
        starts[leaf] = order.len() as u32;
        order.extend(&plan[leaf].leaf);
    }

    let places = places_below_parents(random, &plan);
    let mut tree = FlatTree {
        node_boxes: vec![0.0; 6 * plan.len()],
        triangle_boxes: built.triangle_boxes.clone(),
        node_words: vec![0; 3 * plan.len()],
        order,
        node_count: plan.len(),
    };
    for (planned, node) in plan.iter().enumerate() {
        let place = places[planned];
        let words = match node.children[..] {
            [left, right] => [1, places[left] as u32, places[right] as u32],
            _ => [0, starts[planned], node.leaf.len() as u32],
        };
        tree.node_words[3 * place..3 * place + 3].copy_from_slice(&words);
        tree.node_boxes[6 * place..6 * place + 6].copy_from_slice(&node.bounds.to_array());
    }
    tree.padded(n)
}

fn plan_node(
    random: &mut Random,
    built: &FlatTree,
    mut triangles: Vec<u32>,
    most: usize,
    lopsided: bool,
    plan: &mut Vec<Planned>,
) -> usize {
    let leaf = triangles.len() <= 1 || (triangles.len() <= most && random.once_in(2));
    let (children, bounds) = if leaf {
        let boxes = triangles
            .iter()
            .map(|&t| Aabb::unchecked(&built.triangle_boxes[6 * t as usize..]));
        (
            Vec::new(),
            boxes.reduce(|a, b| a.union(&b)).expect("no empty leaf"),
        )
    } else {
        let cut = if lopsided {
            1
        } else {
            random.within(1, triangles.len() as i64 - 1) as usize
        };
        let rest = triangles.split_off(cut);
        let left = plan_node(
            random,
            built,
            std::mem::take(&mut triangles),
            most,
            lopsided,
            plan,
        );
        let right = plan_node(random, built, rest, most, lopsided, plan);
        let bounds = plan[left].bounds.union(&plan[right].bounds);
        let children = if random.once_in(2) {
            vec![left, right]
        } else {
            vec![right, left]
        };
        (children, bounds)
    };
    let bounds = if random.once_in(8) {
        grown(random, bounds)
    } else {
        bounds
    };
    plan.push(Planned {
        bounds,
        children,
        leaf: triangles,
    });
    plan.len() - 1
}

fn grown(random: &mut Random, bounds: Aabb) -> Aabb {
    let mut sides = bounds.to_array();
    let by = random.pick(&[0.0, 5e-324, 0.5, 100.0]);
    for (k, side) in sides.iter_mut().enumerate() {
        let moved = if k < 3 { *side - by } else { *side + by };
        if moved.is_finite() {
            *side = moved;
        }
    }
    Aabb::unchecked(&sides)
}

/// An index for each planned node; the root, planned last, gets 0 and children lie
/// above their parent.
fn places_below_parents(random: &mut Random, plan: &[Planned]) -> Vec<usize> {
    let mut places = vec![0; plan.len()];
    let mut open = vec![plan.len() - 1];
    let in_turn = random.pick(&[0, 1, 2]);
    for place in 0..plan.len() {
        let next = match in_turn {
            0 => open.len() - 1,
            1 => 0,
            _ => random.below(open.len()),
        };
        let node = open.remove(next);
        places[node] = place;
        open.extend(&plan[node].children);
    }
    places
}

/// What was done to a tree; most of these make the check say no.
pub const DAMAGES: [&str; 24] = [
    "kind 2",
    "kind at most",
    "child is the node itself",
    "child below the node",
    "child at the node count",
    "child at most",
    "both children equal",
    "leaf ends past the triangles",
    "leaf start at most",
    "leaf start and count wrap",
    "leaf empty",
    "leaf grows",
    "order names no triangle",
    "order names one twice",
    "triangle box moved by a step",
    "triangle box not a number",
    "triangle box crossed",
    "node box shrunk by a step",
    "node box not a number",
    "node box infinite",
    "node count one more",
    "node count one less",
    "node count 0",
    "node count above 2n",
];

/// The tree with one damage, and the damage's name. A damage that finds no place
/// leaves the tree as it was.
pub fn damaged(random: &mut Random, tree: &FlatTree) -> (FlatTree, &'static str) {
    let mut tree = tree.clone();
    let n = tree.triangle_boxes.len() / 6;
    let name = random.pick(&DAMAGES);
    let count = tree.node_count;
    let node = random.below(count.max(1));
    let some = |tree: &FlatTree, random: &mut Random, kind: u32| {
        let of_kind: Vec<usize> = (0..count)
            .filter(|&k| tree.node_words[3 * k] == kind)
            .collect();
        (!of_kind.is_empty()).then(|| random.pick(&of_kind))
    };
    let leaf = some(&tree, random, 0);
    let branch = some(&tree, random, 1);
    let child = random.within(1, 2) as usize;
    let words = &mut tree.node_words;
    let mut set = |node: Option<usize>, k: usize, value: u32| {
        if let Some(node) = node {
            words[3 * node + k] = value;
        }
    };
    match name {
        "kind 2" => set(Some(node), 0, 2),
        "kind at most" => set(Some(node), 0, u32::MAX),
        "child is the node itself" => set(branch, child, branch.unwrap_or(0) as u32),
        "child below the node" => set(branch, child, random.below(branch.unwrap_or(0) + 1) as u32),
        "child at the node count" => set(branch, child, count as u32),
        "child at most" => set(branch, child, u32::MAX),
        "both children equal" => {
            let other = branch.map_or(0, |b| tree.node_words[3 * b + 3 - child]);
            if let Some(branch) = branch {
                tree.node_words[3 * branch + child] = other;
            }
        }
        "leaf ends past the triangles" => set(leaf, child, n as u32),
        "leaf start at most" => set(leaf, 1, u32::MAX),
        "leaf start and count wrap" => {
            set(leaf, 1, u32::MAX);
            set(leaf, 2, 2);
        }
        "leaf empty" => set(leaf, 2, 0),
        "leaf grows" => {
            let grown = leaf.map_or(0, |l| tree.node_words[3 * l + 2] + 1);
            if let Some(leaf) = leaf {
                tree.node_words[3 * leaf + 2] = grown;
            }
        }
        "order names no triangle" => {
            let place = random.below(n);
            tree.order[place] = random.pick(&[n as u32, u32::MAX]);
        }
        "order names one twice" => {
            let (place, other) = (random.below(n), random.below(n));
            tree.order[place] = tree.order[other];
        }
        "triangle box moved by a step" => {
            let place = random.below(6 * n);
            let moved = random.nudged(tree.triangle_boxes[place]);
            tree.triangle_boxes[place] = moved;
        }
        "triangle box not a number" => tree.triangle_boxes[random.below(6 * n)] = f64::NAN,
        "triangle box crossed" => {
            let place = 6 * random.below(n) + random.below(3);
            tree.triangle_boxes.swap(place, place + 3);
        }
        "node box shrunk by a step" => {
            let place = 6 * node + random.below(6);
            let side = tree.node_boxes[place];
            tree.node_boxes[place] = if place % 6 < 3 {
                side.next_up()
            } else {
                side.next_down()
            };
        }
        "node box not a number" => tree.node_boxes[6 * node + random.below(6)] = f64::NAN,
        "node box infinite" => {
            let k = random.below(6);
            tree.node_boxes[6 * node + k] = if k < 3 { -f64::INFINITY } else { f64::INFINITY };
        }
        "node count one more" => tree.node_count = (count + 1).min(2 * n),
        "node count one less" => tree.node_count = count.saturating_sub(1),
        "node count 0" => tree.node_count = 0,
        _ => tree.node_count = random.pick(&[2 * n + 1, usize::MAX]),
    }
    (tree, name)
}
