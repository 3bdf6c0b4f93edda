//! Document 02's M-105, written down plainly: two boards glued into one, over flat areas, with every refusal and the
//! final areas.

use crate::{
    aabb::Aabb,
    answer::{Answer, MOST_TRIANGLES, MOST_VERTICES},
    model::{self, Check, Tree},
    slips::{Slip::*, or, slipped},
};

/// A mesh and its tree as they are lent.
#[derive(Clone, Copy)]
pub struct Board<'a> {
    pub vertices: &'a [f64],
    pub indices: &'a [u32],
    pub tree: Tree<'a>,
}

/// The areas that a merge writes.
#[derive(Clone, Debug, PartialEq)]
pub struct Areas {
    pub vertices: Vec<f64>,
    pub indices: Vec<u32>,
    pub node_boxes: Vec<f64>,
    pub triangle_boxes: Vec<f64>,
    pub node_words: Vec<u32>,
    pub order: Vec<u32>,
}

impl Board<'_> {
    fn count(&self) -> usize {
        self.indices.len() / 3
    }

    fn passes(&self) -> bool {
        model::tree_check(self.vertices, self.indices, self.tree, 3 * self.count()) == Check::Yes
    }
}

fn put<T: Copy>(area: &mut [T], parts: &[Vec<T>]) {
    for (place, value) in area.iter_mut().zip(parts.iter().flatten()) {
        *place = *value;
    }
}

fn up(words: &[u32], by: usize) -> Vec<u32> {
    words.iter().map(|word| word + by as u32).collect()
}

/// The words of all nodes, children up by `nodes` and places up by `places`.
fn moved(tree: &Tree, nodes: usize, places: usize) -> Vec<u32> {
    let node = |words: &[u32]| match words {
        [0, start, count] => [0, start + places as u32, *count],
        [kind, left, right] => [*kind, left + nodes as u32, right + nodes as u32],
        _ => unreachable!("three words a node"),
    };
    tree.node_words[..3 * tree.node_count]
        .chunks_exact(3)
        .flat_map(node)
        .collect()
}

/// Glues two boards: the node count, or 2, 3 or 5 with the areas unchanged. The mark area may hold anything after 5 and
/// after a merge; only its length counts here.
pub fn merge(a: &Board, b: &Board, areas: &mut Areas, marks_length: usize) -> Result<usize, u32> {
    let whole = |board: &Board| {
        board.vertices.len().is_multiple_of(3) && board.indices.len().is_multiple_of(3)
    };
    let (v, n) = (
        a.vertices.len() + b.vertices.len(),
        a.indices.len() + b.indices.len(),
    );
    let vertices = or(MergeVertices, MOST_VERTICES, MOST_VERTICES - 1);
    let triangles = or(MergeTriangles, MOST_TRIANGLES, MOST_TRIANGLES - 1);
    if !whole(a) || !whole(b) || v > 3 * vertices || n > 3 * triangles {
        return Err(2);
    }
    let n = n / 3;
    let marks = or(MergeMarks, n, a.count().max(b.count()));
    if !a.tree.is_long_enough(a.count())
        || !b.tree.is_long_enough(b.count())
        || areas.vertices.len() < v
        || areas.indices.len() < 3 * n
        || areas.node_boxes.len() < 12 * n
        || areas.triangle_boxes.len() < 6 * n
        || areas.node_words.len() < 6 * n
        || areas.order.len() < n
        || marks_length < 3 * marks
    {
        return Err(3);
    }
    let above = |board: &Board| board.tree.node_count > 2 * board.count();
    if slipped(MergeNodes) && (above(a) || above(b)) {
        return Err(2);
    }
    if !a.passes() || !b.passes() {
        if slipped(MergeZeros) {
            areas.order.fill(0);
        }
        return Err(5);
    }
    Ok(glued(a, b, areas))
}

fn glued(a: &Board, b: &Board, areas: &mut Areas) -> usize {
    let (n, m) = (a.count(), b.count());
    let (s, t) = (&a.tree, &b.tree);
    let rooted = or(MergeRoot, n > 0 && m > 0, n > 0 || m > 0);
    let root = usize::from(rooted);
    let (root_box, root_words) = if rooted {
        let around = Aabb::unchecked(s.node_boxes).union(&Aabb::unchecked(t.node_boxes));
        let words = vec![1, 1, 1 + s.node_count as u32];
        (around.to_array().to_vec(), words)
    } else {
        (Vec::new(), Vec::new())
    };
    put(
        &mut areas.vertices,
        &[a.vertices.to_vec(), b.vertices.to_vec()],
    );
    put(
        &mut areas.indices,
        &[
            a.indices.to_vec(),
            up(b.indices, or(MergeIndices, a.vertices.len() / 3, n)),
        ],
    );
    let boxes = |tree: &Tree| tree.node_boxes[..6 * tree.node_count].to_vec();
    put(&mut areas.node_boxes, &[root_box, boxes(s), boxes(t)]);
    put(
        &mut areas.node_words,
        &[
            root_words,
            moved(s, root, 0),
            moved(t, root + s.node_count, n),
        ],
    );
    put(
        &mut areas.triangle_boxes,
        &[
            s.triangle_boxes[..6 * n].to_vec(),
            t.triangle_boxes[..6 * m].to_vec(),
        ],
    );
    put(
        &mut areas.order,
        &[s.order[..n].to_vec(), up(&t.order[..m], n)],
    );
    root + s.node_count + t.node_count
}

/// What a cast on the result answers, from those on the two boards: the first board has `n` triangles.
pub fn glue(n: u32, first: Answer, second: Answer) -> Answer {
    let moved = match second {
        Answer::Hit {
            normal,
            distance,
            index,
        } => Answer::Hit {
            normal,
            distance,
            index: index.map(|index| index + n),
        },
        other => other,
    };
    match (first, moved) {
        (Answer::Refused(number), _) | (_, Answer::Refused(number)) => Answer::Refused(number),
        (Answer::None, other) | (other, Answer::None) => other,
        (Answer::Hit { distance: d, .. }, Answer::Hit { distance: e, .. }) => {
            if e < d || (slipped(MergeTies) && e == d) {
                moved
            } else {
                first
            }
        }
    }
}
