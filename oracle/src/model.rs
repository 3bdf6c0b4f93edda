//! What document 01 adds to the Rust, written down plainly: build, query, tree
//! check and mesh cast over flat areas, with every refusal and the final areas.
//!
//! Areas for `n` triangles: node boxes f64 12n, triangle boxes f64 6n, node words
//! u32 6n (3 a node: kind 0 leaf or 1 branch, then start and count or left and
//! right), order u32 n. Vertices are f64, three each, indices u32, three each.

use crate::{
    aabb::Aabb,
    answer::{Answer, MOST_TRIANGLES, MOST_VERTICES, Ray},
    math::Vec3,
    plain::{self, greatest, least, segment_box, touches},
    slips::{Slip::*, or, slipped},
    tree::FlatTree,
};

/// A tree as it is lent to query, check and cast.
#[derive(Clone, Copy)]
pub struct Tree<'a> {
    pub node_boxes: &'a [f64],
    pub triangle_boxes: &'a [f64],
    pub node_words: &'a [u32],
    pub order: &'a [u32],
    pub node_count: usize,
}

impl<'a> From<&'a FlatTree> for Tree<'a> {
    fn from(tree: &'a FlatTree) -> Self {
        Tree {
            node_boxes: &tree.node_boxes,
            triangle_boxes: &tree.triangle_boxes,
            node_words: &tree.node_words,
            order: &tree.order,
            node_count: tree.node_count,
        }
    }
}

#[derive(Clone, Copy, Debug, PartialEq, Eq)]
pub enum Check {
    Yes,
    No,
    Refused(u32),
}

pub(crate) enum Node {
    Leaf { start: usize, end: usize },
    Branch { left: usize, right: usize },
    Other,
}

impl Tree<'_> {
    pub(crate) fn node(&self, index: usize) -> Node {
        let word = |k: usize| self.node_words[3 * index + k] as usize;
        match word(0) {
            0 => Node::Leaf {
                start: word(1),
                end: word(1) + word(2),
            },
            1 => Node::Branch {
                left: word(1),
                right: word(2),
            },
            _ => Node::Other,
        }
    }

    pub(crate) fn node_box(&self, index: usize) -> &[f64] {
        &self.node_boxes[6 * index..6 * index + 6]
    }

    pub(crate) fn triangle_box(&self, index: usize) -> &[f64] {
        &self.triangle_boxes[6 * index..6 * index + 6]
    }

    /// No slice of the tree is shorter than stated for `n` triangles.
    pub(crate) fn is_long_enough(&self, n: usize) -> bool {
        self.node_boxes.len() >= 12 * n
            && self.triangle_boxes.len() >= 6 * n
            && self.node_words.len() >= 6 * n
            && self.order.len() >= n
    }
}

fn encloses(outer: &[f64], inner: &[f64]) -> bool {
    (0..3).all(|k| outer[k] <= inner[k] && inner[k + 3] <= outer[k + 3])
}

fn is_valid(b: &[f64]) -> bool {
    b.iter().all(|x| x.is_finite()) && (0..3).all(|k| b[k] <= b[k + 3])
}

pub(crate) fn vertices_admitted(vertices: &[f64]) -> bool {
    vertices.len().is_multiple_of(3) && vertices.len() <= 3 * MOST_VERTICES
}

pub(crate) fn indices_admitted(indices: &[u32]) -> bool {
    indices.len().is_multiple_of(3) && indices.len() <= 3 * MOST_TRIANGLES
}

/// Whether refusal 2 lets a mesh's own lengths pass.
pub fn mesh_admitted(vertices: &[f64], indices: &[u32]) -> bool {
    vertices_admitted(vertices) && indices_admitted(indices)
}

/// The corners of a triangle; none for an index past the vertices.
pub fn corners(vertices: &[f64], indices: &[u32], triangle: usize) -> Option<[[f64; 3]; 3]> {
    let mut corners = [[0.0; 3]; 3];
    for (k, corner) in corners.iter_mut().enumerate() {
        let vertex = indices[3 * triangle + k] as usize;
        *corner = vertices.get(3 * vertex..3 * vertex + 3)?.try_into().ok()?;
    }
    Some(corners)
}

/// The box of a triangle's three vertices; none if it has no valid one.
pub(crate) fn vertices_box(corners: [[f64; 3]; 3]) -> Option<Aabb> {
    let [a, b, c] = corners.map(Vec3::from_array);
    Aabb::new(least(least(a, b), c), greatest(greatest(a, b), c)).ok()
}

/// The areas that a build writes.
pub struct BuildAreas<'a> {
    pub node_boxes: &'a mut [f64],
    pub triangle_boxes: &'a mut [f64],
    pub node_words: &'a mut [u32],
    pub order: &'a mut [u32],
}

/// Builds the tree: the node count, or a refusal. After 5 and 6 every place of the
/// result areas is zero; after 2 and 3 nothing has changed. The work area, of which
/// only the length counts here, may hold anything.
pub fn build(
    vertices: &[f64],
    indices: &[u32],
    areas: &mut BuildAreas,
    work_length: usize,
) -> Result<usize, u32> {
    if !vertices_admitted(vertices) || !indices_admitted(indices) {
        return Err(2);
    }
    let n = indices.len() / 3;
    if areas.node_boxes.len() + or(BuildRoom, 0, 1) < 12 * n
        || areas.triangle_boxes.len() < 6 * n
        || areas.node_words.len() < 6 * n
        || areas.order.len() < n
        || work_length + or(BuildWork, 0, 1) < n
    {
        return Err(3);
    }
    let built = build_past_lengths(vertices, indices, areas);
    if built.is_err() {
        areas.node_boxes.fill(0.0);
        areas.triangle_boxes.fill(0.0);
        areas.node_words.fill(0);
        if !slipped(BuildZeroed) {
            areas.order.fill(0);
        }
    }
    built
}

fn build_past_lengths(
    vertices: &[f64],
    indices: &[u32],
    areas: &mut BuildAreas,
) -> Result<usize, u32> {
    let n = indices.len() / 3;
    let mut boxes = Vec::new();
    for triangle in 0..n {
        let corners = corners(vertices, indices, triangle).ok_or(or(BuildIndex, 5u32, 6))?;
        boxes.push(vertices_box(corners).ok_or(5u32)?);
    }
    if n == 0 {
        return if slipped(BuildEmpty) { Ok(0) } else { Err(5) };
    }
    let mut build = Build {
        boxes,
        nodes: Vec::new(),
        order: Vec::new(),
    };
    build.node((0..n).collect())?;
    for (triangle, bounds) in build.boxes.iter().enumerate() {
        areas.triangle_boxes[6 * triangle..6 * triangle + 6].copy_from_slice(&bounds.to_array());
    }
    for (node, (bounds, words)) in build.nodes.iter().enumerate() {
        areas.node_boxes[6 * node..6 * node + 6].copy_from_slice(&bounds.to_array());
        areas.node_words[3 * node..3 * node + 3].copy_from_slice(words);
    }
    areas.order[..n].copy_from_slice(&build.order);
    Ok(build.nodes.len())
}

struct Build {
    boxes: Vec<Aabb>,
    nodes: Vec<(Aabb, [u32; 3])>,
    order: Vec<u32>,
}

impl Build {
    /// Writes the node over `triangles` and all below it, in preorder.
    fn node(&mut self, mut triangles: Vec<usize>) -> Result<u32, u32> {
        let boxes: Vec<Aabb> = triangles.iter().map(|&t| self.boxes[t]).collect();
        let bounds = boxes.iter().copied().reduce(union).expect("no empty node");
        let node = self.nodes.len();
        self.nodes.push((bounds, [0; 3]));
        let words = if triangles.len() <= or(BuildLeaf, or(BuildThree, 4, 3), 5) {
            let start = self.order.len() as u32;
            self.order.extend(triangles.iter().map(|&t| t as u32));
            [0, start, triangles.len() as u32]
        } else {
            let centres: Vec<Vec3> = boxes.iter().map(centre).collect();
            let low = centres
                .iter()
                .copied()
                .reduce(least)
                .expect("no empty node");
            let high = centres
                .iter()
                .copied()
                .reduce(greatest)
                .expect("no empty node");
            let extent = high - low;
            if !extent.is_finite() {
                return Err(or(BuildExtent, 6, 5));
            }
            let axis = longest(extent.to_array());
            let key =
                |&t: &usize| centre(&self.boxes[t]).to_array()[axis] + or(BuildZeros, -0.0, 0.0);
            let by_index = |a: &usize, b: &usize| or(BuildOrder, a.cmp(b), b.cmp(a));
            triangles.sort_by(|a, b| key(a).total_cmp(&key(b)).then(by_index(a, b)));
            let right = triangles.split_off((triangles.len() + or(BuildHalf, 0, 1)) / 2);
            [1, self.node(triangles)?, self.node(right)?]
        };
        self.nodes[node].1 = words;
        Ok(node as u32)
    }
}

fn centre(bounds: &Aabb) -> Vec3 {
    let (min, max) = (bounds.min(), bounds.max());
    if slipped(CentreSum) {
        (min + max) * 0.5
    } else {
        min * 0.5 + max * 0.5
    }
}

fn union(a: Aabb, b: Aabb) -> Aabb {
    let (low, high) = (least(a.min(), b.min()), greatest(a.max(), b.max()));
    Aabb::unchecked(&[low.to_array(), high.to_array()].concat())
}

/// The first of the axes with the greatest extent.
fn longest(extent: [f64; 3]) -> usize {
    let [x, y, z] = extent;
    if slipped(BuildTies) {
        return if z >= x && z >= y {
            2
        } else {
            usize::from(y >= x)
        };
    }
    if x >= y && x >= z {
        0
    } else if y >= z {
        1
    } else {
        2
    }
}

/// Lists the touching triangles, ascending, in front of the list area: their count,
/// or a refusal. After 5 the whole list area is zero. The stack area, of which only
/// the length counts here, may hold anything.
pub fn query(
    tree: Tree,
    n: usize,
    bounds: [f64; 6],
    list: &mut [u32],
    stack_length: usize,
) -> Result<usize, u32> {
    if !is_valid(&bounds) && !slipped(QueryBox) {
        return Err(1);
    }
    if n > MOST_TRIANGLES
        || tree.node_count > 2 * n
        || (slipped(QueryNodes) && tree.node_count == 2 * n)
    {
        return Err(2);
    }
    let stack = tree.node_count + or(QueryStack, 1, 0);
    if !tree.is_long_enough(n) || list.len() < n || stack_length < stack {
        return Err(3);
    }
    match walk(tree, n, &bounds) {
        Some(mut listed) => {
            if !slipped(QueryUnsorted) {
                listed.sort_unstable();
            }
            list[..listed.len()].copy_from_slice(&listed);
            Ok(listed.len())
        }
        None => {
            if !slipped(QueryZeros) {
                list.fill(0);
            }
            Err(5)
        }
    }
}

/// The walk of the query; none where document 01 says 5.
pub(crate) fn walk(tree: Tree, n: usize, bounds: &[f64]) -> Option<Vec<u32>> {
    let mut listed = Vec::new();
    let mut stack = Vec::new();
    if tree.node_count > 0 {
        stack.push(0);
    }
    let mut taken = 0;
    while let Some(index) = stack.pop() {
        taken += 1;
        if taken > tree.node_count + or(QueryTaken, 0, 1) {
            return None;
        }
        if !touches(tree.node_box(index), bounds) {
            continue;
        }
        match tree.node(index) {
            Node::Branch { left, right } => {
                let above = |child: usize| child > index || (slipped(QueryChild) && child < index);
                if [left, right]
                    .iter()
                    .any(|&c| !above(c) || c >= tree.node_count)
                {
                    return None;
                }
                stack.extend([right, left]);
            }
            Node::Leaf { start, end } => {
                if end > n && !slipped(QueryLeaf) {
                    return None;
                }
                for &triangle in &tree.order[start.min(n)..end.min(n)] {
                    if triangle as usize >= n {
                        return None;
                    }
                    if touches(tree.triangle_box(triangle as usize), bounds) {
                        listed.push(triangle);
                    }
                    if listed.len() > n {
                        if slipped(QueryList) {
                            listed.pop();
                            continue;
                        }
                        return None;
                    }
                }
            }
            Node::Other => return None,
        }
    }
    Some(listed)
}

/// Whether the tree is one for the mesh. The mark area, of which only the length
/// counts here, may hold anything.
pub fn tree_check(vertices: &[f64], indices: &[u32], tree: Tree, marks_length: usize) -> Check {
    if !vertices_admitted(vertices) || !indices_admitted(indices) {
        return Check::Refused(2);
    }
    let n = indices.len() / 3;
    if !tree.is_long_enough(n) || marks_length < or(CheckMarks, 3, 2) * n {
        return Check::Refused(3);
    }
    let yes = if n == 0 || tree.node_count == 0 || tree.node_count > 2 * n {
        (n == 0 || slipped(CheckNone)) && tree.node_count == 0
    } else {
        nodes_hold(tree, n) && triangles_hold(vertices, indices, tree)
    };
    if yes { Check::Yes } else { Check::No }
}

/// Every node's kind, children, range and box; nodes, order places and triangles
/// are each met once.
fn nodes_hold(tree: Tree, n: usize) -> bool {
    let mut named = vec![0; tree.node_count];
    let mut covered = vec![0; n];
    let mut ordered = vec![0; n];
    for place in &tree.order[..n] {
        match ordered.get_mut(*place as usize) {
            Some(times) => *times += 1,
            None => return false,
        }
    }
    for index in 0..tree.node_count {
        let bounds = tree.node_box(index);
        if !is_valid(bounds) && !slipped(CheckValid) {
            return false;
        }
        match tree.node(index) {
            Node::Other => return false,
            Node::Branch { left, right } => {
                let placed = |child| child > index && child < tree.node_count;
                if (left == right && !slipped(CheckSame)) || !placed(left) || !placed(right) {
                    return false;
                }
                let children = if slipped(CheckChildren) {
                    vec![left]
                } else {
                    vec![left, right]
                };
                if children
                    .iter()
                    .any(|&child| !encloses(bounds, tree.node_box(child)))
                {
                    return false;
                }
                named[left] += 1;
                if left != right {
                    named[right] += 1;
                }
            }
            Node::Leaf { start, end } => {
                if end > n || (start == end && !slipped(CheckEmpty)) {
                    return false;
                }
                covered[start..end].iter_mut().for_each(|times| *times += 1);
                let outside = |&t: &u32| {
                    !encloses(bounds, tree.triangle_box(t as usize)) && !slipped(CheckTriangles)
                };
                if tree.order[start..end].iter().any(outside) {
                    return false;
                }
            }
        }
    }
    let once = |times: &[i32]| times.iter().all(|&t| t == 1);
    let placed = |&t: &i32| t == 1 || (slipped(CheckPlaces) && t > 1);
    (slipped(CheckNamed) || once(&named[1..]))
        && covered.iter().all(placed)
        && (slipped(CheckOrder) || once(&ordered))
}

/// Each triangle box is valid and equals its vertices' box, under IEEE 754.
fn triangles_hold(vertices: &[f64], indices: &[u32], tree: Tree) -> bool {
    (0..indices.len() / 3).all(|triangle| {
        let own = corners(vertices, indices, triangle).and_then(vertices_box);
        own.is_some_and(|own| boxes_equal(&own.to_array(), tree.triangle_box(triangle)))
    })
}

fn boxes_equal(own: &[f64], lent: &[f64]) -> bool {
    let bits = || {
        own.iter()
            .zip(lent)
            .all(|(a, b)| a.to_bits() == b.to_bits())
    };
    match () {
        () if slipped(CheckBoxes) => is_valid(lent) && encloses(lent, own),
        () if slipped(CheckBits) => bits(),
        () => own == lent,
    }
}

/// The mesh cast over lent areas. Its list and stack are work areas: unchanged after
/// 1 to 4, anything else after that, so that only their lengths count here.
#[allow(clippy::too_many_arguments)]
pub fn ray_mesh(
    ray: &Ray,
    vertices: &[f64],
    indices: &[u32],
    cast_vertices: &[f64],
    tree: Tree,
    list_length: usize,
    stack_length: usize,
) -> Answer {
    if !plain::ray_admitted(ray) {
        return Answer::Refused(1);
    }
    let n = indices.len() / 3;
    if !vertices_admitted(vertices)
        || !vertices_admitted(cast_vertices)
        || !indices_admitted(indices)
        || tree.node_count > 2 * n
    {
        return Answer::Refused(2);
    }
    let short = !tree.is_long_enough(n) || list_length < n || stack_length < tree.node_count + 1;
    if short && !(slipped(PoseFirst) && vertices.len() != cast_vertices.len()) {
        return Answer::Refused(3);
    }
    if vertices.len() != cast_vertices.len() {
        return Answer::Refused(4);
    }
    let Some(segment) = segment_box(ray) else {
        return Answer::Refused(or(SegmentEnd, 6, 5));
    };
    if slipped(FoldAll) {
        return nearest(ray, cast_vertices, indices, &Vec::from_iter(0..n as u32));
    }
    match walk(tree, n, &segment) {
        None => Answer::Refused(5),
        Some(mut candidates) => {
            candidates.sort_unstable();
            nearest(ray, cast_vertices, indices, &candidates)
        }
    }
}

/// The fold over candidates in list order: the first refusal, else the first
/// strictly least distance.
pub(crate) fn nearest(ray: &Ray, vertices: &[f64], indices: &[u32], candidates: &[u32]) -> Answer {
    plain::nearest(candidates.iter().map(|&triangle| {
        let corners = corners(vertices, indices, triangle as usize);
        let cast = corners.map_or(Answer::Refused(5), |corners| plain::triangle(ray, corners));
        (Some(triangle), cast)
    }))
}

/// The candidates of demand 3: the triangles whose vertices' box in the mesh touches
/// the segment's box, ascending, whatever the tree says. A triangle without a valid
/// box is none of them.
pub fn candidates(ray: &Ray, vertices: &[f64], indices: &[u32]) -> Vec<u32> {
    let Some(segment) = segment_box(ray) else {
        return Vec::new();
    };
    let touching = |&triangle: &u32| {
        let own = corners(vertices, indices, triangle as usize).and_then(vertices_box);
        own.is_some_and(|own| touches(&own.to_array(), &segment))
    };
    (0..indices.len() as u32 / 3).filter(touching).collect()
}

/// The answer that demand 3 promises for a checked tree.
pub fn ray_mesh_without_tree(ray: &Ray, vertices: &[f64], indices: &[u32]) -> Answer {
    if !plain::ray_admitted(ray) {
        return Answer::Refused(1);
    }
    if segment_box(ray).is_none() {
        return Answer::Refused(6);
    }
    nearest(ray, vertices, indices, &candidates(ray, vertices, indices))
}
