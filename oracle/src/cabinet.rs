//! The cast at a cabinet of many parts under one limit of nodes, from document 02's M-110, written down plainly.

use crate::{
    answer::{Answer, Ray},
    model::{self, Node, Tree},
    plain::{ray_admitted, segment_box, touches},
    slips::{Slip::*, or},
};

/// A range of an area: its first element and how many.
#[derive(Clone, Copy, Debug, Default, PartialEq, Eq)]
pub struct Span {
    pub start: usize,
    pub length: usize,
}

impl Span {
    /// The elements; none if the range leaves the area. Start and length are added as whole numbers.
    fn of<T>(self, area: &[T]) -> Option<&[T]> {
        area.get(self.start..self.start.checked_add(self.length)?)
    }
}

#[derive(Clone, Copy, Debug, Default, PartialEq)]
pub struct Part {
    pub origin: [f64; 3],
    pub nodes: usize,
    pub vertices: Span,
    pub triangles: Span,
    pub node_boxes: Span,
    pub triangle_boxes: Span,
    pub node_words: Span,
    pub order: Span,
}

/// The six areas that the parts share.
#[derive(Clone, Debug, Default)]
pub struct Areas {
    pub vertices: Vec<f64>,
    pub triangles: Vec<u32>,
    pub node_boxes: Vec<f64>,
    pub triangle_boxes: Vec<f64>,
    pub node_words: Vec<u32>,
    pub order: Vec<u32>,
}

/// A part's own mesh and tree.
#[derive(Clone, Copy)]
pub struct Own<'a> {
    pub vertices: &'a [f64],
    pub indices: &'a [u32],
    pub tree: Tree<'a>,
}

impl Areas {
    /// None if a range leaves its area.
    pub fn own(&self, part: &Part) -> Option<Own<'_>> {
        Some(Own {
            vertices: part.vertices.of(&self.vertices)?,
            indices: part.triangles.of(&self.triangles)?,
            tree: Tree {
                node_boxes: part.node_boxes.of(&self.node_boxes)?,
                triangle_boxes: part.triangle_boxes.of(&self.triangle_boxes)?,
                node_words: part.node_words.of(&self.node_words)?,
                order: part.order.of(&self.order)?,
                node_count: part.nodes,
            },
        })
    }
}

/// The answer, with the part of a hit. A refusal before the first part has no nodes spent.
#[derive(Clone, Copy, Debug, PartialEq)]
pub struct CabinetAnswer {
    pub answer: Answer,
    pub part: usize,
    pub spent: Option<usize>,
}

fn refused(number: u32, spent: Option<usize>) -> CabinetAnswer {
    CabinetAnswer {
        answer: Answer::Refused(number),
        part: 0,
        spent,
    }
}

/// The ray with its origin moved into the part's frame; none if it is not finite.
pub fn moved(ray: &Ray, part: &Part) -> Option<Ray> {
    let mut moved = *ray;
    for axis in 0..3 {
        let (from, to) = (part.origin[axis], ray.origin[axis]);
        moved.origin[axis] = or(CabinetOrigin, to - from, -(from - to));
    }
    moved.origin.iter().all(|x| x.is_finite()).then_some(moved)
}

/// Refusal 2 of a part: a range leaves its area, or the mesh cast would refuse the mesh with 2.
fn bad_shape(areas: &Areas, part: &Part) -> bool {
    let Some(own) = areas.own(part) else {
        return true;
    };
    !model::vertices_admitted(own.vertices)
        || !model::indices_admitted(own.indices)
        || part.nodes > 2 * (own.indices.len() / 3)
}

/// Refusal 3 of a part whose shape is admitted.
fn no_room(areas: &Areas, part: &Part, list_length: usize, stack_length: usize) -> bool {
    let own = areas.own(part).expect("its ranges stay inside");
    let n = own.indices.len() / 3;
    !own.tree.is_long_enough(n) || list_length < n || stack_length < part.nodes + 1
}

/// How a walk under a limit ended: with the touching triangles, in a 5, or with the limit used up.
enum Walked {
    Listed(Vec<u32>),
    Broken,
    UsedUp,
}

/// The walk. A node costs one as its index is taken from the stack; `spent` counts them, over all parts.
fn walk(tree: Tree, n: usize, bounds: &[f64], limit: usize, spent: &mut usize) -> Walked {
    let mut stack = Vec::new();
    if tree.node_count > 0 {
        stack.push(0);
    }
    let (mut listed, mut taken) = (Vec::new(), 0);
    while let Some(index) = stack.pop() {
        if *spent == limit {
            return Walked::UsedUp;
        }
        *spent += 1;
        taken += 1;
        if taken > tree.node_count || !look(tree, n, bounds, index, &mut stack, &mut listed) {
            return Walked::Broken;
        }
    }
    listed.sort_unstable();
    Walked::Listed(listed)
}

/// A node that was taken: its children go onto the stack, or its touching triangles into the list. False is a 5.
fn look(
    tree: Tree,
    n: usize,
    bounds: &[f64],
    index: usize,
    stack: &mut Vec<usize>,
    listed: &mut Vec<u32>,
) -> bool {
    if !touches(tree.node_box(index), bounds) {
        return true;
    }
    match tree.node(index) {
        Node::Other => false,
        Node::Branch { left, right } => {
            stack.extend([right, left]);
            [left, right]
                .iter()
                .all(|&child| child > index && child < tree.node_count)
        }
        Node::Leaf { end, .. } if end > n => false,
        Node::Leaf { start, end } => tree.order[start..end].iter().all(|&triangle| {
            let inside = (triangle as usize) < n;
            if inside && touches(tree.triangle_box(triangle as usize), bounds) {
                listed.push(triangle);
            }
            inside && listed.len() <= n
        }),
    }
}

/// The cast at one part, as its own answer.
fn part_answer(ray: &Ray, own: Own, part: &Part, limit: usize, spent: &mut usize) -> Answer {
    let Some(ray) = moved(ray, part) else {
        return Answer::Refused(6);
    };
    let Some(segment) = segment_box(&ray) else {
        return Answer::Refused(6);
    };
    match walk(own.tree, own.indices.len() / 3, &segment, limit, spent) {
        Walked::UsedUp => Answer::Refused(10),
        Walked::Broken => Answer::Refused(5),
        Walked::Listed(candidates) => model::nearest(&ray, own.vertices, own.indices, &candidates),
    }
}

/// The cast over lent areas. The list and the stack are work areas, unchanged after 1 to 3, so that only their lengths
/// count here; `results_fit` says whether the result slices are long enough.
pub fn ray_cabinet(
    ray: &Ray,
    parts: &[Part],
    areas: &Areas,
    limit: usize,
    list_length: usize,
    stack_length: usize,
    results_fit: bool,
) -> CabinetAnswer {
    if !ray_admitted(ray) {
        return refused(1, None);
    }
    if parts.iter().any(|part| bad_shape(areas, part)) {
        return refused(2, None);
    }
    if !results_fit
        || parts
            .iter()
            .any(|part| no_room(areas, part, list_length, stack_length))
    {
        return refused(3, None);
    }
    let (mut spent, mut best) = (0, None);
    for (number, part) in parts.iter().enumerate() {
        let own = areas.own(part).expect("its ranges stay inside");
        match part_answer(ray, own, part, limit, &mut spent) {
            Answer::Refused(number) => return refused(number, Some(spent)),
            Answer::None => {}
            Answer::Hit {
                normal,
                distance,
                index,
            } => {
                if best.is_none_or(|(least, _, _)| distance < least) {
                    let hit = Answer::Hit {
                        normal,
                        distance,
                        index,
                    };
                    best = Some((distance, number, hit));
                }
            }
        }
    }
    let (part, answer) = best.map_or((0, Answer::None), |(_, part, hit)| (part, hit));
    CabinetAnswer {
        answer,
        part,
        spent: Some(spent),
    }
}
