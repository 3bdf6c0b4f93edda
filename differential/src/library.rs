//! The library's calls on copies of what is lent: afterwards the margins of every slice
//! and all that was lent for reading only are looked at.

use crate::lent::{Lent, Word, same_bits};
use oracle::{answer::Ray, tree::FlatTree};
use probe_rays::{
    calls,
    lent::{TreeAreas, TreeRef},
};

/// A build's inputs. `areas` has no node count; `nodes` is the result slice.
#[derive(Clone, Copy, Debug)]
pub struct Build<'a> {
    pub vertices: &'a [f64],
    pub indices: &'a [u32],
    pub areas: &'a FlatTree,
    pub work: &'a [u32],
    pub nodes: &'a [usize],
}

#[derive(Clone, Copy, Debug)]
pub struct Check<'a> {
    pub vertices: &'a [f64],
    pub indices: &'a [u32],
    pub tree: &'a FlatTree,
    pub marks: &'a [u32],
}

#[derive(Clone, Copy, Debug)]
pub struct Query<'a> {
    pub bounds: [f64; 6],
    pub triangles: usize,
    pub tree: &'a FlatTree,
    pub list: &'a [u32],
    pub stack: &'a [u32],
    pub found: &'a [usize],
}

#[derive(Clone, Copy, Debug)]
pub struct Cast<'a> {
    pub ray: Ray,
    pub vertices: &'a [f64],
    pub indices: &'a [u32],
    pub pose: &'a [f64],
    pub tree: &'a FlatTree,
    pub list: &'a [u32],
    pub stack: &'a [u32],
    pub hit: &'a [f64],
    pub index: &'a [u32],
}

/// The number that a call answered, and what its slices hold afterwards.
pub struct Built {
    pub number: u32,
    pub areas: FlatTree,
    pub work: Vec<u32>,
    pub nodes: Vec<usize>,
}

pub struct Checked {
    pub number: u32,
    pub marks: Vec<u32>,
}

pub struct Queried {
    pub number: u32,
    pub list: Vec<u32>,
    pub stack: Vec<u32>,
    pub found: Vec<usize>,
}

pub struct Hit {
    pub number: u32,
    pub list: Vec<u32>,
    pub stack: Vec<u32>,
    pub hit: Vec<f64>,
    pub index: Vec<u32>,
}

/// What a call did outside of its slices, or to those lent for reading.
pub(crate) type Fault = String;

pub(crate) fn written<T: Word>(name: &str, lent: &Lent<T>) -> Result<Vec<T>, Fault> {
    if lent.margins_hold() {
        Ok(lent.contents().to_vec())
    } else {
        Err(format!("wrote outside of {name}"))
    }
}

pub(crate) fn only_read<T: Word>(name: &str, lent: &Lent<T>, given: &[T]) -> Result<(), Fault> {
    if same_bits(&written(name, lent)?, given) {
        Ok(())
    } else {
        Err(format!("wrote into {name}"))
    }
}

/// A tree lent for reading.
pub(crate) struct LentTree {
    node_boxes: Lent<f64>,
    triangle_boxes: Lent<f64>,
    node_words: Lent<u32>,
    order: Lent<u32>,
}

impl LentTree {
    pub fn new(tree: &FlatTree) -> Self {
        Self {
            node_boxes: Lent::new(&tree.node_boxes),
            triangle_boxes: Lent::new(&tree.triangle_boxes),
            node_words: Lent::new(&tree.node_words),
            order: Lent::new(&tree.order),
        }
    }

    pub fn lent(&self, node_count: usize) -> TreeRef<'_> {
        TreeRef {
            nodes: node_count,
            node_boxes: self.node_boxes.contents(),
            triangle_boxes: self.triangle_boxes.contents(),
            node_words: self.node_words.contents(),
            order: self.order.contents(),
        }
    }

    fn areas(&mut self) -> TreeAreas<'_> {
        TreeAreas {
            node_boxes: self.node_boxes.slice(),
            triangle_boxes: self.triangle_boxes.slice(),
            node_words: self.node_words.slice(),
            order: self.order.slice(),
        }
    }

    pub fn only_read(&self, given: &FlatTree) -> Result<(), Fault> {
        only_read("the node boxes", &self.node_boxes, &given.node_boxes)?;
        only_read(
            "the triangle boxes",
            &self.triangle_boxes,
            &given.triangle_boxes,
        )?;
        only_read("the node words", &self.node_words, &given.node_words)?;
        only_read("the order", &self.order, &given.order)
    }

    fn written(&self) -> Result<FlatTree, Fault> {
        Ok(FlatTree {
            node_boxes: written("the node boxes", &self.node_boxes)?,
            triangle_boxes: written("the triangle boxes", &self.triangle_boxes)?,
            node_words: written("the node words", &self.node_words)?,
            order: written("the order", &self.order)?,
            node_count: 0,
        })
    }
}

/// The oracle's ray as the library takes it.
pub fn ray(ray: &Ray) -> probe_rays::Ray {
    probe_rays::Ray::new(ray.origin, ray.direction, ray.maximum).with_near(ray.near)
}

pub fn build(call: &Build) -> Result<Built, Fault> {
    let vertices = Lent::new(call.vertices);
    let indices = Lent::new(call.indices);
    let mut areas = LentTree::new(call.areas);
    let mut work = Lent::new(call.work);
    let mut nodes = Lent::new(call.nodes);
    let number = calls::build(
        vertices.contents(),
        indices.contents(),
        areas.areas(),
        work.slice(),
        nodes.slice(),
    );
    only_read("the vertices", &vertices, call.vertices)?;
    only_read("the triangles", &indices, call.indices)?;
    Ok(Built {
        number,
        areas: areas.written()?,
        work: written("the work area", &work)?,
        nodes: written("the node count", &nodes)?,
    })
}

pub fn check(call: &Check) -> Result<Checked, Fault> {
    let vertices = Lent::new(call.vertices);
    let indices = Lent::new(call.indices);
    let tree = LentTree::new(call.tree);
    let mut marks = Lent::new(call.marks);
    let number = calls::tree_check(
        vertices.contents(),
        indices.contents(),
        &tree.lent(call.tree.node_count),
        marks.slice(),
    );
    only_read("the vertices", &vertices, call.vertices)?;
    only_read("the triangles", &indices, call.indices)?;
    tree.only_read(call.tree)?;
    Ok(Checked {
        number,
        marks: written("the marks", &marks)?,
    })
}

pub fn query(call: &Query) -> Result<Queried, Fault> {
    let tree = LentTree::new(call.tree);
    let mut list = Lent::new(call.list);
    let mut stack = Lent::new(call.stack);
    let mut found = Lent::new(call.found);
    let [min_x, min_y, min_z, max_x, max_y, max_z] = call.bounds;
    let number = calls::query(
        [min_x, min_y, min_z],
        [max_x, max_y, max_z],
        call.triangles,
        &tree.lent(call.tree.node_count),
        list.slice(),
        stack.slice(),
        found.slice(),
    );
    tree.only_read(call.tree)?;
    Ok(Queried {
        number,
        list: written("the list", &list)?,
        stack: written("the stack", &stack)?,
        found: written("the list's length", &found)?,
    })
}

/// A mesh cast of the library through a tree.
pub type MeshCast = fn(
    &probe_rays::Ray,
    &[f64],
    &[u32],
    &[f64],
    &TreeRef<'_>,
    &mut [u32],
    &mut [u32],
    &mut [f64],
    &mut [u32],
) -> u32;

pub fn cast(call: &Cast) -> Result<Hit, Fault> {
    cast_by(calls::ray_mesh, call)
}

pub fn cast_by(by: MeshCast, call: &Cast) -> Result<Hit, Fault> {
    let vertices = Lent::new(call.vertices);
    let indices = Lent::new(call.indices);
    let pose = Lent::new(call.pose);
    let tree = LentTree::new(call.tree);
    let mut list = Lent::new(call.list);
    let mut stack = Lent::new(call.stack);
    let mut hit = Lent::new(call.hit);
    let mut index = Lent::new(call.index);
    let number = by(
        &ray(&call.ray),
        vertices.contents(),
        indices.contents(),
        pose.contents(),
        &tree.lent(call.tree.node_count),
        list.slice(),
        stack.slice(),
        hit.slice(),
        index.slice(),
    );
    only_read("the vertices", &vertices, call.vertices)?;
    only_read("the triangles", &indices, call.indices)?;
    only_read("the pose", &pose, call.pose)?;
    tree.only_read(call.tree)?;
    Ok(Hit {
        number,
        list: written("the list", &list)?,
        stack: written("the stack", &stack)?,
        hit: written("the hit", &hit)?,
        index: written("the index", &index)?,
    })
}

/// A cast at one of the other shapes: `call` gets the values of a grid and the hit slice.
pub fn shape_cast(
    values: &[f64],
    hit: &[f64],
    call: impl FnOnce(&[f64], &mut [f64]) -> u32,
) -> Result<(u32, Vec<f64>), Fault> {
    let lent_values = Lent::new(values);
    let mut lent_hit = Lent::new(hit);
    let number = call(lent_values.contents(), lent_hit.slice());
    only_read("the values", &lent_values, values)?;
    Ok((number, written("the hit", &lent_hit)?))
}
