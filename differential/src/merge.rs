//! The merge of two boards (document 02, M-105): beside the model everywhere; the result goes through the tree check, and
//! casts on it beside the two boards' casts glued.

use crate::{
    calls::{self, Held, MODEL, run},
    lent::Lent,
    library::{self, Cast, Check, Fault, Hit, LentTree, only_read, written},
    log::Log,
    plain::library_tree,
    run::{Mesh, aimed_ray, mesh_of, places, result},
};
use oracle::{
    answer::{Answer, MOST_TRIANGLES, MOST_VERTICES, Ray},
    cases::{self, about, about_tree, filled, filled_floats},
    merge::{self, Areas, Board},
    random::Random,
    tree::FlatTree,
    trees,
};
use probe_rays::{
    calls as library_calls,
    lent::{BoardRef, TreeAreas},
    sys,
};

pub const MERGE: &str = "merge";

const GLUED: &str = "cast on glued boards";
const BOTH: &str = "the two boards' casts";

#[derive(Clone, Debug)]
struct Own {
    vertices: Vec<f64>,
    indices: Vec<u32>,
    tree: FlatTree,
}

impl Own {
    fn board(&self) -> Board<'_> {
        Board {
            vertices: &self.vertices,
            indices: &self.indices,
            tree: (&self.tree).into(),
        }
    }
}

#[derive(Debug)]
struct Merge<'a> {
    first: &'a Own,
    second: &'a Own,
    areas: Areas,
    marks: Vec<u32>,
    nodes: Vec<usize>,
}

struct Merged {
    number: u32,
    areas: Areas,
    marks: Vec<u32>,
    nodes: Vec<usize>,
}

/// A board with the library's tree, another builder's, a damaged one, or any words; now and then without triangles.
fn board(random: &mut Random, mesh: &Mesh) -> Own {
    let mut mesh = mesh.clone();
    if random.once_in(8) {
        mesh.indices.clear();
    }
    let n = mesh.indices.len() / 3;
    let tree = match library_tree(&mesh) {
        Some(built) => match random.below(10) {
            0..5 => built,
            5..9 => trees::valid(random, &built),
            _ => trees::damaged(random, &built).0,
        },
        None => {
            let mut any = cases::areas(random, n);
            any.node_count = if n == 0 && !random.once_in(8) {
                0
            } else {
                random.below(2 * n + 2)
            };
            any
        }
    };
    let mut own = Own {
        vertices: mesh.vertices,
        indices: mesh.indices,
        tree,
    };
    if random.once_in(8) {
        about_tree(random, &mut own.tree);
    }
    own
}

/// How long an area is of which a length is stated.
type Length = fn(&mut Random, usize) -> usize;

/// Result areas that hold anything.
fn areas(random: &mut Random, a: &Own, b: &Own, length: Length) -> Areas {
    let n = a.indices.len() / 3 + b.indices.len() / 3;
    let mut float = |stated| {
        let length = length(random, stated);
        filled_floats(random, length)
    };
    let vertices = float(a.vertices.len() + b.vertices.len());
    let (node_boxes, triangle_boxes) = (float(12 * n), float(6 * n));
    let mut word = |stated| {
        let length = length(random, stated);
        filled(random, length)
    };
    Areas {
        vertices,
        indices: word(a.indices.len() + b.indices.len()),
        node_boxes,
        triangle_boxes,
        node_words: word(6 * n),
        order: word(n),
    }
}

struct LentBoard<'a> {
    given: &'a Own,
    vertices: Lent<f64>,
    indices: Lent<u32>,
    tree: LentTree,
}

impl<'a> LentBoard<'a> {
    fn new(given: &'a Own) -> Self {
        Self {
            given,
            vertices: Lent::new(&given.vertices),
            indices: Lent::new(&given.indices),
            tree: LentTree::new(&given.tree),
        }
    }

    fn lent(&self) -> BoardRef<'_> {
        BoardRef {
            vertices: self.vertices.contents(),
            triangles: self.indices.contents(),
            tree: self.tree.lent(self.given.tree.node_count),
        }
    }

    fn only_read(&self) -> Result<(), Fault> {
        only_read("a board's vertices", &self.vertices, &self.given.vertices)?;
        only_read("a board's triangles", &self.indices, &self.given.indices)?;
        self.tree.only_read(&self.given.tree)
    }
}

fn library_merge(call: &Merge) -> Result<Merged, Fault> {
    let (first, second) = (LentBoard::new(call.first), LentBoard::new(call.second));
    let mut vertices = Lent::new(&call.areas.vertices);
    let mut indices = Lent::new(&call.areas.indices);
    let mut node_boxes = Lent::new(&call.areas.node_boxes);
    let mut triangle_boxes = Lent::new(&call.areas.triangle_boxes);
    let mut node_words = Lent::new(&call.areas.node_words);
    let mut order = Lent::new(&call.areas.order);
    let mut marks = Lent::new(&call.marks);
    let mut nodes = Lent::new(&call.nodes);
    let number = library_calls::merge(
        &first.lent(),
        &second.lent(),
        vertices.slice(),
        indices.slice(),
        TreeAreas {
            node_boxes: node_boxes.slice(),
            triangle_boxes: triangle_boxes.slice(),
            node_words: node_words.slice(),
            order: order.slice(),
        },
        marks.slice(),
        nodes.slice(),
    );
    first.only_read()?;
    second.only_read()?;
    Ok(Merged {
        number,
        areas: Areas {
            vertices: written("the vertices", &vertices)?,
            indices: written("the triangles", &indices)?,
            node_boxes: written("the node boxes", &node_boxes)?,
            triangle_boxes: written("the triangle boxes", &triangle_boxes)?,
            node_words: written("the node words", &node_words)?,
            order: written("the order", &order)?,
        },
        marks: written("the marks", &marks)?,
        nodes: written("the node count", &nodes)?,
    })
}

/// The case's mesh glued to another case's, now and then to itself.
pub fn compare(log: &mut Log, seed: u64, number: u64, mesh: &Mesh) {
    let random = &mut Random::of_record(seed.rotate_left(32) ^ 0x6d65_7267_6500, number);
    let other = if random.once_in(6) {
        mesh.clone()
    } else {
        mesh_of(seed ^ 1, number)
    };
    let (a, b) = (board(random, mesh), board(random, &other));
    let rays = [ray_at(random, &a, mesh.ray), ray_at(random, &b, other.ray)].concat();
    glued(log, random, &a, &b, about, &rays);
}

/// Two boards with the library's own trees, as large as can be, and then with one triangle too many.
pub fn largest(log: &mut Log, random: &mut Random, first: &Mesh, second: &Mesh, rays: &[Ray]) {
    let own = |mesh: &Mesh| Own {
        vertices: mesh.vertices.clone(),
        indices: mesh.indices.clone(),
        tree: library_tree(mesh).expect("the library builds it"),
    };
    let (a, b) = (own(first), own(second));
    let exact: Length = |_, stated| stated;
    glued(log, random, &a, &b, exact, rays);
    let mut more = second.clone();
    more.indices.extend([0, 1, 2]);
    glued(log, random, &a, &own(&more), exact, &[]);
}

/// A board of one triangle and vertices beside it, or of that triangle many times, with the library's tree.
fn repeated(vertices: usize, triangles: usize) -> Own {
    let mut mesh = Mesh {
        ray: Ray {
            origin: [0.25, 0.25, 1.0],
            direction: [0.0, 0.0, -1.0],
            maximum: 2.0,
            near: 0.0,
        },
        vertices: vec![0.0, 0.0, 0.0, 1.0, 0.0, 0.0, 0.0, 1.0, 0.0],
        indices: [0, 1, 2].repeat(triangles),
    };
    mesh.vertices.resize(3 * vertices, 1.0);
    let tree = library_tree(&mesh).expect("the library builds it");
    Own {
        vertices: mesh.vertices,
        indices: mesh.indices,
        tree,
    }
}

/// Two boards with as many vertices, and with as many triangles, as are admitted together, and with one more.
pub fn at_the_limits(log: &mut Log, random: &mut Random) {
    let (vertices, triangles) = (MOST_VERTICES / 2, MOST_TRIANGLES / 2);
    let exact: Length = |_, stated| stated;
    let small = repeated(vertices, 1);
    for more in [0, 1] {
        glued(
            log,
            random,
            &small,
            &repeated(vertices + more, 1),
            exact,
            &[],
        );
    }
    let many = repeated(3, triangles);
    for more in [0, 1] {
        glued(
            log,
            random,
            &many,
            &repeated(3, triangles + more),
            exact,
            &[],
        );
    }
}

/// The ray of a board's mesh, and one aimed at a triangle of it.
fn ray_at(random: &mut Random, own: &Own, ray: Ray) -> Vec<Ray> {
    let of = Mesh {
        ray,
        vertices: own.vertices.clone(),
        indices: own.indices.clone(),
    };
    let mut rays = vec![ray];
    if of.indices.len() >= 3 {
        rays.push(aimed_ray(random, &of));
    }
    rays
}

/// The merge; where it is done, the check of its result and casts at it.
fn glued(log: &mut Log, random: &mut Random, a: &Own, b: &Own, length: Length, rays: &[Ray]) {
    let n = a.indices.len() / 3 + b.indices.len() / 3;
    let marks = length(random, 3 * n);
    let call = Merge {
        first: a,
        second: b,
        areas: areas(random, a, b, length),
        marks: filled(random, marks),
        nodes: places(random),
    };
    log.context = "two boards";
    let Some(result) = merged(log, &call) else {
        return;
    };
    log.context = "the merge's result";
    let check = Check {
        vertices: &result.vertices,
        indices: &result.indices,
        tree: &result.tree,
        marks: &vec![0; 3 * n],
    };
    calls::check(log, &check, Some(true));
    for ray in rays {
        cast(log, random, *ray, a, b, &result);
    }
}

/// The result as a board, if the library wrote one.
fn merged(log: &mut Log, call: &Merge) -> Option<Own> {
    let held = &mut Held {
        log,
        name: MERGE,
        call,
    };
    let done = run(held, library_merge(call), |done| done.number)?;
    let (mut areas, mut nodes) = (call.areas.clone(), call.nodes.clone());
    let (a, b) = (call.first.board(), call.second.board());
    // the count's place is tested after 2 and before everything later
    let expected = match merge::merge(&a, &b, &mut areas, call.marks.len()) {
        Err(2) => Err(2),
        _ if nodes.is_empty() => {
            areas = call.areas.clone();
            Err(3)
        }
        other => other,
    };
    let number = match expected {
        Ok(count) => {
            nodes[0] = count;
            sys::DONE
        }
        Err(number) => number,
    };
    held.compared(MODEL);
    held.number(done.number, number, MODEL);
    held.slice("the node count", &done.nodes, &nodes);
    held.slice("the vertices", &done.areas.vertices, &areas.vertices);
    held.slice("the triangles", &done.areas.indices, &areas.indices);
    held.slice("node boxes", &done.areas.node_boxes, &areas.node_boxes);
    held.slice(
        "triangle boxes",
        &done.areas.triangle_boxes,
        &areas.triangle_boxes,
    );
    held.slice("node words", &done.areas.node_words, &areas.node_words);
    held.slice("order", &done.areas.order, &areas.order);
    if matches!(number, 2 | 3) {
        held.slice("the marks", &done.marks, &call.marks);
    }
    held.left_out("the Rust has no merge");
    if done.number != sys::DONE {
        return None;
    }
    let mut glued = Own {
        vertices: done.areas.vertices,
        indices: done.areas.indices,
        tree: FlatTree {
            node_boxes: done.areas.node_boxes,
            triangle_boxes: done.areas.triangle_boxes,
            node_words: done.areas.node_words,
            order: done.areas.order,
            node_count: done.nodes[0],
        },
    };
    let lengths = (
        call.first.vertices.len() + call.second.vertices.len(),
        call.first.indices.len() + call.second.indices.len(),
    );
    glued.vertices.truncate(lengths.0);
    glued.indices.truncate(lengths.1);
    Some(glued)
}

fn cast_at(ray: Ray, own: &Own) -> Result<Hit, Fault> {
    library::cast(&Cast {
        ray,
        vertices: &own.vertices,
        indices: &own.indices,
        pose: &own.vertices,
        tree: &own.tree,
        list: &vec![0; own.indices.len() / 3],
        stack: &vec![0; own.tree.node_count + 1],
        hit: &[0.0; 4],
        index: &[0],
    })
}

fn answer(done: &Hit) -> Answer {
    match done.number {
        sys::NONE => Answer::None,
        sys::HIT => Answer::Hit {
            normal: [done.hit[0], done.hit[1], done.hit[2]],
            distance: done.hit[3],
            index: Some(done.index[0]),
        },
        number => Answer::Refused(number),
    }
}

/// A cast on the result beside the casts on the boards.
fn cast(log: &mut Log, random: &mut Random, ray: Ray, a: &Own, b: &Own, glued: &Own) {
    let call = Cast {
        ray,
        vertices: &glued.vertices,
        indices: &glued.indices,
        pose: &glued.vertices,
        tree: &glued.tree,
        list: &vec![0; glued.indices.len() / 3],
        stack: &vec![0; glued.tree.node_count + 1],
        hit: &result(random, 4, Random::special),
        index: &result(random, 1, |random| random.bits() as u32),
    };
    calls::cast(log, &call);
    let held = &mut Held {
        log,
        name: GLUED,
        call: &call,
    };
    let Some(done) = run(held, cast_at(ray, glued), |done| done.number) else {
        return;
    };
    match (cast_at(ray, a), cast_at(ray, b)) {
        (Ok(first), Ok(second)) => {
            let n = (a.indices.len() / 3) as u32;
            let expected = merge::glue(n, answer(&first), answer(&second));
            calls::answer_is(held, &done, &expected, calls::exact, BOTH);
        }
        (Err(fault), _) | (_, Err(fault)) => held.differs(fault),
    }
}
