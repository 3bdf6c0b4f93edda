//! The mesh cast without a tree (document 02, M-100): beside the model everywhere, beside the Rust's mesh cast where the
//! Rust builds a tree, and beside the library's own cast through the library's own tree.

use crate::{
    calls::{Held, MODEL, RUST, SHORT_RESULT, answer_is, exact, run},
    lent::Lent,
    library::{self, Build, Cast, Fault, Hit, only_read, written},
    log::Log,
    run::{Mesh, aimed_ray, changed, near_to, result},
};
use oracle::{
    answer::{self, Answer, Ray, agree},
    mesh_plain, plain,
    random::Random,
    tree::{self, FlatTree},
};
use probe_rays::{calls, sys};

pub const PLAIN: &str = "mesh cast without a tree";

const OWN_TREE: &str = "the library's cast through its own tree";

/// Rays that are cast at one mesh.
const RAYS: usize = 2;

#[derive(Clone, Copy, Debug)]
pub struct PlainCast<'a> {
    pub ray: Ray,
    pub vertices: &'a [f64],
    pub indices: &'a [u32],
    pub hit: &'a [f64],
    pub index: &'a [u32],
}

pub(crate) fn plain_cast(call: &PlainCast) -> Result<Hit, Fault> {
    let vertices = Lent::new(call.vertices);
    let indices = Lent::new(call.indices);
    let mut hit = Lent::new(call.hit);
    let mut index = Lent::new(call.index);
    let number = calls::ray_mesh_plain(
        &library::ray(&call.ray),
        vertices.contents(),
        indices.contents(),
        hit.slice(),
        index.slice(),
    );
    only_read("the vertices", &vertices, call.vertices)?;
    only_read("the triangles", &indices, call.indices)?;
    Ok(Hit {
        number,
        list: Vec::new(),
        stack: Vec::new(),
        hit: written("the hit", &hit)?,
        index: written("the index", &index)?,
    })
}

/// The mesh as it is, one that differs in a coordinate or an index, and now and then one of no triangles, or one with an
/// index past the vertices under a ray whose segment has no finite end.
pub fn compare(log: &mut Log, seed: u64, number: u64, mesh: &Mesh) {
    let random = &mut Random::of_record(seed.rotate_left(32) ^ 0x706c_6169_6e00, number);
    log.context = "as drawn";
    casts(log, random, mesh);
    if !mesh.vertices.is_empty() && !mesh.indices.is_empty() {
        log.context = "one coordinate or index changed";
        let other = changed(random, mesh);
        casts(log, random, &other);
    }
    if random.once_in(50) {
        let mut none = mesh.clone();
        none.indices.clear();
        log.context = "no triangles";
        casts(log, random, &none);
    }
    if random.once_in(50) && mesh.indices.len() >= 3 {
        let mut far = mesh.clone();
        far.ray.origin = [1.5e308, 0.0, 0.0];
        far.ray.direction = [1.0, 0.0, 0.0];
        far.ray.maximum = 1e308;
        far.indices[0] = u32::MAX;
        log.context = "an index past the vertices, and a segment's end that is not finite";
        casts(log, random, &far);
    }
}

/// The mesh's own ray, and one aimed at a triangle.
fn casts(log: &mut Log, random: &mut Random, mesh: &Mesh) {
    let built = library_tree(mesh);
    for k in 0..RAYS {
        let aims = k > 0 && mesh.indices.len() >= 3;
        let mut ray = if aims {
            aimed_ray(random, mesh)
        } else {
            mesh.ray
        };
        if aims && random.once_in(3) {
            ray.near = near_to(random, &ray, &mesh.vertices, &mesh.indices);
        }
        let call = PlainCast {
            ray,
            vertices: &mesh.vertices,
            indices: &mesh.indices,
            hit: &result(random, 4, Random::special),
            index: &result(random, 1, |random| random.bits() as u32),
        };
        cast(log, &call, built.as_ref());
    }
}

/// The tree that the library builds, if it does.
pub(crate) fn library_tree(mesh: &Mesh) -> Option<FlatTree> {
    built_tree(&mesh.vertices, &mesh.indices)
}

pub(crate) fn built_tree(vertices: &[f64], indices: &[u32]) -> Option<FlatTree> {
    let n = indices.len() / 3;
    let build = Build {
        vertices,
        indices,
        areas: &FlatTree::default().padded(n),
        work: &vec![0; n],
        nodes: &[0],
    };
    let done = library::build(&build).ok()?;
    (done.number == sys::DONE).then(|| FlatTree {
        node_count: done.nodes[0],
        ..done.areas
    })
}

pub fn cast(log: &mut Log, call: &PlainCast, built: Option<&FlatTree>) {
    let held = &mut Held {
        log,
        name: PLAIN,
        call,
    };
    let Some(done) = run(held, plain_cast(call), |done| done.number) else {
        return;
    };
    let short = call.hit.len() < 4 || call.index.is_empty();
    // 1 and 2 go before the result slices' 3, and that before all others
    let (answer, reason) = plain::beside_the_rust(|| {
        mesh_plain::ray_mesh_plain(&call.ray, call.vertices, call.indices)
    });
    let expected = match answer {
        Answer::Refused(number @ 1..=2) => Answer::Refused(number),
        _ if short => Answer::Refused(3),
        answer => answer,
    };
    answer_is(held, &done, &expected, exact, MODEL);
    let written = done.number == sys::HIT && !short;
    let (values, indices) = if written { (4, 1) } else { (0, 0) };
    held.slice("the hit", &done.hit[values..], &call.hit[values..]);
    held.slice("the index", &done.index[indices..], &call.index[indices..]);
    if short {
        return held.left_out(SHORT_RESULT);
    }
    match reason {
        Some(reason) => held.left_out(reason),
        None => beside_the_rust(held, call, &done),
    }
    beside_the_tree(held, call, &done, built);
}

fn beside_the_rust(held: &mut Held, call: &PlainCast, done: &Hit) {
    if matches!(done.number, 2) {
        return held.left_out("2: the Rust has no such limit");
    }
    match tree::build(call.vertices, call.indices) {
        Ok(_) => {
            let rust = answer::mesh(&call.ray, call.vertices, call.indices);
            answer_is(held, done, &rust, agree, RUST);
        }
        Err(5) => held.left_out("the Rust builds no tree: no triangle, an index or a box"),
        Err(_) => held.left_out("the Rust builds no tree: an extent that overflows"),
    }
}

/// Number, hit and index are those of the cast through the library's own tree, to the bit.
fn beside_the_tree(held: &mut Held, call: &PlainCast, done: &Hit, built: Option<&FlatTree>) {
    let Some(built) = built else {
        return held.left_out("the library builds no tree");
    };
    let n = call.indices.len() / 3;
    let through = library::cast(&Cast {
        ray: call.ray,
        vertices: call.vertices,
        indices: call.indices,
        pose: call.vertices,
        tree: built,
        list: &vec![0; n],
        stack: &vec![0; built.node_count + 1],
        hit: call.hit,
        index: call.index,
    });
    held.compared(OWN_TREE);
    match through {
        Ok(through) => {
            held.number(done.number, through.number, OWN_TREE);
            held.slice("the hit", &done.hit, &through.hit);
            held.slice("the index", &done.index, &through.index);
        }
        Err(fault) => held.differs(fault),
    }
}
