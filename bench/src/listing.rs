//! Rows of the listings of all hits, the rounded and the exact one, which the Rust has not.

use crate::{
    areas::{Mesh, Ray, Tree},
    clock,
    rows::Both,
    timing::Row,
};
use probe_rays::{calls, sys::DONE};
use std::{hint::black_box, rc::Rc};

/// The areas that a listing is lent.
struct Lent {
    list: Vec<u32>,
    stack: Vec<u32>,
    indices: Vec<u32>,
    numbers: Vec<f64>,
    found: [usize; 1],
}

fn listed(exact: bool, ray: &Ray, mesh: &Mesh, tree: &Tree, lent: &mut Lent) -> u32 {
    let lists = if exact {
        calls::ray_mesh_exact_all
    } else {
        calls::ray_mesh_all
    };
    lists(
        ray,
        &mesh.vertices,
        &mesh.triangles,
        &mesh.vertices,
        &tree.lent(),
        &mut lent.list,
        &mut lent.stack,
        &mut lent.indices,
        &mut lent.numbers,
        &mut lent.found,
    )
}

/// The time of a listing; with `all`, of one of its hits where every triangle is hit.
pub fn row(name: &str, both: &Rc<Both>, rays: Vec<Ray>, all: bool, exact: bool) -> Row {
    let both = both.clone();
    let n = both.mesh.count();
    let mut lent = Lent {
        list: vec![0; n],
        stack: vec![0; both.tree.nodes + 1],
        indices: vec![0; n],
        numbers: vec![0.0; 4 * n],
        found: [0],
    };
    for ray in &rays {
        let number = listed(exact, ray, &both.mesh, &both.tree, &mut lent);
        assert_eq!(number, DONE, "{name}: refused");
        assert!(!all || lent.found[0] == n, "{name}: {:?} hits", lent.found);
    }
    Row {
        name: name.to_owned(),
        units: if all {
            (n * rays.len()) as f64
        } else {
            rays.len() as f64
        },
        clock: clock::thread,
        ours: Box::new(move || {
            for ray in black_box(&rays[..]) {
                black_box(listed(exact, ray, &both.mesh, &both.tree, &mut lent));
                black_box(&mut lent);
            }
        }),
        rust: None,
    }
}
