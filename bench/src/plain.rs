//! The cast without a tree, and the cast through the tree beside it, at parts of few triangles. The Rust's side is its
//! tree cast in both.

use crate::{
    areas::{self, Lent, Mesh, Ray},
    collision::query::{QueryScratch, timed},
    inputs,
    rows::{self, Both, Planned, casts, index_agrees, plan, rust_rays},
    timing::Row,
};
use probe_rays::sys::{HIT, NONE};
use std::rc::Rc;

/// A part, by how many triangles it has.
const PARTS: [(&str, fn() -> Mesh); 4] = [
    ("4 triangles", || inputs::plates(1, 1)),
    ("12 triangles (drawer front)", inputs::front),
    ("64 triangles", || inputs::plates(8, 2)),
    ("256 triangles", || inputs::plates(16, 4)),
];

/// How the rays meet it: into it; over its edge, where the segment's box touches triangles' boxes; far off.
fn rays() -> [(&'static str, u32, Vec<Ray>); 3] {
    [
        ("hit", HIT, inputs::front_rays(256)),
        ("miss near", NONE, inputs::over_the_edge(256)),
        ("miss far", NONE, inputs::far_from_front(256)),
    ]
}

fn plain(name: &str, wanted: u32, both: &Rc<Both>, rays: Vec<Ray>) -> Row {
    let (a, b) = (both.clone(), both.clone());
    let mut scratch = QueryScratch::default();
    let mut lent = Lent::for_tree(0, 0);
    for ray in &rays {
        if areas::plain(ray, &a.mesh, &mut lent.hit, &mut lent.index) == HIT {
            index_agrees(name, &a, ray, &lent);
        }
    }
    let rust = rust_rays(&rays);
    casts(
        name,
        wanted,
        rays,
        rust,
        move |ray, hit| areas::plain(ray, &a.mesh, hit, &mut lent.index),
        move |ray| timed::mesh(*ray, &b.rust_mesh, &b.rust_tree, &mut scratch),
    )
}

pub fn rows() -> Vec<Planned> {
    let mut planned = Vec::new();
    for (part, mesh) in PARTS {
        for (kind, wanted, rays) in rays() {
            let same = rays.clone();
            planned.push(plan(
                &format!("no tree, {part}, {kind}"),
                move |name: &str| plain(name, wanted, &Both::of(mesh()), rays),
            ));
            planned.push(plan(
                &format!("its tree, {part}, {kind}"),
                move |name: &str| rows::mesh(name, wanted, &Both::of(mesh()), same),
            ));
        }
    }
    planned
}
