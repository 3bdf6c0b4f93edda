//! Many rays in one call: the mesh cast and the exact cast at the panel and at a drawer front. The rows 'its tree' are the same rays,
//! a call each; the Rust's side is its tree cast, a call each, in all.

use crate::{
    areas::{self, Lent, Mesh, Ray},
    clock,
    collision::query::{QueryScratch, timed},
    inputs,
    rows::{Both, Planned, plan, rust_rays},
    timing::Row,
};
use probe_rays::{calls, sys::DONE};
use std::{hint::black_box, rc::Rc};

/// The result slices of many rays.
struct Results {
    codes: Vec<u32>,
    hits: Vec<f64>,
    indices: Vec<u32>,
}

type Call = fn(&[f64], &Both, &mut Lent, &mut Results) -> u32;

fn rounded(rays: &[f64], both: &Both, lent: &mut Lent, results: &mut Results) -> u32 {
    calls::ray_mesh_many(
        rays,
        &both.mesh.vertices,
        &both.mesh.triangles,
        &both.mesh.vertices,
        &both.tree.lent(),
        &mut lent.list,
        &mut lent.stack,
        &mut results.codes,
        &mut results.hits,
        &mut results.indices,
    )
}

fn exact(rays: &[f64], both: &Both, lent: &mut Lent, results: &mut Results) -> u32 {
    calls::ray_mesh_exact_many(
        rays,
        &both.mesh.vertices,
        &both.mesh.triangles,
        &both.mesh.vertices,
        &both.tree.lent(),
        &mut lent.stack,
        &mut results.codes,
        &mut results.hits,
        &mut results.indices,
    )
}

/// The answers are those of a call each, to the bit; these are compared with the Rust in rows of their own.
fn compare(name: &str, single: Single, rays: &[Ray], both: &Both, results: &Results) {
    let mut lent = both.lent();
    for (n, ray) in rays.iter().enumerate() {
        let place = 4 * n..4 * n + 4;
        lent.hit.copy_from_slice(&results.hits[place.clone()]);
        lent.index = [results.indices[n]];
        let number = single(ray, &both.mesh, &both.tree, &mut lent);
        assert_eq!(number, results.codes[n], "{name}: {ray:?}");
        assert_eq!(lent.hit[..], results.hits[place], "{name}: {ray:?}");
        assert_eq!(lent.index, [results.indices[n]], "{name}: {ray:?}");
    }
}

type Single = fn(&Ray, &Mesh, &areas::Tree, &mut Lent) -> u32;

fn row(name: &str, both: &Rc<Both>, rays: Vec<Ray>, call: Call, single: Single) -> Row {
    let (a, b) = (both.clone(), both.clone());
    let (mut lent, mut scratch) = (both.lent(), QueryScratch::default());
    let numbers: Vec<f64> = rays.iter().flat_map(Ray::numbers).collect();
    let mut results = Results {
        codes: vec![0; rays.len()],
        hits: vec![0.0; 4 * rays.len()],
        indices: vec![0; rays.len()],
    };
    assert_eq!(call(&numbers, both, &mut lent, &mut results), DONE);
    compare(name, single, &rays, both, &results);
    let rust = rust_rays(&rays);
    Row {
        name: name.to_owned(),
        units: rays.len() as f64,
        clock: clock::thread,
        ours: Box::new(move || {
            black_box(call(black_box(&numbers), &a, &mut lent, &mut results));
            black_box(&mut results.hits);
        }),
        rust: Some(Box::new(move || {
            for ray in black_box(&rust[..]) {
                black_box(&timed::mesh(*ray, &b.rust_mesh, &b.rust_tree, &mut scratch));
            }
        })),
    }
}

fn planned(part: &str, mesh: fn() -> Mesh, kind: &str, rays: fn() -> Vec<Ray>) -> [Planned; 2] {
    let plan = |how: &str, call: Call, single: Single| {
        plan(&format!("{how}, {part}, {kind}"), move |name: &str| {
            row(name, &Both::of(mesh()), rays(), call, single)
        })
    };
    [
        plan("exact, many a call", exact, areas::exact_mesh),
        plan("rounded, many a call", rounded, areas::mesh),
    ]
}

pub fn rows() -> Vec<Planned> {
    let (front, panel) = ("12 triangles (drawer front)", "panel");
    let probes = || inputs::short_probes(1_024);
    let holes = || inputs::through_holes(1_024);
    let mut rows = Vec::new();
    rows.extend(planned(panel, inputs::panel, "short axis probes", probes));
    rows.extend(planned(panel, inputs::panel, "long oblique rays", || {
        inputs::long_rays(8)
    }));
    rows.extend(planned(panel, inputs::panel, "miss through a hole", holes));
    rows.extend(planned(front, inputs::front, "hit", || {
        inputs::whole_front_rays(256)
    }));
    rows
}
