//! The exact cast, without a tree and through one, and the rounded casts beside them, at the same part with the same rays: on
//! whole millimetres along an axis, and short probes and long oblique rays at the panel. The Rust's side is its tree cast in all.

use crate::{
    areas::{self, Lent, Mesh, Ray},
    collision::query::{QueryScratch, timed},
    inputs,
    rows::{Both, Planned, numbered, plan, rust_rays, turns},
    timing::Row,
};
use probe_rays::sys::{HIT, NONE};
use std::rc::Rc;

fn exact(ray: &Ray, both: &Both, lent: &mut Lent) -> u32 {
    areas::exact(ray, &both.mesh, &mut lent.hit, &mut lent.index)
}

fn rounded(ray: &Ray, both: &Both, lent: &mut Lent) -> u32 {
    areas::plain(ray, &both.mesh, &mut lent.hit, &mut lent.index)
}

fn exact_tree(ray: &Ray, both: &Both, lent: &mut Lent) -> u32 {
    areas::exact_mesh(ray, &both.mesh, &both.tree, lent)
}

fn rounded_tree(ray: &Ray, both: &Both, lent: &mut Lent) -> u32 {
    areas::mesh(ray, &both.mesh, &both.tree, lent)
}

/// A part on whole millimetres, how rays meet it, and these rays.
type Met = (&'static str, fn() -> Mesh, &'static str, u32, Vec<Ray>);

fn met() -> [Met; 6] {
    let (front, slanted) = (
        "12 triangles (drawer front)",
        "12 triangles (slanted front)",
    );
    let (plates, large): (_, fn() -> Mesh) = ("15,920 triangles", inputs::whole_plates);
    let into = || inputs::whole_front_rays(256);
    let inside = || inputs::whole_inside_front(256);
    let side = |length| inputs::whole_at_slanted(256, length);
    [
        (front, inputs::front, "hit", HIT, into()),
        (front, inputs::front, "miss near", NONE, inside()),
        (slanted, inputs::slanted_front, "hit", HIT, side(20.0)),
        (slanted, inputs::slanted_front, "miss near", NONE, side(8.0)),
        (plates, large, "hit", HIT, into()),
        (plates, large, "miss near", NONE, inside()),
    ]
}

/// A cast without a tree looks at every triangle, and is for parts of few.
fn is_small(part: &str) -> bool {
    part.starts_with("12 ")
}

/// How far an answer may be from the Rust's: on whole millimetres by rounding alone (crates/whole_numbers: 2^-51, and ours), and
/// elsewhere by some units of the grid.
type Compare = fn(ours: [f64; 4], rust: [f64; 4]) -> bool;

fn but_for_rounding(ours: [f64; 4], rust: [f64; 4]) -> bool {
    let near = (ours[3] - rust[3]).abs() <= rust[3] * f64::EPSILON * 3.0;
    ours[..3] == rust[..3] && near
}

fn but_for_the_grid(ours: [f64; 4], rust: [f64; 4]) -> bool {
    (ours[3] - rust[3]).abs() <= 1e-3
}

/// A row of one of our casts, its hit in the lent areas.
fn row(
    name: &str,
    wanted: Option<u32>,
    both: &Rc<Both>,
    rays: Vec<Ray>,
    same: Compare,
    cast: impl Fn(&Ray, &Both, &mut Lent) -> u32 + 'static,
) -> Row {
    let (a, b) = (both.clone(), both.clone());
    let (mut lent, mut scratch) = (both.lent(), QueryScratch::default());
    let rust = rust_rays(&rays);
    for (ray, rust_ray) in rays.iter().zip(&rust) {
        let number = cast(ray, both, &mut lent);
        let rust = timed::mesh(*rust_ray, &b.rust_mesh, &b.rust_tree, &mut scratch);
        let (theirs, hit) = numbered(rust);
        assert_eq!(number, wanted.unwrap_or(number), "{name}");
        assert_eq!(number, theirs, "{name}: {ray:?}");
        let same = number != HIT || same(lent.hit, hit);
        assert!(same, "{name}: {:?}, {hit:?}", lent.hit);
    }
    turns(
        name,
        rays,
        rust,
        move |ray, hit| {
            let number = cast(ray, &a, &mut lent);
            *hit = lent.hit;
            number
        },
        move |ray| timed::mesh(*ray, &b.rust_mesh, &b.rust_tree, &mut scratch),
    )
}

fn planned(
    how: &str,
    (part, mesh, kind, wanted, rays): &Met,
    cast: impl Fn(&Ray, &Both, &mut Lent) -> u32 + 'static,
) -> Planned {
    let (mesh, wanted, rays) = (*mesh, *wanted, rays.clone());
    plan(&format!("{how}, {part}, {kind}"), move |name: &str| {
        row(
            name,
            Some(wanted),
            &Both::of(mesh()),
            rays,
            but_for_rounding,
            cast,
        )
    })
}

/// At the panel, through its tree: exact and rounded.
fn at_panel(kind: &str, rays: fn() -> Vec<Ray>) -> [Planned; 2] {
    let planned = |how: &str, cast: fn(&Ray, &Both, &mut Lent) -> u32| {
        plan(&format!("{how}, panel, {kind}"), move |name: &str| {
            let both = Both::of(inputs::panel());
            row(name, None, &both, rays(), but_for_the_grid, cast)
        })
    };
    [
        planned("exact, its tree", exact_tree),
        planned("rounded, its tree", rounded_tree),
    ]
}

pub fn rows() -> Vec<Planned> {
    let mut rows = Vec::new();
    rows.extend(at_panel("short axis probes", || {
        inputs::short_probes(1_024)
    }));
    rows.extend(at_panel("long oblique rays", || inputs::long_rays(8)));
    rows.extend(at_panel("miss through a hole", || {
        inputs::through_holes(1_024)
    }));
    rows.extend(at_panel("miss far off", || inputs::far_rays(1_024)));
    for met in &met() {
        if is_small(met.0) {
            rows.push(planned("exact, no tree", met, exact));
            rows.push(planned("rounded, no tree", met, rounded));
        }
        rows.push(planned("exact, its tree", met, exact_tree));
        rows.push(planned("rounded, its tree", met, rounded_tree));
    }
    rows
}
