//! Calls that do nothing, with the parameters of the casts by numbers: what C's way of passing them takes by itself.

use crate::{
    areas::Ray,
    clock,
    rows::{Planned, plan},
    timing::Row,
};
use std::hint::black_box;

type OfPlane = extern "C" fn(
    f64,
    f64,
    f64,
    f64,
    f64,
    f64,
    f64,
    f64, // the ray
    f64,
    f64,
    f64,
    f64, // the plane
    *mut f64,
    usize, // the hit
) -> u32;

type OfTriangle = extern "C" fn(
    f64,
    f64,
    f64,
    f64,
    f64,
    f64,
    f64,
    f64, // the ray
    f64,
    f64,
    f64,
    f64,
    f64,
    f64,
    f64,
    f64,
    f64, // the corners
    *mut f64,
    usize, // the hit
) -> u32;

extern "C" fn at_plane(
    _: f64,
    _: f64,
    _: f64,
    _: f64,
    _: f64,
    _: f64,
    _: f64,
    _: f64,
    _: f64,
    _: f64,
    _: f64,
    _: f64,
    _: *mut f64,
    _: usize,
) -> u32 {
    1
}

extern "C" fn at_triangle(
    _: f64,
    _: f64,
    _: f64,
    _: f64,
    _: f64,
    _: f64,
    _: f64,
    _: f64,
    _: f64,
    _: f64,
    _: f64,
    _: f64,
    _: f64,
    _: f64,
    _: f64,
    _: f64,
    _: f64,
    _: *mut f64,
    _: usize,
) -> u32 {
    1
}

/// As the casts' rows are run, without the Rust's side.
fn row<A: 'static>(
    name: &str,
    items: Vec<A>,
    mut call: impl FnMut(&A, &mut [f64; 4]) -> u32 + 'static,
) -> Row {
    Row {
        name: name.to_owned(),
        units: items.len() as f64,
        clock: clock::thread,
        ours: Box::new(move || {
            let mut hit = [0.0; 4];
            for item in black_box(&items[..]) {
                black_box(call(item, &mut hit));
                black_box(&mut hit);
            }
        }),
        rust: None,
    }
}

/// The address is not known to the compiler, so that every number is passed.
fn plane(name: &str, items: Vec<(Ray, [f64; 3], f64)>) -> Row {
    let call = black_box(at_plane as OfPlane);
    row(name, items, move |(ray, n, distance), hit| {
        let [a, b, c, d, e, f, most, near] = ray.numbers();
        let (hit, length) = (hit.as_mut_ptr(), hit.len());
        call(
            a, b, c, d, e, f, most, near, n[0], n[1], n[2], *distance, hit, length,
        )
    })
}

fn triangle(name: &str, items: Vec<(Ray, [[f64; 3]; 3])>) -> Row {
    let call = black_box(at_triangle as OfTriangle);
    row(name, items, move |(ray, [p, q, r]), hit| {
        let [a, b, c, d, e, f, most, near] = ray.numbers();
        let (hit, length) = (hit.as_mut_ptr(), hit.len());
        call(
            a, b, c, d, e, f, most, near, p[0], p[1], p[2], q[0], q[1], q[2], r[0], r[1], r[2],
            hit, length,
        )
    })
}

pub fn rows(
    planes: Vec<(Ray, [f64; 3], f64)>,
    triangles: Vec<(Ray, [[f64; 3]; 3])>,
) -> Vec<Planned> {
    vec![
        plan("no work, a plane by numbers", move |name| {
            plane(name, planes)
        }),
        plan("no work, a triangle by numbers", move |name| {
            triangle(name, triangles)
        }),
    ]
}
