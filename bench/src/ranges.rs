//! The cast at heights known only within ranges, which the Rust does not have.

use crate::{
    areas::{self, Ranges, Ray},
    clock, inputs,
    rows::{Planned, plan},
    timing::Row,
};
use probe_rays::sys::{CLEAR, POSSIBLE};
use std::hint::black_box;

/// The wave of the height rows, each height known within 1/4 to either side.
fn ranges() -> Ranges {
    let field = inputs::heights(256);
    let moved = |by: f64| field.heights.iter().map(|height| height + by).collect();
    Ranges {
        rows: field.rows,
        columns: field.columns,
        spacing: field.spacing,
        lows: moved(-0.25),
        highs: moved(0.25),
    }
}

fn row(name: &str, wanted: u32, rays: Vec<Ray>) -> Row {
    let ranges = ranges();
    let mut cell = [0];
    for ray in &rays {
        assert_eq!(
            areas::height_ranges(ray, &ranges, &mut cell),
            wanted,
            "{name}"
        );
    }
    Row {
        name: name.to_owned(),
        units: rays.len() as f64,
        clock: clock::thread,
        ours: Box::new(move || {
            for ray in black_box(&rays[..]) {
                black_box(areas::height_ranges(ray, &ranges, &mut cell));
                black_box(&mut cell);
            }
        }),
        rust: None,
    }
}

/// Rays that end before they reach the highest height.
fn ended(mut rays: Vec<Ray>) -> Vec<Ray> {
    rays.iter_mut().for_each(|ray| ray.max_distance = 1.0);
    rays
}

pub fn rows() -> Vec<Planned> {
    let short = inputs::from_above(1_024, 255.0, 255.0);
    let ending = ended(short.clone());
    let over = inputs::above(4, 255.0);
    vec![
        plan("height ranges, short probes, possible", |name| {
            row(name, POSSIBLE, short)
        }),
        plan("height ranges, short probes, clear", |name| {
            row(name, CLEAR, ending)
        }),
        plan("height ranges, long oblique rays, clear", |name| {
            row(name, CLEAR, over)
        }),
    ]
}
