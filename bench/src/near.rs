//! Rays with a near distance, which the Rust does not have.

use crate::{
    areas::{self, Ray},
    clock, inputs,
    timing::Row,
};
use probe_rays::sys::HIT;
use std::hint::black_box;

/// Probes from above the panel, at least 1 away from it: near leaves every hit, so that the Rust's answer without it is the same.
pub fn above_panel(rays: &[Ray]) -> Vec<Ray> {
    let above = rays.iter().filter(|ray| ray.direction[2] != 0.0);
    above
        .map(|ray| Ray {
            near_distance: 0.75,
            ..*ray
        })
        .collect()
}

/// Rays whose near distance lies in the ball, 3 away from the origin: they meet the ball's far side, where its radius says.
pub fn in_ball(name: &str) -> Row {
    let grid = inputs::ball(64);
    let mut rays = inputs::at_ball(256, 0.0, 0.9);
    rays.iter_mut().for_each(|ray| ray.near_distance = 3.0);
    let mut hit = [0.0; 4];
    for ray in &rays {
        assert_eq!(areas::level_set(ray, &grid, &mut hit), HIT, "{name}");
        let reached = [0, 1, 2].map(|axis| ray.origin[axis] + ray.direction[axis] * hit[3]);
        let radius = reached.iter().map(|c| c * c).sum::<f64>().sqrt();
        assert!(
            hit[3] >= 3.0 && (radius - 1.0).abs() < 0.01,
            "{name}: {radius}"
        );
    }
    Row {
        name: name.to_owned(),
        units: rays.len() as f64,
        clock: clock::thread,
        ours: Box::new(move || {
            for ray in black_box(&rays[..]) {
                black_box(areas::level_set(ray, &grid, &mut hit));
                black_box(&mut hit);
            }
        }),
        rust: None,
    }
}
