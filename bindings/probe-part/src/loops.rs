//! The polygons around a flat region.
use crate::geometry::{dot, length, polygon_area, subtract, unit, Vector};
use crate::planes::Region;
use crate::topology::{Shell, NONE};
use std::collections::HashMap;

/// A polygon around a region: its vertices, the region to their left.
#[derive(Clone, Debug)]
pub struct Loop {
    /// The vertices.
    pub vertices: Vec<u32>,
    /// The triangle across the edge from each vertex to the next; [`NONE`] at an open edge.
    pub across: Vec<u32>,
    /// The vertices that are corners: the others lie on a straight line between them.
    pub corners: Vec<u32>,
    /// Its area, below 0 for the outline of a hole.
    pub area: f64,
}

/// The loops around a region, the outer one first.
pub fn around(shell: &Shell, region: &Region, label: u32, of: &[u32]) -> Vec<Loop> {
    let inside = |triangle: u32| triangle != NONE && of[triangle as usize] == label;
    border(shell, &region.triangles, inside, region.normal)
}

/// The loops around triangles, by which triangles are within; that of the largest area, seen from a normal, first.
pub fn border(
    shell: &Shell,
    triangles: &[u32],
    inside: impl Fn(u32) -> bool + Copy,
    normal: Vector,
) -> Vec<Loop> {
    // each edge of the border: a triangle and its side
    let mut border: Vec<(u32, u8)> = Vec::new();
    for &triangle in triangles {
        for side in 0..3_u8 {
            if !inside(shell.neighbours[triangle as usize][side as usize]) {
                border.push((triangle, side));
            }
        }
    }
    let places: HashMap<(u32, u8), usize> =
        border.iter().enumerate().map(|(n, &e)| (e, n)).collect();
    let mut used = vec![false; border.len()];
    let mut loops = Vec::new();
    for start in 0..border.len() {
        if used[start] {
            continue;
        }
        let (mut vertices, mut across) = (Vec::new(), Vec::new());
        let mut place = start;
        while !used[place] {
            used[place] = true;
            let (triangle, side) = border[place];
            vertices.push(shell.triangles[triangle as usize][side as usize]);
            across.push(shell.neighbours[triangle as usize][side as usize]);
            match following(shell, (triangle, side), inside) {
                Some(next) => place = places[&next],
                None => break,
            }
        }
        let points: Vec<Vector> = vertices
            .iter()
            .map(|&v| shell.vertices[v as usize])
            .collect();
        loops.push(Loop {
            corners: corners(shell, &vertices),
            area: polygon_area(&points, normal),
            vertices,
            across,
        });
    }
    loops.sort_by(|a, b| b.area.total_cmp(&a.area));
    loops
}

/// The next edge of the border after one: around its end, through the triangles within.
fn following(shell: &Shell, edge: (u32, u8), inside: impl Fn(u32) -> bool) -> Option<(u32, u8)> {
    let (mut triangle, mut side) = (edge.0, (edge.1 + 1) % 3);
    for _ in 0..shell.triangles.len() {
        let other = shell.neighbours[triangle as usize][side as usize];
        if !inside(other) {
            return Some((triangle, side));
        }
        // the edge in the neighbour begins where it ends here; the one after it leaves the same vertex
        let pivot = shell.triangles[triangle as usize][side as usize];
        let from = (0..3).find(|&k| shell.triangles[other as usize][k] == pivot)?;
        (triangle, side) = (other, from as u8);
    }
    None
}

/// The vertices of a loop that do not lie on a line between their neighbours.
fn corners(shell: &Shell, vertices: &[u32]) -> Vec<u32> {
    let point = |n: usize| shell.vertices[vertices[n % vertices.len()] as usize];
    let count = vertices.len();
    let off = 1e-4 + 2.0 * shell.rounding;
    let straight = |before: usize, at: usize, after: usize| {
        let (from, to) = (point(before), point(after));
        let way = unit(subtract(to, from));
        let way_there = subtract(point(at), from);
        let along = dot(way_there, way);
        let aside = length(subtract(way_there, way.map(|part| part * along)));
        aside <= off && along >= 0.0 && along <= length(subtract(to, from))
    };
    let first = (0..count)
        .find(|&n| !straight(n + count - 1, n, n + 1))
        .unwrap_or(0);
    let mut kept = vec![first];
    let mut last = first;
    for n in first + 1..first + count {
        // every vertex since the last corner is to lie on the line to the next one
        if !(last + 1..=n).all(|at| straight(last, at, n + 1)) {
            kept.push(n % count);
            last = n;
        }
    }
    kept.into_iter().map(|n| vertices[n]).collect()
}
