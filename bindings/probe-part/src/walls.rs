//! Walls along an axis: those that stand on a floor or hang below a surface, and whether they are upright.
//!
//! A curved wall may have other corners above than below. Its triangles then lean by the sagitta of its sides, and what tells
//! it from a wall that is cut aslant is that both its ends describe the same curve.
use crate::geometry::{dot, length, perimeter, sides, subtract, unit, Sheet, Vector};
use crate::loops;
use crate::rounds::off_round;
use crate::topology::NONE;
use crate::work::{Edge, Work};
use std::collections::HashSet;
use std::f64::consts::PI;

/// A side of a curve turns by at most so much from the one before: seven sides make a circle.
const TURN: f64 = 0.92;

/// What is known of walls that are upright.
#[derive(Clone, Copy, Debug, PartialEq)]
pub struct Upright {
    /// How far the triangles may lie within the curve.
    pub sagitta: f64,
    /// How much area the curve may have beside that of the polygon.
    pub slack: f64,
}

/// The walls that are connected with some, without those that stand on another floor or reach down to the far side.
pub fn connected(work: &Work<'_>, starts: &[u32], up: Vector, floor: Option<u32>) -> Vec<u32> {
    let mut walls: Vec<u32> = starts.to_vec();
    walls.sort_unstable();
    walls.dedup();
    let mut seen: HashSet<u32> = walls.iter().copied().collect();
    let mut next = 0;
    while let Some(&wall) = walls.get(next) {
        next += 1;
        for edge in work.all_edges(wall) {
            let across = edge.across;
            if across == NONE
                || seen.contains(&across)
                || !work.is_free(across)
                || !work.is_near_wall(across, up)
            {
                continue;
            }
            let rises = dot(unit(subtract(edge.to, edge.from)), up).abs() > 0.05;
            if rises && is_hanging(work, across, up, floor) {
                seen.insert(across);
                walls.push(across);
            }
        }
    }
    walls
}

/// Whether a wall stands on no other floor, and does not reach down to the far side where it is to stand on one.
fn is_hanging(work: &Work<'_>, wall: u32, up: Vector, floor: Option<u32>) -> bool {
    let down = up.map(|part| -part);
    let stops = |edge: &Edge| {
        let across = edge.across;
        let other_floor = !edge.is_convex && work.is_level(across, up) && Some(across) != floor;
        let far_side = edge.is_convex && work.is_level(across, down) && floor.is_some();
        other_floor || far_side
    };
    let edges = work.all_edges(wall);
    !edges.iter().any(|edge| edge.across != NONE && stops(edge))
}

/// Whether walls are upright: each runs along the axis, or both their ends describe one curve.
pub fn upright(work: &Work<'_>, walls: &[u32], up: Vector) -> Option<Upright> {
    if walls.iter().all(|&wall| work.is_wall(wall, up)) {
        return Some(Upright {
            sagitta: 0.0,
            slack: 0.0,
        });
    }
    let members: HashSet<u32> = walls.iter().copied().collect();
    let inside = |triangle: u32| members.contains(&work.regions.of_triangle(triangle));
    let triangles: Vec<u32> = walls
        .iter()
        .flat_map(|&wall| &work.regions.all[wall as usize].triangles)
        .copied()
        .collect();
    let ends = loops::border(work.shell, &triangles, inside, up);
    let [one, other] = ends.as_slice() else {
        return None;
    };
    let sheet = Sheet::of(up);
    let flat = |vertices: &[u32]| -> Vec<[f64; 2]> {
        vertices
            .iter()
            .map(|&v| sheet.flat(work.shell.vertices[v as usize]))
            .collect()
    };
    let level = |vertices: &[u32]| {
        let heights: Vec<f64> = vertices
            .iter()
            .map(|&v| dot(work.shell.vertices[v as usize], up))
            .collect();
        heights
            .iter()
            .all(|height| (height - heights[0]).abs() <= 0.01)
    };
    if !level(&one.vertices) || !level(&other.vertices) {
        return None;
    }
    let (one, other) = (flat(&one.vertices), flat(&other.vertices));
    let tolerance = off_round(work.shell);
    if !follows(&one, &other, tolerance) || !follows(&other, &one, tolerance) {
        return None;
    }
    let sagitta = sagitta(&one).max(sagitta(&other));
    Some(Upright {
        sagitta,
        slack: sagitta * perimeter(&one),
    })
}

/// By how much each side turns from the one before it, and the one after it from it, as far as that is a curve's turn.
fn turns(polygon: &[[f64; 2]]) -> Vec<f64> {
    let angles: Vec<f64> = sides(polygon)
        .map(|(a, b)| (b[1] - a[1]).atan2(b[0] - a[0]))
        .collect();
    let count = angles.len();
    let turn = |n: usize| {
        let turn = crate::circles::wrapped(angles[(n + 1) % count] - angles[n % count]).abs();
        if turn > TURN.min(PI) {
            0.0
        } else {
            turn
        }
    };
    (0..count)
        .map(|n| turn(n + count - 1).max(turn(n)))
        .collect()
}

fn sagitta(polygon: &[[f64; 2]]) -> f64 {
    sides(polygon)
        .zip(turns(polygon))
        .map(|((a, b), turn)| (b[0] - a[0]).hypot(b[1] - a[1]) * turn / 8.0)
        .fold(0.0, f64::max)
}

/// Whether points lie on the curve that a polygon's corners lie on: off its sides by no more than the curve bends.
fn follows(points: &[[f64; 2]], polygon: &[[f64; 2]], tolerance: f64) -> bool {
    let turns = turns(polygon);
    let all: Vec<([f64; 2], [f64; 2])> = sides(polygon).collect();
    points.iter().all(|point| {
        all.iter().zip(&turns).any(|((a, b), turn)| {
            let way = [b[0] - a[0], b[1] - a[1]];
            let long = way[0].hypot(way[1]);
            if long <= 0.0 {
                return false;
            }
            let from = [point[0] - a[0], point[1] - a[1]];
            let along = (from[0] * way[0] + from[1] * way[1]) / long;
            let off = (from[0] * way[1] - from[1] * way[0]).abs() / long;
            let bends = along.max(0.0) * (long - along).max(0.0) * turn / (2.0 * long);
            along >= -tolerance && along <= long + tolerance && off <= tolerance + 2.0 * bends
        })
    })
}

/// The length of an edge.
pub fn edge_length(edge: &Edge) -> f64 {
    length(subtract(edge.to, edge.from))
}
