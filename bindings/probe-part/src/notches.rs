//! What goes right through with walls along an axis: slots and cut-outs, and notches that are open at a side.
use crate::drilled::NEAR;
use crate::geometry::{along, dot, length, scale, straightened, subtract, Sheet, Vector};
use crate::islands::loop_at;
use crate::model::{Kind, Outline};
use crate::outline::named;
use crate::pockets::{area_of, face_along, BEFORE};
use crate::rounds::off_round;
use crate::topology::NONE;
use crate::walls::{connected, upright};
use crate::work::{probes_beside, Draft, DraftEnd, Edge, Work};
use std::collections::HashSet;

/// Adds what goes through, from the level surfaces beside a group that face along its axis.
pub fn add_through(work: &mut Work<'_>, group: &[u32], members: &HashSet<u32>, axis: Vector) {
    for up in [axis, scale(axis, -1.0)] {
        for region in mouths(work, group, up) {
            for number in 0..work.regions.all[region as usize].loops.len() {
                let edges = work.edges(region, number);
                let ours = |edge: &Edge| {
                    let across = edge.across;
                    across != NONE
                        && edge.is_convex
                        && work.is_free(across)
                        && work.is_near_wall(across, up)
                };
                if number > 0 && edges.iter().all(ours) {
                    add_closed(work, region, number, up, &edges);
                } else if number == 0 && work.face(region).is_some() {
                    add_open(work, region, up, &edges, members);
                }
            }
        }
    }
}

/// The level regions beside a group that face a direction.
fn mouths(work: &Work<'_>, group: &[u32], up: Vector) -> Vec<u32> {
    let mut found: Vec<u32> = group
        .iter()
        .flat_map(|&region| work.all_edges(region))
        .map(|edge| edge.across)
        .filter(|&across| across != NONE && work.is_level(across, up))
        .collect();
    found.sort_unstable();
    found.dedup();
    found
}

/// Whether a free wall ends below at a surface that faces down, and at no floor.
fn goes_down(work: &Work<'_>, wall: u32, up: Vector) -> bool {
    if !work.is_free(wall) || !work.is_wall(wall, up) {
        return false;
    }
    let edges = work.all_edges(wall);
    let ends = |edge: &Edge| {
        edge.across != NONE && edge.is_convex && work.is_level(edge.across, scale(up, -1.0))
    };
    let floor =
        |edge: &Edge| edge.across != NONE && !edge.is_convex && work.is_level(edge.across, up);
    edges.iter().any(ends) && !edges.iter().any(floor)
}

/// The level that walls end at below, and a region of it: the far face where they reach it, beside floors of other rows
/// too; else the one floor that they all end at.
fn bottom_of(work: &Work<'_>, walls: &[u32], up: Vector) -> Option<(f64, u32)> {
    let down = scale(up, -1.0);
    let mut ends: Vec<u32> = walls
        .iter()
        .flat_map(|&wall| work.all_edges(wall))
        .filter(|edge| edge.across != NONE && edge.is_convex && work.is_level(edge.across, down))
        .map(|edge| edge.across)
        .collect();
    ends.sort_unstable();
    ends.dedup();
    let far = ends.iter().copied().find(|&end| work.face(end).is_some());
    let below = match (far, ends.as_slice()) {
        (Some(face), _) => face,
        (None, &[floor]) => floor,
        _ => return None,
    };
    Some((-work.regions.all[below as usize].offset, below))
}

/// Adds a cut-out with walls all around.
fn add_closed(work: &mut Work<'_>, region: u32, number: usize, up: Vector, edges: &[Edge]) {
    let corners = loop_at(work, region, number);
    let polygon = corners.clone();
    let hanging: Vec<u32> = edges.iter().map(|edge| edge.across).collect();
    let walls = connected(work, &hanging, up, None);
    // the void lies to the right of a hole's edges
    let back: Vec<Edge> = edges.iter().map(reversed).collect();
    add(work, region, up, polygon, &back, walls, Vec::new());
}

fn reversed(edge: &Edge) -> Edge {
    Edge {
        from: edge.to,
        to: edge.from,
        ..*edge
    }
}

/// Adds the notches of the outline of an outer face: runs of edges whose walls go through, closed along the body's side.
fn add_open(work: &mut Work<'_>, region: u32, up: Vector, edges: &[Edge], members: &HashSet<u32>) {
    let count = edges.len();
    let ours = |edge: &Edge| {
        edge.across != NONE
            && members.contains(&edge.across)
            && edge.is_convex
            && goes_down(work, edge.across, up)
    };
    let flags: Vec<bool> = edges.iter().map(ours).collect();
    let Some(gap) = flags.iter().position(|flag| !flag) else {
        return;
    };
    let mut runs: Vec<Vec<Edge>> = Vec::new();
    let mut run: Vec<Edge> = Vec::new();
    for step in 1..=count {
        let place = (gap + step) % count;
        if flags[place] {
            run.push(edges[place]);
        } else if !run.is_empty() {
            runs.push(std::mem::take(&mut run));
        }
    }
    for run in runs {
        let offset = work.regions.all[region as usize].offset;
        let Some(side) = work.outer.body.side(up, offset, 0.01) else {
            continue;
        };
        let (Some(first), Some(last)) = (run.first(), run.last()) else {
            continue;
        };
        let Some(closing) = along_side(side, first.from, last.to) else {
            continue;
        };
        let mut polygon: Vec<Vector> = run.iter().rev().map(|edge| edge.to).collect();
        polygon.push(first.from);
        polygon.extend(closing);
        let mut walls: Vec<u32> = run.iter().map(|edge| edge.across).collect();
        walls.sort_unstable();
        walls.dedup();
        let open = open_faces(work, &walls, up);
        let back: Vec<Edge> = run.iter().map(reversed).collect();
        add(work, region, up, polygon, &back, walls, open);
    }
}

/// The outer faces beside walls that are not the two that the walls join.
fn open_faces(work: &Work<'_>, walls: &[u32], up: Vector) -> Vec<u32> {
    let ends = |region: u32| work.is_level(region, up) || work.is_level(region, scale(up, -1.0));
    let mut open: Vec<u32> = walls
        .iter()
        .flat_map(|&wall| work.all_edges(wall))
        .filter(|edge| edge.across != NONE && !ends(edge.across))
        .filter_map(|edge| work.face(edge.across))
        .collect();
    open.sort_unstable();
    open.dedup();
    open
}

/// The corners of a convex polygon, to the left around, between two points of its sides.
fn along_side(side: &[Vector], from: Vector, to: Vector) -> Option<Vec<Vector>> {
    let count = side.len();
    let place = |point: Vector| {
        let mut best = (0.02, None);
        for n in 0..count {
            let (a, b) = (side[n], side[(n + 1) % count]);
            let way = subtract(b, a);
            let long = length(way);
            if long <= 1e-9 {
                continue;
            }
            let way = scale(way, 1.0 / long);
            let share = dot(subtract(point, a), way).clamp(0.0, long);
            let off = length(subtract(point, along(a, way, share)));
            if off < best.0 {
                best = (off, Some(n as f64 + (share / long).min(1.0 - 1e-12)));
            }
        }
        best.1
    };
    let (start, end) = (place(from)?, place(to)?);
    let end = if end < start { end + count as f64 } else { end };
    let first = start.floor() as usize + 1;
    let corners = (first..=end.floor() as usize).map(|n| side[n % count]);
    Some(corners.collect())
}

/// Adds a row that goes through from a level surface.
fn add(
    work: &mut Work<'_>,
    region: u32,
    up: Vector,
    polygon: Vec<Vector>,
    edges: &[Edge],
    walls: Vec<u32>,
    open: Vec<u32>,
) {
    let Some((bottom, below)) = bottom_of(work, &walls, up) else {
        return;
    };
    let on_floor =
        |edge: &Edge| edge.across != NONE && !edge.is_convex && work.is_level(edge.across, up);
    if walls
        .iter()
        .any(|&wall| work.all_edges(wall).iter().any(on_floor))
    {
        return;
    }
    let Some(straight) = upright(work, &walls, up) else {
        return;
    };
    let entry = work.regions.all[region as usize].offset;
    let depth = entry - bottom;
    let sheet = Sheet::of(up);
    let corners = straightened(&polygon);
    let flat: Vec<[f64; 2]> = corners.iter().map(|&corner| sheet.flat(corner)).collect();
    let outline = named(&flat, off_round(work.shell));
    let face = face_along(work, up);
    let entry_depth = face.map_or(0.0, |face| work.outer.offsets[face as usize] - entry);
    let ends_outside = work.face(below).is_some();
    let area = area_of(&polygon, up);
    let down = scale(up, -1.0);
    let free = [depth - NEAR, f64::INFINITY];
    let draft = Draft {
        kind: match outline.outline {
            _ if !open.is_empty() => Kind::Notch,
            Outline::Circle { .. } => Kind::Bore,
            _ => Kind::Pocket,
        },
        face,
        outline: outline.outline,
        centre: sheet.solid(outline.centre, entry),
        axis: down,
        entry_depth,
        depth,
        end: if ends_outside {
            DraftEnd::Through
        } else {
            DraftEnd::Into(below)
        },
        cone: None,
        within: work.face(region).is_none().then_some(region),
        open,
        loops: vec![corners],
        volume: [-1.0, 1.0].map(|sign| (area + sign * straight.slack) * depth),
        probes: probes_beside(
            edges,
            down,
            (up, entry),
            free,
            BEFORE,
            2.0 * straight.sagitta,
        ),
    };
    work.add(draft, walls);
}
