//! Pockets, grooves, rabbets, notches and islands: what has flat floors across an axis and walls along it.
use crate::floors::add_floor;
use crate::geometry::{dot, polygon_area, scale, Vector};
use crate::islands::add_islands;
use crate::notches::add_through;
use crate::topology::NONE;
use crate::work::{DraftEnd, Edge, Work};
use std::collections::HashSet;

/// Probes start so far before the entry.
pub const BEFORE: f64 = 0.2;

/// Adds the rows of all regions that belong to nothing yet, group by group.
pub fn add_pockets(work: &mut Work<'_>) {
    // what stands within the floors of bores
    for place in 0..work.drafts.len() as u32 {
        let draft = &work.drafts[place as usize];
        if draft.end == DraftEnd::Floor {
            let floor = (0..work.owner.len() as u32).find(|&n| {
                work.owner[n as usize] == place && work.is_level(n, scale(draft.axis, -1.0))
            });
            if let Some(floor) = floor {
                let up = work.normal(floor);
                add_islands(work, floor, place, up);
            }
        }
    }
    for group in groups(work) {
        let members: HashSet<u32> = group.iter().copied().collect();
        if let Some(axis) = prismatic_axis(work, &group, &members) {
            add_group(work, &group, &members, axis);
        }
    }
}

/// The free regions, by connection.
fn groups(work: &Work<'_>) -> Vec<Vec<u32>> {
    let mut seen = vec![false; work.owner.len()];
    let mut groups = Vec::new();
    for start in 0..work.owner.len() as u32 {
        if seen[start as usize] || !work.is_free(start) {
            continue;
        }
        seen[start as usize] = true;
        let mut group = vec![start];
        let mut next = 0;
        while let Some(&region) = group.get(next) {
            next += 1;
            for around in &work.regions.all[region as usize].loops {
                for other in work.regions.across(around) {
                    if other != NONE && !seen[other as usize] && work.is_free(other) {
                        seen[other as usize] = true;
                        group.push(other);
                    }
                }
            }
        }
        groups.push(group);
    }
    groups
}

/// The axis that all regions of a group lie across or along, and that it is entered along: z, y, x, or across another
/// outer face.
fn prismatic_axis(work: &Work<'_>, group: &[u32], members: &HashSet<u32>) -> Option<Vector> {
    let mut axes: Vec<Vector> = vec![[0.0, 0.0, 1.0], [0.0, 1.0, 0.0], [1.0, 0.0, 0.0]];
    axes.extend(
        work.outer
            .faces
            .iter()
            .filter(|face| face.name.starts_with("slanted"))
            .map(|face| face.normal),
    );
    axes.into_iter().find(|&axis| {
        let back = scale(axis, -1.0);
        let fits = |&region: &u32| {
            work.is_near_wall(region, axis)
                || work.is_level(region, axis)
                || work.is_level(region, back)
        };
        group.iter().all(fits) && is_entered(work, group, members, axis)
    })
}

/// Whether floors that face along an axis, either way, are seen from a level surface beside the group, or walls alone join
/// two.
fn is_entered(work: &Work<'_>, group: &[u32], members: &HashSet<u32>, axis: Vector) -> bool {
    let mouths = |way: Vector| {
        group.iter().any(|&region| {
            let edges = work.all_edges(region);
            let opens = |edge: &Edge| {
                edge.across != NONE
                    && edge.is_convex
                    && work.is_near_wall(region, axis)
                    && work.is_level(edge.across, way)
                    && !members.contains(&edge.across)
            };
            edges.iter().any(opens)
        })
    };
    let [up, down] = [axis, scale(axis, -1.0)];
    let faces = |way: Vector| group.iter().any(|&region| work.is_level(region, way));
    match (faces(up), faces(down)) {
        (false, false) => mouths(up) && mouths(down),
        (above, below) => (!above || mouths(up)) && (!below || mouths(down)),
    }
}

/// Adds the rows of a group along its axis.
fn add_group(work: &mut Work<'_>, group: &[u32], members: &HashSet<u32>, axis: Vector) {
    let ways = [axis, scale(axis, -1.0)];
    let mut floors: Vec<(u32, Vector)> = Vec::new();
    for &region in group {
        for way in ways {
            if work.is_level(region, way) && !is_island_top(work, region) {
                floors.push((region, way));
            }
        }
    }
    for &(floor, up) in &floors {
        add_floor(work, floor, up);
    }
    for &(floor, up) in &floors {
        let owner = work.owner[floor as usize];
        if owner != NONE {
            add_islands(work, floor, owner, up);
        }
    }
    add_through(work, group, members, axis);
    flood(work, group, members);
}

/// Whether a level region is the top of what stands there: walls go down from it all around.
fn is_island_top(work: &Work<'_>, region: u32) -> bool {
    let down =
        |edge: &Edge| edge.across != NONE && edge.is_convex && work.face(edge.across).is_none();
    work.edges(region, 0).iter().all(down)
}

/// The outer face that looks along a direction.
pub fn face_along(work: &Work<'_>, up: Vector) -> Option<u32> {
    let faces = &work.outer.faces;
    let is_it = |n: &usize| !faces[*n].is_round && dot(faces[*n].normal, up) > 1.0 - 1e-6;
    (0..faces.len()).find(is_it).map(|n| n as u32)
}

/// Gives free walls to the row of a neighbour.
fn flood(work: &mut Work<'_>, group: &[u32], members: &HashSet<u32>) {
    let mut open: Vec<u32> = group
        .iter()
        .copied()
        .filter(|&region| work.owner[region as usize] != NONE)
        .collect();
    while let Some(region) = open.pop() {
        let owner = work.owner[region as usize];
        let across: Vec<u32> = work.regions.all[region as usize]
            .loops
            .iter()
            .flat_map(|around| work.regions.across(around))
            .collect();
        for other in across {
            if other != NONE && work.is_free(other) && members.contains(&other) {
                work.owner[other as usize] = owner;
                open.push(other);
            }
        }
    }
}

/// The area of a polygon, without its sign.
pub fn area_of(points: &[Vector], normal: Vector) -> f64 {
    polygon_area(points, normal).abs()
}
