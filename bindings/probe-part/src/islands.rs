//! Islands: what is left standing on a floor, or stands out of an outer face.
use crate::drilled::NEAR;
use crate::geometry::{along, dot, scale, Sheet, Vector};
use crate::model::{Kind, Outline};
use crate::outline::named;
use crate::pockets::{area_of, face_along, BEFORE};
use crate::rounds::off_round;
use crate::topology::NONE;
use crate::walls::{connected, upright, Upright};
use crate::work::{Draft, DraftEnd, Edge, Probe, Work};

/// A level surface that walls end at.
#[derive(Clone, Copy, Debug)]
pub struct Level {
    /// Its region.
    pub region: u32,
    /// How far along the direction it lies.
    pub offset: f64,
    /// Whether it is part of an outer face.
    pub is_face: bool,
}

/// The corners of a hole of a region, to the left around.
pub fn loop_at(work: &Work<'_>, region: u32, number: usize) -> Vec<Vector> {
    let mut corners = work.corners(region, number);
    corners.reverse();
    corners
}

/// Adds what stands on a floor that belongs to a row: its holes whose walls go up. A round one in the middle of a round
/// floor makes the row a ring.
pub fn add_islands(work: &mut Work<'_>, floor: u32, owner: u32, up: Vector) {
    for number in 1..work.regions.all[floor as usize].loops.len() {
        let edges = work.edges(floor, number);
        let rises = |edge: &Edge| {
            edge.across != NONE && !edge.is_convex && work.is_near_wall(edge.across, up)
        };
        if !edges.iter().all(rises) {
            continue;
        }
        let standing: Vec<u32> = edges.iter().map(|edge| edge.across).collect();
        let walls = connected(work, &standing, up, Some(floor));
        let straight = upright(work, &walls, up);
        if let (Some(top), Some(straight)) = (top_of(work, &walls, up), straight) {
            let island = Standing {
                floor,
                number,
                owner,
                up,
                walls,
                top,
                straight,
            };
            add_island(work, island);
        }
    }
}

/// The surface that walls go up to.
fn top_of(work: &Work<'_>, walls: &[u32], up: Vector) -> Option<Level> {
    let mut top: Option<Level> = None;
    for &wall in walls {
        for edge in work.all_edges(wall) {
            if edge.across != NONE && edge.is_convex && work.is_level(edge.across, up) {
                let level = Level {
                    region: edge.across,
                    offset: work.regions.all[edge.across as usize].offset,
                    is_face: work.face(edge.across).is_some(),
                };
                if top.is_some_and(|known| known.region != level.region) {
                    return None;
                }
                top = Some(level);
            }
        }
    }
    top
}

/// What stands in a hole of a floor that belongs to a row.
struct Standing {
    floor: u32,
    number: usize,
    owner: u32,
    up: Vector,
    walls: Vec<u32>,
    top: Level,
    straight: Upright,
}

fn add_island(work: &mut Work<'_>, island: Standing) {
    let Standing {
        floor,
        number,
        owner,
        up,
        mut walls,
        top,
        straight,
    } = island;
    let sheet = Sheet::of(up);
    let corners = loop_at(work, floor, number);
    let flat: Vec<[f64; 2]> = corners.iter().map(|&corner| sheet.flat(corner)).collect();
    let outline = named(&flat, off_round(work.shell));
    let base = work.regions.all[floor as usize].offset;
    let height = top.offset - base;
    let area = area_of(&corners, up);
    let polygon: Vec<Vector> = corners
        .iter()
        .map(|&corner| along(corner, up, height))
        .collect();
    let middle = middle_of(work, top.region);
    let probe = Probe {
        what: "down to its top",
        from: along(middle, up, BEFORE),
        way: scale(up, -1.0),
        expected: [BEFORE - NEAR, BEFORE + NEAR],
    };
    if ring(
        work,
        floor,
        owner,
        up,
        &outline.outline,
        &outline.centre,
        top,
    ) {
        let draft = &mut work.drafts[owner as usize];
        draft.volume[0] -= (area + straight.slack) * height;
        draft.volume[1] -= (area - straight.slack) * height;
        draft.loops.push(polygon);
        draft.probes.push(probe);
        for wall in walls {
            if work.is_free(wall) {
                work.owner[wall as usize] = owner;
            }
        }
        return;
    }
    work.drafts[owner as usize].loops.push(polygon.clone());
    let face = face_along(work, up);
    let draft = Draft {
        kind: Kind::Island,
        face,
        outline: outline.outline,
        centre: sheet.solid(outline.centre, top.offset),
        axis: scale(up, -1.0),
        entry_depth: face.map_or(0.0, |face| work.outer.offsets[face as usize] - top.offset),
        depth: height,
        end: DraftEnd::Floor,
        cone: None,
        within: Some(floor),
        open: Vec::new(),
        loops: vec![polygon],
        volume: [
            -(area + straight.slack) * height,
            -(area - straight.slack) * height,
        ],
        probes: vec![probe],
    };
    walls.push(top.region);
    work.add(draft, walls);
}

/// Whether an island makes its row a ring: both are circles of one centre, and the island reaches up to the row's entry.
fn ring(
    work: &mut Work<'_>,
    floor: u32,
    owner: u32,
    up: Vector,
    island: &Outline,
    centre: &[f64; 2],
    top: Level,
) -> bool {
    let holes = work.regions.all[floor as usize].loops.len() - 1;
    let draft = &mut work.drafts[owner as usize];
    let sheet = Sheet::of(up);
    let own = sheet.flat(draft.centre);
    let apart = (own[0] - centre[0]).hypot(own[1] - centre[1]);
    let level = (top.offset - dot(draft.centre, up)).abs() <= NEAR;
    match (&draft.outline, island) {
        (
            Outline::Circle {
                diameter: outer, ..
            },
            Outline::Circle {
                diameter: inner, ..
            },
        ) if holes == 1 && apart <= 0.01 && level => {
            draft.outline = Outline::Ring {
                outer: *outer,
                inner: *inner,
            };
            draft.kind = Kind::Groove;
            true
        }
        _ => false,
    }
}

/// The middle of the largest triangle of a region.
pub fn middle_of(work: &Work<'_>, region: u32) -> Vector {
    let areas = &work.shell.areas;
    let triangles = work.regions.all[region as usize].triangles.iter();
    let largest = triangles.max_by(|&&a, &&b| areas[a as usize].total_cmp(&areas[b as usize]));
    let [a, b, c] = work.shell.corners(largest.copied().unwrap_or(0));
    std::array::from_fn(|axis| (a[axis] + b[axis] + c[axis]) / 3.0)
}
