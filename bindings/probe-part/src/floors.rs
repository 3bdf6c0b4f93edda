//! The row of a flat floor with upright walls: a pocket, a groove or a rabbet.
use crate::drilled::NEAR;
use crate::geometry::{along, dot, scale, Sheet, Vector};
use crate::islands::Level;
use crate::model::{Kind, Outline};
use crate::outline::named;
use crate::pockets::{face_along, BEFORE};
use crate::rounds::off_round;
use crate::topology::NONE;
use crate::walls::{connected, edge_length, upright};
use crate::work::{probes_beside, Draft, DraftEnd, Edge, Probe, Work};

/// The level that a floor is entered from: the outer face where its walls reach it, else the deepest floor that it is a hole
/// of, else the outer face all the same: beside other floors it takes away all that is above it.
fn entry_of(work: &Work<'_>, walls: &[u32], up: Vector, height: f64) -> Option<Level> {
    let mut deepest: Option<Level> = None;
    for edge in walls.iter().flat_map(|&wall| work.all_edges(wall)) {
        if edge.across == NONE || !edge.is_convex || !work.is_level(edge.across, up) {
            continue;
        }
        let level = Level {
            region: edge.across,
            offset: work.regions.all[edge.across as usize].offset,
            is_face: work.face(edge.across).is_some(),
        };
        if level.is_face {
            return Some(level);
        }
        let is_deeper = deepest.map_or(true, |known| level.offset < known.offset);
        if level.offset > height && is_deeper && lies_within(work, level.region, walls) {
            deepest = Some(level);
        }
    }
    deepest.or_else(|| {
        let face = face_along(work, up)?;
        Some(Level {
            region: NONE,
            offset: work.outer.offsets[face as usize],
            is_face: true,
        })
    })
}

/// Adds the row of a floor that faces a direction.
pub fn add_floor(work: &mut Work<'_>, floor: u32, up: Vector) {
    let edges = work.edges(floor, 0);
    let height = work.regions.all[floor as usize].offset;
    let rising =
        |edge: &&Edge| edge.across != NONE && !edge.is_convex && work.is_near_wall(edge.across, up);
    let standing: Vec<u32> = edges
        .iter()
        .filter(rising)
        .map(|edge| edge.across)
        .collect();
    let mut walls = connected(work, &standing, up, Some(floor));
    let Some(straight) = upright(work, &walls, up) else {
        return;
    };
    // walls around islands lead up as well, where the outline has none
    let mut inner = Vec::new();
    for number in 1..work.regions.all[floor as usize].loops.len() {
        inner.extend(
            work.edges(floor, number)
                .iter()
                .filter(rising)
                .map(|edge| edge.across),
        );
    }
    let seen: &[u32] = if walls.is_empty() { &inner } else { &walls };
    let Some(entry) = entry_of(work, seen, up, height) else {
        return;
    };
    let down = scale(up, -1.0);
    let corners = work.corners(floor, 0);
    let sheet = Sheet::of(up);
    let flat: Vec<[f64; 2]> = corners.iter().map(|&corner| sheet.flat(corner)).collect();
    let outline = named(&flat, off_round(work.shell));
    let centre = sheet.solid(outline.centre, entry.offset);
    let mut open: Vec<u32> = edges
        .iter()
        .filter(|edge| edge.across != NONE && edge.is_convex)
        .filter_map(|edge| work.face(edge.across))
        .collect();
    open.sort_unstable();
    open.dedup();
    let depth = entry.offset - height;
    let face = face_along(work, up);
    let entry_depth = face.map_or(0.0, |face| work.outer.offsets[face as usize] - entry.offset);
    let area = work.regions.all[floor as usize].loops[0].area;
    let taken = [-1.0, 1.0].map(|sign| (area + sign * straight.slack) * depth);
    let rising_edges: Vec<Edge> = edges.iter().filter(rising).copied().collect();
    let before = BEFORE;
    let near = [depth - NEAR, depth + NEAR];
    let tops = top_edges(work, &rising_edges, up, entry);
    let bulge = 2.0 * straight.sagitta;
    let mut probes = probes_beside(&tops, down, (up, entry.offset), near, before, bulge);
    probes.extend(floor_probe(work, floor, up, entry.offset, depth));
    let kind = kind_of(&edges, &outline.outline, &open, work);
    let draft = Draft {
        kind,
        face,
        outline: outline.outline,
        centre,
        axis: down,
        entry_depth,
        depth,
        end: DraftEnd::Floor,
        cone: None,
        within: (!entry.is_face).then_some(entry.region),
        open,
        loops: vec![corners
            .iter()
            .map(|&corner| along(corner, up, depth))
            .collect()],
        volume: taken,
        probes,
    };
    walls.push(floor);
    work.add(draft, walls);
}

/// The edges whose walls end at the level of the entry: beside others the entry's plane is not met.
fn top_edges(work: &Work<'_>, edges: &[Edge], up: Vector, entry: Level) -> Vec<Edge> {
    let ends_there = |edge: &&Edge| {
        let above = work.all_edges(edge.across);
        let mut levels = above
            .iter()
            .filter(|top| top.across != NONE && top.is_convex && work.is_level(top.across, up))
            .map(|top| work.regions.all[top.across as usize].offset)
            .peekable();
        levels.peek().is_some() && levels.all(|level| (level - entry.offset).abs() < 0.01)
    };
    edges.iter().filter(ends_there).copied().collect()
}

/// A probe down to the middle of the floor's largest triangle.
fn floor_probe(work: &Work<'_>, floor: u32, up: Vector, entry: f64, depth: f64) -> Option<Probe> {
    let region = &work.regions.all[floor as usize];
    let areas = &work.shell.areas;
    let largest = region
        .triangles
        .iter()
        .max_by(|&&a, &&b| areas[a as usize].total_cmp(&areas[b as usize]))?;
    let [a, b, c] = work.shell.corners(*largest);
    let middle: Vector = std::array::from_fn(|axis| (a[axis] + b[axis] + c[axis]) / 3.0);
    let from = along(middle, up, entry - dot(middle, up) + BEFORE);
    Some(Probe {
        what: "down to its floor",
        from,
        way: scale(up, -1.0),
        expected: [depth + BEFORE - NEAR, depth + BEFORE + NEAR],
    })
}

/// Whether walls stand in a hole of a region.
fn lies_within(work: &Work<'_>, region: u32, walls: &[u32]) -> bool {
    let loops = &work.regions.all[region as usize].loops;
    let mut holes = loops.iter().skip(1);
    holes.any(|hole| {
        work.regions
            .across(hole)
            .any(|across| walls.contains(&across))
    })
}

/// A pocket with a floor by where it is open: nowhere, along a longer side, or at ends alone.
fn kind_of(edges: &[Edge], outline: &Outline, open: &[u32], work: &Work<'_>) -> Kind {
    if open.is_empty() {
        return match outline {
            Outline::Circle { .. } => Kind::Bore,
            _ => Kind::Pocket,
        };
    }
    let of_face = |face: u32| -> f64 {
        let at = |edge: &&Edge| edge.across != NONE && work.face(edge.across) == Some(face);
        edges.iter().filter(at).map(edge_length).sum()
    };
    let longest = open.iter().map(|&face| of_face(face)).fold(0.0, f64::max);
    let size = match outline {
        Outline::Rectangle { size, .. }
        | Outline::Rounded { size, .. }
        | Outline::Slot { size, .. } => *size,
        Outline::Other { size } => *size,
        _ => return Kind::Groove,
    };
    if longest > size[0].max(size[1]) * 0.9 {
        Kind::Rabbet
    } else {
        Kind::Groove
    }
}
