//! The ends of a round surface, and what lies beyond them.
use crate::geometry::{polygon_area, Vector};
use crate::loops::{self, Loop};
use crate::rounds::Round;
use crate::topology::NONE;
use crate::work::{Edge, Work};

/// What lies beyond an end of a round surface.
#[derive(Clone, Copy, Debug, PartialEq)]
pub enum Beyond {
    /// An outer face.
    Face(u32),
    /// A flat region that the surface opens in.
    Level(u32),
    /// A flat region that closes it.
    Floor(u32),
    /// Another round surface.
    Round(u32),
    /// Several of these, and an outer face among them that it opens in.
    Partly(u32),
    /// Several of these, and no outer face.
    Mixed,
}

/// An end of a round surface.
pub struct Rim {
    /// What lies beyond it.
    pub beyond: Beyond,
    /// The mean height of its vertices along the axis.
    pub mean: f64,
    /// The least.
    pub low: f64,
    /// The largest.
    pub high: f64,
    /// Its area, across the axis.
    pub area: f64,
    /// Its edges.
    pub edges: Vec<Edge>,
}

/// The ends of a round surface: the loops around it that go around its axis.
pub fn rims(work: &Work<'_>, number: u32) -> Vec<Rim> {
    let round = &work.rounds.all[number as usize];
    let region_of = |triangle: u32| work.regions.of_triangle(triangle);
    let inside = |triangle: u32| {
        let region = region_of(triangle);
        region != NONE && work.rounds.of[region as usize] == number
    };
    let triangles: Vec<u32> = round
        .regions
        .iter()
        .flat_map(|&n| &work.regions.all[n as usize].triangles)
        .copied()
        .collect();
    let all = loops::border(work.shell, &triangles, inside, round.axis.direction);
    all.iter()
        .filter_map(|around| rim(work, round, around))
        .collect()
}

/// A loop as an end, if it goes around the axis.
fn rim(work: &Work<'_>, round: &Round, around: &Loop) -> Option<Rim> {
    let points: Vec<Vector> = around
        .vertices
        .iter()
        .map(|&v| work.shell.vertices[v as usize])
        .collect();
    let area = polygon_area(&points, round.axis.direction);
    let heights = || points.iter().map(|&point| round.axis.height(point));
    let mean = heights().sum::<f64>() / points.len() as f64;
    let radius = round.radius_at(mean);
    // the loop of an opening in the wall does not enclose the axis
    if !encloses(&points, round) || radius <= 0.0 {
        return None;
    }
    let count = points.len();
    let mut edges = Vec::new();
    for place in 0..count {
        let across = work.regions.of_triangle(around.across[place]);
        let (from, to) = (points[place], points[(place + 1) % count]);
        let own = own_region(work, around, place);
        let is_convex =
            across != NONE && work.is_convex(own, across, crate::geometry::subtract(to, from));
        edges.push(Edge {
            across,
            from,
            to,
            is_convex,
        });
    }
    Some(Rim {
        beyond: beyond(work, &edges),
        mean,
        low: heights().fold(f64::INFINITY, f64::min),
        high: heights().fold(f64::NEG_INFINITY, f64::max),
        area: area.abs(),
        edges,
    })
}

/// Whether a loop goes around the axis.
fn encloses(points: &[Vector], round: &Round) -> bool {
    let sheet = crate::geometry::Sheet::of(round.axis.direction);
    let centre = sheet.flat(round.axis.point);
    let angle = |point: &Vector| {
        let [u, v] = sheet.flat(*point);
        (v - centre[1]).atan2(u - centre[0])
    };
    let next = points.iter().cycle().skip(1);
    let turn: f64 = points
        .iter()
        .zip(next)
        .map(|(a, b)| crate::circles::wrapped(angle(b) - angle(a)))
        .sum();
    turn.abs() > 3.0
}

/// The region of the surface that an edge of its border belongs to.
fn own_region(work: &Work<'_>, around: &Loop, place: usize) -> u32 {
    let (from, across) = (around.vertices[place], around.across[place]);
    if across == NONE {
        return 0;
    }
    let neighbours = work.shell.neighbours[across as usize];
    let corners = work.shell.triangles[across as usize];
    let side = (0..3).find(|&side| corners[(side + 1) % 3] == from && neighbours[side] != NONE);
    side.map_or(0, |side| work.regions.of_triangle(neighbours[side]))
}

/// What lies beyond the edges of an end.
fn beyond(work: &Work<'_>, edges: &[Edge]) -> Beyond {
    let kind = |edge: &Edge| match edge.across {
        NONE => Beyond::Mixed,
        region => match (work.round(region), work.face(region)) {
            // a round outer face may be a whole cylinder
            (_, Some(face)) if edge.is_convex => Beyond::Face(face),
            (Some(round), _) => Beyond::Round(round),
            (None, _) if edge.is_convex => Beyond::Level(region),
            (None, _) => Beyond::Floor(region),
        },
    };
    let Some(first) = edges.first().map(kind) else {
        return Beyond::Mixed;
    };
    if edges.iter().all(|edge| kind(edge) == first) {
        return first;
    }
    // a floor among them is an end of its own
    let closed = edges
        .iter()
        .any(|edge| matches!(kind(edge), Beyond::Floor(_) | Beyond::Mixed));
    let face = edges.iter().find_map(|edge| match kind(edge) {
        Beyond::Face(face) => Some(face),
        _ => None,
    });
    match face {
        Some(face) if !closed => Beyond::Partly(face),
        _ => Beyond::Mixed,
    }
}

/// The plane of an end: that of the outer face where it opens in one, or of the region beyond it. On a cylinder it has none.
pub fn plane(work: &Work<'_>, rim: &Rim) -> Option<(Vector, f64)> {
    match rim.beyond {
        Beyond::Face(face) | Beyond::Partly(face)
            if work.outer.cylinders[face as usize].is_some() =>
        {
            None
        }
        Beyond::Face(_) | Beyond::Level(_) | Beyond::Floor(_) => {
            let region = &work.regions.all[rim.edges.first()?.across as usize];
            Some((region.normal, region.offset))
        }
        Beyond::Partly(face) => {
            let face = face as usize;
            Some((work.outer.faces[face].normal, work.outer.offsets[face]))
        }
        Beyond::Round(_) | Beyond::Mixed => None,
    }
}

/// The edges of an end, turned so that the bore lies to their right where the axis points away.
pub fn turned(edges: &[Edge], axis: Vector) -> Vec<Edge> {
    let points: Vec<Vector> = edges.iter().map(|edge| edge.from).collect();
    if polygon_area(&points, axis) < 0.0 {
        return edges.to_vec();
    }
    let back = |edge: &Edge| Edge {
        from: edge.to,
        to: edge.from,
        ..*edge
    };
    edges.iter().map(back).collect()
}
