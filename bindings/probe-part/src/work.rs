//! What the search for rows works on: the regions, the round surfaces and outer faces, the rows so far and whose each
//! region is.
use crate::geometry::{cross, dot, length, scale, subtract, unit, Vector};
use crate::model::{Kind, Outline};
use crate::outer::Outer;
use crate::planes::Regions;
use crate::rounds::Rounds;
use crate::topology::{Shell, NONE};

/// How far a region's normal may lean from an axis to lie level, or to be a wall, beside its rounding: 0.06 degrees.
const LEAN: f64 = 1e-3;

/// However rounded its corners are, a region that leans by more is neither: 6 degrees.
const MOST_LEAN: f64 = 0.1;

/// A row that is being found. What other rows it touches is said by regions until all have their owners.
#[derive(Clone, Debug)]
pub struct Draft {
    /// What it is.
    pub kind: Kind,
    /// The outer face that it is entered from.
    pub face: Option<u32>,
    /// Its outline.
    pub outline: Outline,
    /// The middle of its outline, at its own entry.
    pub centre: Vector,
    /// The direction into the part.
    pub axis: Vector,
    /// How far its entry lies below the outer face.
    pub entry_depth: f64,
    /// How deep it is below its entry.
    pub depth: f64,
    /// How it ends.
    pub end: DraftEnd,
    /// The full angle of a cone, in degrees.
    pub cone: Option<f64>,
    /// A region that its entry lies in.
    pub within: Option<u32>,
    /// The outer faces that it runs out at.
    pub open: Vec<u32>,
    /// The polygons around it, at its entry.
    pub loops: Vec<Vec<Vector>>,
    /// The least and the largest volume that it takes away; below 0 where it adds.
    pub volume: [f64; 2],
    /// What casts are to find.
    pub probes: Vec<Probe>,
}

/// How a row ends, by regions.
#[derive(Clone, Copy, Debug, PartialEq)]
pub enum DraftEnd {
    /// At a flat floor.
    Floor,
    /// At a drill's tip: the angle in degrees, and the depth.
    Tip(f64, f64),
    /// At an outer face.
    Through,
    /// In the row that a region belongs to.
    Into(u32),
    /// At what is not understood.
    Unknown,
}

/// A ray, and what it is to hit.
#[derive(Clone, Copy, Debug, PartialEq)]
pub struct Probe {
    /// Which ray it is, in words.
    pub what: &'static str,
    /// Where it starts.
    pub from: Vector,
    /// Its direction.
    pub way: Vector,
    /// A surface is to be hit at these distances, or not before the first, where the second is infinite.
    pub expected: [f64; 2],
}

/// The state of the search.
pub struct Work<'a> {
    /// The shell, in the part's own frame.
    pub shell: &'a Shell,
    /// Its flat regions.
    pub regions: &'a Regions,
    /// Its round surfaces.
    pub rounds: &'a Rounds,
    /// Its outer faces.
    pub outer: &'a Outer,
    /// The draft that each region belongs to.
    pub owner: Vec<u32>,
    /// The rows so far.
    pub drafts: Vec<Draft>,
    /// Whether nothing of the part lies before a point, in a direction.
    pub sight: &'a dyn Fn(Vector, Vector) -> bool,
}

/// An edge of a loop: between which regions, where, and whether the surface is bent outwards there.
#[derive(Clone, Copy, Debug)]
pub struct Edge {
    /// The region across.
    pub across: u32,
    /// Where it begins.
    pub from: Vector,
    /// Where it ends.
    pub to: Vector,
    /// Whether the surface is bent outwards along it.
    pub is_convex: bool,
}

impl Work<'_> {
    /// The normal of a region.
    pub fn normal(&self, region: u32) -> Vector {
        self.regions.all[region as usize].normal
    }

    /// The outer face of a region, if it is part of one.
    pub fn face(&self, region: u32) -> Option<u32> {
        let face = self.outer.of[region as usize];
        (face != NONE).then_some(face)
    }

    /// The round surface of a region, if it is part of one.
    pub fn round(&self, region: u32) -> Option<u32> {
        let round = self.rounds.of[region as usize];
        (round != NONE).then_some(round)
    }

    /// Whether a region still belongs to nothing.
    pub fn is_free(&self, region: u32) -> bool {
        self.owner[region as usize] == NONE && self.outer.of[region as usize] == NONE
    }

    /// How far a region's normal may lean from a direction that it looks along.
    fn lean(&self, region: u32) -> f64 {
        (LEAN + self.regions.all[region as usize].lean(self.shell)).min(MOST_LEAN)
    }

    /// Whether a region lies across a direction and faces it.
    pub fn is_level(&self, region: u32, way: Vector) -> bool {
        let lean = self.lean(region);
        dot(self.normal(region), way) > 1.0 - lean * lean / 2.0 - 1e-12
    }

    /// Whether a region runs along a direction.
    pub fn is_wall(&self, region: u32, way: Vector) -> bool {
        dot(self.normal(region), way).abs() < self.lean(region)
    }

    /// Whether a region runs nearly along a direction: within 11 degrees.
    pub fn is_near_wall(&self, region: u32, way: Vector) -> bool {
        self.is_wall(region, way) || dot(self.normal(region), way).abs() < 0.2
    }

    /// The edges of a loop of a region.
    pub fn edges(&self, region: u32, number: usize) -> Vec<Edge> {
        let around = &self.regions.all[region as usize].loops[number];
        let count = around.vertices.len();
        let edge = |place: usize| {
            let from = self.shell.vertices[around.vertices[place] as usize];
            let to = self.shell.vertices[around.vertices[(place + 1) % count] as usize];
            let across = self.regions.of_triangle(around.across[place]);
            Edge {
                across,
                from,
                to,
                is_convex: across != NONE && self.is_convex(region, across, subtract(to, from)),
            }
        };
        (0..count).map(edge).collect()
    }

    /// Whether the surface is bent outwards along an edge of the first region.
    pub fn is_convex(&self, region: u32, across: u32, way: Vector) -> bool {
        dot(cross(self.normal(region), self.normal(across)), way) > 0.0
    }

    /// All the edges around a region.
    pub fn all_edges(&self, region: u32) -> Vec<Edge> {
        let count = self.regions.all[region as usize].loops.len();
        (0..count)
            .flat_map(|number| self.edges(region, number))
            .collect()
    }

    /// The outer face from which a tool reaches a point along an axis: the one that a line from the point back along the
    /// axis leaves the part at; and how far the point lies below it.
    pub fn face_reached(&self, axis: Vector, point: Vector) -> Option<(u32, f64)> {
        let faces = self.outer.faces.iter().enumerate();
        let reached = faces
            .filter(|(_, face)| !face.is_round)
            .filter_map(|(place, face)| {
                let below = self.outer.offsets[place] - dot(face.normal, point);
                let against = -dot(face.normal, axis);
                (against > LEAN).then(|| (place as u32, below, below / against))
            });
        let first = reached.min_by(|a, b| a.2.total_cmp(&b.2))?;
        Some((first.0, first.1))
    }

    /// Which of the named faces a direction looks at most, as its place among them.
    pub fn order_of(&self, way: Vector) -> f64 {
        let best = crate::outer::NAMED
            .iter()
            .enumerate()
            .max_by(|a, b| dot(a.1 .1, way).total_cmp(&dot(b.1 .1, way)));
        best.map_or(9.0, |(place, _)| place as f64)
    }

    /// Adds a row that some regions belong to.
    pub fn add(&mut self, draft: Draft, regions: impl IntoIterator<Item = u32>) -> u32 {
        let place = self.drafts.len() as u32;
        for region in regions {
            if self.is_free(region) {
                self.owner[region as usize] = place;
            }
        }
        self.drafts.push(draft);
        place
    }

    /// The points of a loop's corners.
    pub fn corners(&self, region: u32, number: usize) -> Vec<Vector> {
        let around = &self.regions.all[region as usize].loops[number];
        let point = |&vertex: &u32| self.shell.vertices[vertex as usize];
        around.corners.iter().map(point).collect()
    }
}

/// How far beside an edge a probe runs: 0.02 mm.
const BESIDE: f64 = 0.02;

/// At most so many edges of an outline are probed.
const MOST_EDGES: usize = 12;

/// Probes beside edges, along an axis, from so far before a plane: within, so far further in than the edges as the walls
/// bulge, they are to meet some depths below it, outside the plane itself.
pub fn probes_beside(
    edges: &[Edge],
    axis: Vector,
    plane: (Vector, f64),
    inside: [f64; 2],
    before: f64,
    bulge: f64,
) -> Vec<Probe> {
    let step = edges.len().div_ceil(MOST_EDGES).max(1);
    let mut probes = Vec::new();
    for edge in edges.iter().step_by(step) {
        let way = subtract(edge.to, edge.from);
        if length(way) < 4.0 * BESIDE {
            continue;
        }
        let middle = scale(crate::geometry::add(edge.from, edge.to), 0.5);
        // the surface that the loop is around lies to its left
        let aside = unit(cross(axis, way));
        for (what, off, expected) in [
            ("inside its outline", -BESIDE - bulge, inside),
            ("outside its outline", BESIDE, [0.0, 0.0]),
        ] {
            let beside = crate::geometry::along(middle, aside, off);
            // up or down along the axis to the plane of the entry
            let off = (plane.1 - dot(beside, plane.0)) / dot(axis, plane.0);
            let entry = crate::geometry::along(beside, axis, off);
            probes.push(Probe {
                what,
                from: crate::geometry::along(entry, axis, -before),
                way: axis,
                expected: expected.map(|depth| depth + before),
            });
        }
    }
    probes
}
