//! How triangles are connected: equal corners are one vertex, triangles are neighbours across an edge, and what is connected
//! so is a shell.
use crate::geometry::{cross, dot, length, subtract, unit, Vector};
use std::collections::HashMap;

/// No neighbour.
pub const NONE: u32 = u32::MAX;

/// Corners nearer than this share of the part's size are one, where equal corners alone leave gaps.
const WELD: f64 = 1e-6;

/// By which share of a coordinate single precision rounds it.
pub const SINGLE: f64 = 1.2e-7;

/// A shell of connected triangles, with its edges' faults.
#[derive(Clone, Debug)]
pub struct Shell {
    /// The vertices.
    pub vertices: Vec<Vector>,
    /// The triangles, to the left around where they are seen from outside.
    pub triangles: Vec<[u32; 3]>,
    /// The number of each triangle in the file.
    pub numbers: Vec<u32>,
    /// The triangle across each side, from its first corner on; [`NONE`] where there is none, or no single one that is
    /// the right way round.
    pub neighbours: Vec<[u32; 3]>,
    /// The unit normals; zero for a triangle without area.
    pub normals: Vec<Vector>,
    /// The areas.
    pub areas: Vec<f64>,
    /// How many edges are not shared by exactly two triangles the right way round.
    pub faults: Faults,
    /// Whether the file has it inside out.
    pub was_inside_out: bool,
    /// How far a coordinate may be off by the rounding of single precision.
    pub rounding: f64,
}

/// Edges that are not shared by exactly two triangles the right way round.
#[derive(Clone, Copy, Debug, Default, PartialEq, Eq)]
pub struct Faults {
    /// Edges of one triangle.
    pub open: usize,
    /// Edges of two triangles that run along it the same way.
    pub turned: usize,
    /// Edges of more than two triangles.
    pub crowded: usize,
}

impl Faults {
    /// Whether there are none.
    pub fn is_none(&self) -> bool {
        *self == Faults::default()
    }
}

/// The shells of triangles, in the order of their first ones.
pub fn shells(vertices: &[Vector], triangles: &[[u32; 3]]) -> Vec<Shell> {
    let all = Edges::of(triangles);
    if all.faults().open == 0 {
        return taken_apart(vertices, triangles, &all);
    }
    let (vertices, triangles) = welded(vertices, triangles);
    let edges = Edges::of(&triangles);
    taken_apart(&vertices, &triangles, &edges)
}

fn taken_apart(vertices: &[Vector], triangles: &[[u32; 3]], edges: &Edges) -> Vec<Shell> {
    let labels = edges.connected(triangles.len());
    let count = labels.iter().max().map_or(0, |&most| most as usize + 1);
    let mut members: Vec<Vec<u32>> = vec![Vec::new(); count];
    for (triangle, &label) in labels.iter().enumerate() {
        let [a, b, c] = triangles[triangle];
        // a triangle that has collapsed to an edge or a point is no surface
        if a != b && b != c && c != a {
            members[label as usize].push(triangle as u32);
        }
    }
    members.retain(|member| !member.is_empty());
    let part = |numbers: Vec<u32>| Shell::of(vertices, triangles, numbers);
    members.into_iter().map(part).collect()
}

/// Vertices that are nearly equal made one: each takes the place of the first within reach.
fn welded(vertices: &[Vector], triangles: &[[u32; 3]]) -> (Vec<Vector>, Vec<[u32; 3]>) {
    let largest = vertices
        .iter()
        .flatten()
        .fold(0.0_f64, |most, part| most.max(part.abs()));
    let reach = (largest * WELD).max(f64::MIN_POSITIVE);
    let cell = |point: Vector| point.map(|part| (part / reach).floor() as i64);
    let mut cells: HashMap<[i64; 3], Vec<u32>> = HashMap::new();
    let mut kept: Vec<Vector> = Vec::new();
    let places: Vec<u32> = vertices
        .iter()
        .map(|&point| {
            let [x, y, z] = cell(point);
            for step in 0..27 {
                let near = [x + step % 3 - 1, y + step / 3 % 3 - 1, z + step / 9 - 1];
                let known = cells.get(&near).into_iter().flatten();
                for &place in known {
                    if length(subtract(kept[place as usize], point)) <= reach {
                        return place;
                    }
                }
            }
            kept.push(point);
            let place = kept.len() as u32 - 1;
            cells.entry([x, y, z]).or_default().push(place);
            place
        })
        .collect();
    let moved = |triangle: &[u32; 3]| triangle.map(|index| places[index as usize]);
    let triangles = triangles.iter().map(moved).collect();
    (kept, triangles)
}

/// Every edge with its triangles: the two vertices in order, the triangle, its side, and whether it runs forwards.
struct Edges(Vec<([u32; 2], u32, u8, bool)>);

impl Edges {
    fn of(triangles: &[[u32; 3]]) -> Edges {
        let mut all = Vec::with_capacity(3 * triangles.len());
        for (number, triangle) in triangles.iter().enumerate() {
            for side in 0..3 {
                let [a, b] = [triangle[side], triangle[(side + 1) % 3]];
                if a != b {
                    all.push(([a.min(b), a.max(b)], number as u32, side as u8, a < b));
                }
            }
        }
        all.sort_unstable();
        Edges(all)
    }

    /// The triangles of each edge.
    fn groups(&self) -> impl Iterator<Item = &[([u32; 2], u32, u8, bool)]> {
        self.0.chunk_by(|a, b| a.0 == b.0)
    }

    fn faults(&self) -> Faults {
        let mut faults = Faults::default();
        for group in self.groups() {
            match group {
                [_] => faults.open += 1,
                [one, other] if one.3 == other.3 => faults.turned += 1,
                [_, _] => {}
                _ => faults.crowded += 1,
            }
        }
        faults
    }

    /// A label for each triangle: equal where triangles are connected by edges.
    fn connected(&self, count: usize) -> Vec<u32> {
        let mut parents: Vec<u32> = (0..count as u32).collect();
        fn root(parents: &mut [u32], mut of: u32) -> u32 {
            while parents[of as usize] != of {
                parents[of as usize] = parents[parents[of as usize] as usize];
                of = parents[of as usize];
            }
            of
        }
        for group in self.groups() {
            for pair in group.windows(2) {
                let one = root(&mut parents, pair[0].1);
                let other = root(&mut parents, pair[1].1);
                parents[one.max(other) as usize] = one.min(other);
            }
        }
        let mut labels = vec![NONE; count];
        let mut next = 0;
        for triangle in 0..count as u32 {
            let root = root(&mut parents, triangle) as usize;
            if labels[root] == NONE {
                labels[root] = next;
                next += 1;
            }
            labels[triangle as usize] = labels[root];
        }
        labels
    }
}

impl Shell {
    /// The shell of some triangles, turned the right way round.
    fn of(vertices: &[Vector], triangles: &[[u32; 3]], numbers: Vec<u32>) -> Shell {
        let mut places: HashMap<u32, u32> = HashMap::new();
        let mut own: Vec<Vector> = Vec::new();
        let mut place = |index: u32| {
            *places.entry(index).or_insert_with(|| {
                own.push(vertices[index as usize]);
                own.len() as u32 - 1
            })
        };
        let mut sides: Vec<[u32; 3]> = Vec::with_capacity(numbers.len());
        for &number in &numbers {
            sides.push(triangles[number as usize].map(&mut place));
        }
        let was_inside_out = volume(&own, &sides) < 0.0;
        if was_inside_out {
            for triangle in &mut sides {
                triangle.swap(1, 2);
            }
        }
        let edges = Edges::of(&sides);
        let mut neighbours = vec![[NONE; 3]; sides.len()];
        for group in edges.groups() {
            if let [one, other] = group {
                if one.3 != other.3 {
                    neighbours[one.1 as usize][one.2 as usize] = other.1;
                    neighbours[other.1 as usize][other.2 as usize] = one.1;
                }
            }
        }
        let doubled = |triangle: &[u32; 3]| {
            let [a, b, c] = triangle.map(|index| own[index as usize]);
            cross(subtract(b, a), subtract(c, a))
        };
        let largest = own
            .iter()
            .flatten()
            .fold(0.0_f64, |most, part| most.max(part.abs()));
        Shell {
            normals: sides
                .iter()
                .map(|triangle| unit(doubled(triangle)))
                .collect(),
            areas: sides
                .iter()
                .map(|triangle| length(doubled(triangle)) / 2.0)
                .collect(),
            faults: edges.faults(),
            vertices: own,
            triangles: sides,
            numbers,
            neighbours,
            was_inside_out,
            rounding: largest * SINGLE,
        }
    }

    /// The corners of a triangle.
    pub fn corners(&self, triangle: u32) -> [Vector; 3] {
        self.triangles[triangle as usize].map(|index| self.vertices[index as usize])
    }

    /// The least height of a triangle: twice its area by its longest side.
    pub fn least_height(&self, triangle: u32) -> f64 {
        let [a, b, c] = self.corners(triangle);
        let longest = [[a, b], [b, c], [c, a]]
            .iter()
            .map(|[from, to]| length(subtract(*to, *from)))
            .fold(0.0, f64::max);
        if longest > 0.0 {
            2.0 * self.areas[triangle as usize] / longest
        } else {
            0.0
        }
    }

    /// The volume that the triangles enclose.
    pub fn volume(&self) -> f64 {
        volume(&self.vertices, &self.triangles)
    }
}

/// The volume that triangles enclose, above 0 where they are seen to the left around from outside.
fn volume(vertices: &[Vector], triangles: &[[u32; 3]]) -> f64 {
    let Some(&[first, ..]) = triangles.first() else {
        return 0.0;
    };
    let from = vertices[first as usize];
    let six: f64 = triangles
        .iter()
        .map(|triangle| {
            let [a, b, c] = triangle.map(|index| subtract(vertices[index as usize], from));
            dot(a, cross(b, c))
        })
        .sum();
    six / 6.0
}

/// A shell moved: each vertex by a function that keeps lengths and angles, and the normals with it.
pub fn moved(
    shell: &Shell,
    place: impl Fn(Vector) -> Vector,
    way: impl Fn(Vector) -> Vector,
) -> Shell {
    let mut moved = shell.clone();
    moved
        .vertices
        .iter_mut()
        .for_each(|point| *point = place(*point));
    moved
        .normals
        .iter_mut()
        .for_each(|normal| *normal = way(*normal));
    moved
}
