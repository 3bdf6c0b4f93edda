//! Counts the probes on the edges of a part that pass the surface, by the rounded cast and by the exact one.
//!
//! usage: edges FILE...   (STL files)
//!
//! On each edge between two triangles that lie across an axis, side by side, sixteen points are probed straight from
//! 0.5 mm before them: a probe that goes further has passed the surface. And the six faces of the box around the part are
//! probed every 0.5 mm: where the rounded cast goes deeper than the exact one, it has passed a surface.
use probe_part::faces::{View, FACES};
use probe_part::raster::Grid;
use probe_part::shape::Shape;
use probe_rays::{Batch, Cast, MeshHit, Ray, Refusal};
use std::collections::HashMap;
use std::process::ExitCode;

const BEFORE: f64 = 0.5;
const STEP: f64 = 0.5;
const POINTS: u32 = 16;

fn main() -> ExitCode {
    println!("on edges\trounded passes\texact passes\ton rasters\trounded deeper\tfile");
    for file in std::env::args().skip(1) {
        let shape = match Shape::load(&file) {
            Ok(shape) => shape,
            Err(why) => {
                eprintln!("edges: {why}");
                return ExitCode::from(2);
            }
        };
        let [probes, rounded, exact] = on_edges(&shape);
        let [places, deeper] = on_rasters(&shape);
        println!("{probes}\t{rounded}\t{exact}\t{places}\t{deeper}\t{file}");
    }
    ExitCode::SUCCESS
}

/// How many probes on edges, and how many pass by the rounded cast and by the exact one.
fn on_edges(shape: &Shape) -> [usize; 3] {
    let rays = probes(shape);
    let passed =
        |cast: Cast<MeshHit>| !matches!(cast, Cast::Hit(hit) if hit.distance < BEFORE + 1e-3);
    let both = Batch::new().run(&rays, |ray, scratch| {
        let rounded = passed(shape.cast_rounded(ray, scratch));
        [rounded, passed(shape.cast(ray, scratch))]
    });
    let count = |which: usize| both.iter().filter(|passed| passed[which]).count();
    [rays.len(), count(0), count(1)]
}

/// How many places of rasters, and at how many of them the rounded cast goes deeper.
fn on_rasters(shape: &Shape) -> [usize; 2] {
    let (mut places, mut deeper) = (0, 0);
    for view in FACES.map(|face| View::new(shape, face)) {
        let grid = Grid::new(view.low(), view.high(), STEP);
        let cells: Vec<usize> = (0..grid.len()).collect();
        let found = Batch::new().run(&cells, |&cell, scratch| {
            let place = grid.place(cell);
            let exact = view.depth(place, scratch)?;
            let ray = view.ray(place);
            let point = |depth: f64| view.point(place, depth);
            let rounded = match shape.cast_rounded(&ray, scratch) {
                Cast::Hit(hit) => hit.distance - distance(ray.origin, point(0.0)),
                Cast::None => f64::INFINITY,
                Cast::Refused(refusal) => return Err(refusal),
            };
            Ok::<bool, Refusal>(rounded > exact + 0.01)
        });
        places += cells.len();
        deeper += found
            .iter()
            .filter(|found| matches!(found, Ok(true)))
            .count();
    }
    [places, deeper]
}

/// How far two points on a line along an axis are apart.
fn distance(a: [f64; 3], b: [f64; 3]) -> f64 {
    (0..3).map(|k| (a[k] - b[k]).abs()).sum()
}

/// The probes on the edges of a part.
fn probes(shape: &Shape) -> Vec<Ray> {
    let mut rays = Vec::new();
    for axis in 0..3 {
        // how many triangles across the axis an edge has
        let mut edges: HashMap<[u32; 2], u32> = HashMap::new();
        for triangle in shape.triangles() {
            let level = triangle.map(|index| shape.vertices()[index as usize][axis]);
            if level[0] == level[1] && level[1] == level[2] {
                for side in 0..3 {
                    let mut edge = [triangle[side], triangle[(side + 1) % 3]];
                    edge.sort_unstable();
                    *edges.entry(edge).or_default() += 1;
                }
            }
        }
        let mut inner: Vec<[u32; 2]> = edges
            .into_iter()
            .filter(|edge| edge.1 == 2)
            .map(|edge| edge.0)
            .collect();
        inner.sort_unstable();
        for edge in inner {
            let [a, b] = edge.map(|index| shape.vertices()[index as usize]);
            for point in 1..=POINTS {
                let share = f64::from(point) / f64::from(POINTS + 1);
                let on: [f64; 3] = std::array::from_fn(|k| a[k] + (b[k] - a[k]) * share);
                for way in [-1.0, 1.0] {
                    let (mut origin, mut direction) = (on, [0.0; 3]);
                    origin[axis] -= way * BEFORE;
                    direction[axis] = way;
                    rays.push(Ray::new(origin, direction, 1000.0));
                }
            }
        }
    }
    rays
}
