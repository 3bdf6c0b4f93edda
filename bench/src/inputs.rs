//! The inputs, made from one seed: both sides get the same numbers.

use crate::areas::{Distances, Drill, Heights, Mesh, Ray};
use oracle::random::Random;
use std::f64::consts::TAU;

/// Side of a panel's square cells, which have a drilled hole each, and the panel's thickness.
const CELL: f64 = 32.0;
const THICK: f64 = 18.0;
const HOLE: f64 = 8.0;
const COLUMNS: usize = 30;
const ROWS: usize = 10;
/// Corners of a hole's outline; eight divides it, so the cell's corners are among the outer points.
const SIDES: usize = 32;

pub fn random(row: u64) -> Random {
    Random::of_record(9, row)
}

/// A ray from a point to another, its direction divided by its length.
pub fn toward(origin: [f64; 3], target: [f64; 3]) -> Ray {
    let along = [0, 1, 2].map(|axis| target[axis] - origin[axis]);
    let length = along.iter().map(|c| c * c).sum::<f64>().sqrt();
    Ray {
        origin,
        direction: along.map(|c| c / length),
        max_distance: length,
        near_distance: 0.0,
    }
}

/// The four points of a cell at one corner of its hole: outer and inner at the top, the same at the bottom.
fn cell_points(column: usize, row: usize, corner: usize) -> [[f64; 3]; 4] {
    let (sin, cos) = (TAU * corner as f64 / SIDES as f64).sin_cos();
    let stretch = 0.5 * CELL / sin.abs().max(cos.abs());
    let at = |reach: f64, z: f64| {
        [
            (column as f64 + 0.5) * CELL + cos * reach,
            (row as f64 + 0.5) * CELL + sin * reach,
            z,
        ]
    };
    [
        at(stretch, THICK),
        at(HOLE, THICK),
        at(stretch, 0.0),
        at(HOLE, 0.0),
    ]
}

/// Whether the outer edge from a corner to the next lies on the panel's rim.
fn on_rim(column: usize, row: usize, corner: usize) -> bool {
    let eighth = SIDES / 8;
    match (corner + eighth) / (2 * eighth) % 4 {
        0 => column + 1 == COLUMNS,
        1 => row + 1 == ROWS,
        2 => column == 0,
        _ => row == 0,
    }
}

/// A panel of 960 by 320 by 18 with 300 holes drilled through it.
pub fn panel() -> Mesh {
    let mut mesh = Mesh {
        vertices: Vec::new(),
        triangles: Vec::new(),
    };
    for row in 0..ROWS {
        for column in 0..COLUMNS {
            let first = (mesh.vertices.len() / 3) as u32;
            for corner in 0..SIDES {
                mesh.vertices
                    .extend(cell_points(column, row, corner).concat());
                let a = first + 4 * corner as u32;
                let b = first + 4 * ((corner + 1) % SIDES) as u32;
                let mut quad = |p: u32, q: u32, r: u32, s: u32| {
                    mesh.triangles.extend([p, q, r, p, r, s]);
                };
                quad(a, b, b + 1, a + 1);
                quad(a + 2, a + 3, b + 3, b + 2);
                quad(a + 1, b + 1, b + 3, a + 3);
                if on_rim(column, row, corner) {
                    quad(a, a + 2, b + 2, b);
                }
            }
        }
    }
    mesh
}

/// The bores of another panel, 12.5 deep: their corners lie on a circle of 5.1, 24 of them, so that 5.056 fit between the sides.
const BORE: f64 = 2.55;
const BORE_SIDES: usize = 24;
const BORE_FLOOR: f64 = THICK - 12.5;

/// A panel of 960 by 320 by 18 with 300 blind bores from its top.
pub fn bored() -> Mesh {
    let mut mesh = Mesh {
        vertices: Vec::new(),
        triangles: Vec::new(),
    };
    for row in 0..ROWS {
        for column in 0..COLUMNS {
            bore(&mut mesh, bore_at(column, row));
        }
    }
    let (wide, deep) = (COLUMNS as f64 * CELL, ROWS as f64 * CELL);
    let first = (mesh.vertices.len() / 3) as u32;
    for [x, y, z] in [
        [0, 0, 0],
        [1, 0, 0],
        [1, 1, 0],
        [0, 1, 0],
        [0, 0, 1],
        [1, 0, 1],
        [1, 1, 1],
        [0, 1, 1],
    ] {
        mesh.vertices
            .extend([wide * x as f64, deep * y as f64, THICK * z as f64]);
    }
    for [p, q, r, s] in [
        [0, 3, 2, 1],
        [0, 1, 5, 4],
        [1, 2, 6, 5],
        [2, 3, 7, 6],
        [3, 0, 4, 7],
    ] {
        let [p, q, r, s] = [p, q, r, s].map(|corner: u32| first + corner);
        mesh.triangles.extend([p, q, r, p, r, s]);
    }
    mesh
}

fn bore_at(column: usize, row: usize) -> [f64; 2] {
    [column, row].map(|place| (place as f64 + 0.5) * CELL)
}

/// A cell of the top around a bore, the bore's wall and its floor.
fn bore(mesh: &mut Mesh, [x, y]: [f64; 2]) {
    let first = (mesh.vertices.len() / 3) as u32;
    for corner in 0..BORE_SIDES {
        let (sin, cos) = (TAU * corner as f64 / BORE_SIDES as f64).sin_cos();
        let stretch = 0.5 * CELL / sin.abs().max(cos.abs());
        for (reach, z) in [(stretch, THICK), (BORE, THICK), (BORE, BORE_FLOOR)] {
            mesh.vertices.extend([x + cos * reach, y + sin * reach, z]);
        }
    }
    let middle = first + 3 * BORE_SIDES as u32;
    mesh.vertices.extend([x, y, BORE_FLOOR]);
    for corner in 0..BORE_SIDES as u32 {
        let a = first + 3 * corner;
        let b = first + 3 * ((corner + 1) % BORE_SIDES as u32);
        mesh.triangles.extend([a, b, b + 1, a, b + 1, a + 1]);
        mesh.triangles
            .extend([a + 1, b + 1, b + 2, a + 1, b + 2, a + 2]);
        mesh.triangles.extend([a + 2, b + 2, middle]);
    }
}

fn drill(origin: [f64; 3], direction: [f64; 3], depth: f64, diameter: f64) -> Drill {
    Drill {
        ray: Ray::new(origin, direction, depth),
        radius: diameter / 2.0,
    }
}

fn bore_of(random: &mut Random) -> [f64; 2] {
    bore_at(random.below(COLUMNS), random.below(ROWS))
}

/// Drills of a diameter, 12 deep, each down the middle of a bore.
pub fn in_bores(count: usize, diameter: f64) -> Vec<Drill> {
    let mut random = random(15);
    let one = |_| {
        let [x, y] = bore_of(&mut random);
        drill([x, y, THICK], [0.0, 0.0, -1.0], 12.0, diameter)
    };
    (0..count).map(one).collect()
}

/// Drills of 5 by 12 from the top, 4 to 10 beside a bore's middle.
pub fn beside_bores(count: usize) -> Vec<Drill> {
    let mut random = random(16);
    let one = |_| {
        let ([x, y], aside) = (bore_of(&mut random), random.between(4.0, 10.0));
        drill([x + aside, y, THICK], [0.0, 0.0, -1.0], 12.0, 5.0)
    };
    (0..count).map(one).collect()
}

/// The drills in bores, 100 above them.
pub fn far_drills(count: usize) -> Vec<Drill> {
    let mut drills = in_bores(count, 5.0);
    drills
        .iter_mut()
        .for_each(|drill| drill.ray.origin[2] += 100.0);
    drills
}

/// Drills of 5 by 60 from above the panel into it, aslant.
pub fn aslant_drills(count: usize) -> Vec<Drill> {
    let mut random = random(17);
    let one = |_| {
        let ([x, y], turn) = (bore_of(&mut random), random.between(0.0, TAU));
        let target = [x + 40.0 * turn.cos(), y + 40.0 * turn.sin(), -5.0];
        let ray = toward([x, y, THICK + 15.0], target);
        drill(ray.origin, ray.direction, 60.0, 5.0)
    };
    (0..count).map(one).collect()
}

/// 65,536 triangles above each other, four at each depth, in no order of depth.
pub fn stack() -> Mesh {
    let mut mesh = Mesh {
        vertices: Vec::new(),
        triangles: Vec::new(),
    };
    for layer in 0..65_536_u32 {
        let depth = f64::from(layer.reverse_bits() >> 16);
        let corner = (mesh.vertices.len() / 3) as u32;
        if layer % 4 == 0 {
            mesh.vertices
                .extend([0.0, 0.0, depth, 4.0, 0.0, depth, 0.0, 4.0, depth]);
        }
        let first = if layer % 4 == 0 { corner } else { corner - 3 };
        mesh.triangles.extend([first, first + 1, first + 2]);
    }
    mesh
}

/// One ray down through all of them.
pub fn down_the_stack() -> Vec<Ray> {
    vec![Ray {
        origin: [1.0, 1.0, 65_600.0],
        direction: [0.0, 0.0, -1.0],
        max_distance: 65_700.0,
        near_distance: 0.0,
    }]
}

/// Probes of at most 30 along an axis: half of them from above, the others from within the panel's thickness.
pub fn short_probes(count: usize) -> Vec<Ray> {
    let mut random = random(1);
    let (wide, deep) = (COLUMNS as f64 * CELL, ROWS as f64 * CELL);
    let probe = |_| {
        let axis = random.pick(&[0, 1, 2, 2]);
        let from_above = axis == 2;
        let height = if from_above {
            THICK + random.between(1.0, 10.0)
        } else {
            random.between(0.0, THICK)
        };
        let mut direction = [0.0; 3];
        direction[axis] = if from_above { -1.0 } else { random.sign() };
        Ray {
            origin: [random.between(0.0, wide), random.between(0.0, deep), height],
            direction,
            max_distance: random.between(15.0, 30.0),
            near_distance: 0.0,
        }
    };
    (0..count).map(probe).collect()
}

/// Rays from one end of the panel through it to the other end.
pub fn long_rays(count: usize) -> Vec<Ray> {
    let mut random = random(2);
    let (wide, deep) = (COLUMNS as f64 * CELL, ROWS as f64 * CELL);
    let ray = |_| {
        toward(
            [
                random.between(0.0, 100.0),
                random.between(0.0, 40.0),
                THICK + 12.0,
            ],
            [
                wide - random.between(0.0, 100.0),
                deep - random.between(0.0, 40.0),
                -12.0,
            ],
        )
    };
    (0..count).map(ray).collect()
}

/// Probes from above down the middle of the holes.
pub fn through_holes(count: usize) -> Vec<Ray> {
    let mut random = random(3);
    let ray = |_| Ray {
        origin: [
            (random.below(COLUMNS) as f64 + 0.5) * CELL + random.between(-2.0, 2.0),
            (random.below(ROWS) as f64 + 0.5) * CELL + random.between(-2.0, 2.0),
            THICK + 4.0,
        ],
        direction: [0.0, 0.0, -1.0],
        max_distance: 30.0,
        near_distance: 0.0,
    };
    (0..count).map(ray).collect()
}

/// Rays above the panel that do not come near it.
pub fn far_rays(count: usize) -> Vec<Ray> {
    let mut rays = short_probes(count);
    rays.iter_mut().for_each(|ray| ray.origin[2] += 100.0);
    rays
}

/// A drawer front, 597 by 140 by 19, of twelve triangles.
pub fn front() -> Mesh {
    let corner = |k: usize| {
        [
            if k & 1 == 0 { 0.0 } else { 597.0 },
            if k & 2 == 0 { 0.0 } else { 140.0 },
            if k & 4 == 0 { 0.0 } else { 19.0 },
        ]
    };
    let quads: [[u32; 4]; 6] = [
        [0, 2, 3, 1],
        [4, 5, 7, 6],
        [0, 1, 5, 4],
        [2, 6, 7, 3],
        [0, 4, 6, 2],
        [1, 3, 7, 5],
    ];
    Mesh {
        vertices: (0..8).flat_map(corner).collect(),
        triangles: quads
            .iter()
            .flat_map(|[a, b, c, d]| [*a, *b, *c, *a, *c, *d])
            .collect(),
    }
}

/// Rays from before the drawer front into it.
pub fn front_rays(count: usize) -> Vec<Ray> {
    let mut random = random(4);
    let mut point = |z: f64| [random.between(20.0, 577.0), random.between(20.0, 120.0), z];
    (0..count)
        .map(|_| {
            let target = point(10.0);
            toward([target[0] + 5.0, target[1] - 3.0, 60.0], target)
        })
        .collect()
}

/// The front and the back of a drawer front alone, each cut into columns · rows rectangles of two triangles.
pub fn plates(columns: usize, rows: usize) -> Mesh {
    let mut mesh = Mesh {
        vertices: Vec::new(),
        triangles: Vec::new(),
    };
    for z in [0.0, 19.0] {
        let first = (mesh.vertices.len() / 3) as u32;
        let across = columns as u32 + 1;
        for row in 0..=rows {
            for column in 0..=columns {
                let part = |k: usize, of: usize| k as f64 / of as f64;
                let (x, y) = (597.0 * part(column, columns), 140.0 * part(row, rows));
                mesh.vertices.extend([x, y, z]);
            }
        }
        for row in 0..rows as u32 {
            for column in 0..columns as u32 {
                let a = first + row * across + column;
                let c = a + across;
                mesh.triangles.extend([a, a + 1, c + 1, a, c + 1, c]);
            }
        }
    }
    mesh
}

/// Rays that pass 1 mm over the edge of a drawer front, so that their segment's box touches that of its face.
pub fn over_the_edge(count: usize) -> Vec<Ray> {
    let mut random = random(12);
    let ray = |_| {
        let y = random.between(20.0, 120.0);
        toward([-10.0, y, 10.0], [10.0, y + 1.0, 30.0])
    };
    (0..count).map(ray).collect()
}

/// Rays along z into a drawer front, on whole millimetres.
pub fn whole_front_rays(count: usize) -> Vec<Ray> {
    let mut random = random(13);
    let mut whole = |low: f64, high: f64| random.between(low, high).floor();
    (0..count)
        .map(|_| {
            let origin = [whole(20.0, 577.0), whole(20.0, 120.0), 60.0];
            Ray::new(origin, [0.0, 0.0, -1.0], 100.0)
        })
        .collect()
}

/// Rays along z inside a drawer front, from 1 mm behind its front to 1 mm before its back, on whole millimetres.
pub fn whole_inside_front(count: usize) -> Vec<Ray> {
    let mut rays = whole_front_rays(count);
    rays.iter_mut().for_each(|ray| {
        ray.origin[2] = 18.0;
        ray.max_distance = 17.0;
    });
    rays
}

/// A drawer front whose front is moved by 40 and 20 against its back.
pub fn slanted_front() -> Mesh {
    let mut mesh = front();
    for corner in mesh.vertices.chunks_exact_mut(3).filter(|p| p[2] > 0.0) {
        corner[0] += 40.0;
        corner[1] += 20.0;
    }
    mesh
}

/// The front and the back of a drawer front in rectangles of 3 by 7: 15,920 triangles on whole millimetres.
pub fn whole_plates() -> Mesh {
    let mut mesh = plates(199, 20);
    mesh.vertices.iter_mut().for_each(|x| *x = x.round());
    mesh
}

/// Rays along z at the slanted side of such a front, from 1 mm above its back, so long.
pub fn whole_at_slanted(count: usize, length: f64) -> Vec<Ray> {
    let mut random = random(14);
    let mut whole = |low: f64, high: f64| random.between(low, high).floor();
    (0..count)
        .map(|_| {
            let origin = [whole(617.0, 637.0), whole(30.0, 120.0), 1.0];
            Ray::new(origin, [0.0, 0.0, 1.0], length)
        })
        .collect()
}

/// The rays into a drawer front, far off it.
pub fn far_from_front(count: usize) -> Vec<Ray> {
    let mut rays = front_rays(count);
    rays.iter_mut().for_each(|ray| ray.origin[2] += 500.0);
    rays
}

fn wave(x: f64, y: f64) -> f64 {
    (0.7 * x).sin() + (0.9 * y).cos()
}

/// A wavy sheet of 2 · columns · rows triangles with corners 1 apart, row after row.
pub fn sheet(columns: usize, rows: usize) -> Mesh {
    let mut mesh = Mesh {
        vertices: Vec::new(),
        triangles: Vec::new(),
    };
    for row in 0..=rows {
        for column in 0..=columns {
            let (x, y) = (column as f64, row as f64);
            mesh.vertices.extend([x, y, wave(x, y)]);
        }
    }
    for row in 0..rows {
        for column in 0..columns {
            let a = (row * (columns + 1) + column) as u32;
            let c = a + columns as u32 + 1;
            mesh.triangles.extend([a, a + 1, c + 1, a, c + 1, c]);
        }
    }
    mesh
}

/// The same triangles in another order.
pub fn shuffled(mut mesh: Mesh) -> Mesh {
    let mut triangles: Vec<[u32; 3]> = mesh
        .triangles
        .chunks_exact(3)
        .map(|t| [t[0], t[1], t[2]])
        .collect();
    random(5).shuffle(&mut triangles);
    mesh.triangles = triangles.concat();
    mesh
}

/// Short probes from above a sheet or height grid of a width and depth.
pub fn from_above(count: usize, wide: f64, deep: f64) -> Vec<Ray> {
    let mut random = random(6);
    let ray = |_| Ray {
        origin: [random.between(0.0, wide), random.between(0.0, deep), 4.0],
        direction: [0.0, 0.0, -1.0],
        max_distance: 8.0,
        near_distance: 0.0,
    };
    (0..count).map(ray).collect()
}

pub fn heights(side: usize) -> Heights {
    let height = |place: usize| wave((place % side) as f64, (place / side) as f64);
    Heights {
        rows: side,
        columns: side,
        spacing: [1.0, 1.0],
        heights: (0..side * side).map(height).collect(),
    }
}

/// Rays over a height grid of a width, from one corner down to the other.
pub fn across(count: usize, wide: f64) -> Vec<Ray> {
    let mut random = random(7);
    let ray = |_| {
        toward(
            [random.between(0.0, 9.0), random.between(0.0, 9.0), 4.0],
            [
                wide - random.between(0.0, 9.0),
                wide - random.between(0.0, 9.0),
                -4.0,
            ],
        )
    };
    (0..count).map(ray).collect()
}

/// The same high over the grid, above all its heights.
pub fn above(count: usize, wide: f64) -> Vec<Ray> {
    let mut rays = across(count, wide);
    rays.iter_mut().for_each(|ray| ray.origin[2] += 8.0);
    rays
}

/// Distances to a sphere of radius 1 about the middle of a grid that runs from -1.5 to 1.5.
pub fn ball(side: usize) -> Distances {
    let step = 3.0 / (side - 1) as f64;
    let value = |place: usize| {
        let at = |index: usize| index as f64 * step - 1.5;
        let (x, y, z) = (
            at(place % side),
            at(place / side % side),
            at(place / side / side),
        );
        (x * x + y * y + z * z).sqrt() - 1.0
    };
    Distances {
        sides: [side as u32; 3],
        origin: [-1.5; 3],
        spacing: [step; 3],
        values: (0..side * side * side).map(value).collect(),
    }
}

/// Rays from outside the grid, through points whose distance from the middle lies in a range.
pub fn at_ball(count: usize, near: f64, far: f64) -> Vec<Ray> {
    let mut random = random(8);
    let mut unit = move || {
        let angle = random.between(0.0, TAU);
        let z = random.between(-1.0, 1.0);
        let r = (1.0 - z * z).sqrt();
        ([r * angle.cos(), r * angle.sin(), z], random.unit())
    };
    let ray = |_| {
        let (from, share) = unit();
        let (side, _) = unit();
        // the part of the second point across the first is where the ray passes the middle
        let along: f64 = (0..3).map(|axis| from[axis] * side[axis]).sum();
        let across = [0, 1, 2].map(|axis| side[axis] - along * from[axis]);
        let length = across.iter().map(|c| c * c).sum::<f64>().sqrt();
        let reach = near + (far - near) * share;
        let past = [0, 1, 2].map(|axis| across[axis] / length * reach);
        let mut ray = toward(
            [0, 1, 2].map(|axis| past[axis] + 3.0 * from[axis]),
            [0, 1, 2].map(|axis| past[axis] - 3.0 * from[axis]),
        );
        ray.max_distance = 6.0;
        ray
    };
    (0..count).map(ray).collect()
}

/// Rays with triangles: the ray goes to u, v of the triangle in a range of their sum.
pub fn at_triangles(count: usize, hit: bool) -> Vec<(Ray, [[f64; 3]; 3])> {
    let mut random = random(10);
    let pair = |_| {
        let mut point = || [0, 1, 2].map(|_| random.between(-10.0, 10.0));
        let corners = [point(), point(), point()];
        let origin = point();
        let (mut u, mut v) = (random.between(0.05, 0.45), random.between(0.05, 0.45));
        if !hit {
            match random.below(3) {
                0 => u = -u,
                1 => v = -v,
                _ => u += 1.0,
            }
        }
        let target = [0, 1, 2].map(|axis| {
            let [a, b, c] = corners.map(|corner| corner[axis]);
            a + u * (b - a) + v * (c - a)
        });
        let mut ray = toward(origin, target);
        ray.max_distance *= 1.5;
        (ray, corners)
    };
    (0..count).map(pair).collect()
}

/// Rays with planes that they meet.
pub fn at_planes(count: usize) -> Vec<(Ray, [f64; 3], f64)> {
    let mut random = random(11);
    let pair = |_| {
        let mut point = || [0, 1, 2].map(|_| random.between(-10.0, 10.0));
        let normal = toward([0.0; 3], point()).direction;
        let (origin, target) = (point(), point());
        let distance = (0..3).map(|axis| normal[axis] * target[axis]).sum();
        let mut ray = toward(origin, target);
        ray.max_distance *= 2.0;
        (ray, normal, distance)
    };
    (0..count).map(pair).collect()
}
