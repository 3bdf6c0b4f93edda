//! Seeded records for all five kinds: ordinary, boundary, damaged and extreme.

use crate::{
    answer::{Answer, Ray},
    plain,
    random::Random,
    record::{Record, Shape},
};

type Point = [f64; 3];

const UP: Point = [0.0, 0.0, 1.0];
const DOWN: Point = [0.0, 0.0, -1.0];
const T: [Point; 3] = [[0.0, 0.0, 0.0], [1.0, 0.0, 0.0], [0.0, 1.0, 0.0]];

/// K1 to K13 of document 01, then the slips that document 01 warns of, then a distance
/// that is not a number behind a hit.
pub fn marked() -> Vec<Record> {
    let down = |origin, maximum| Ray {
        origin,
        direction: DOWN,
        maximum,
        near: 0.0,
    };
    let plane = |maximum| Record {
        version: 1,
        ray: down([0.0, 0.0, 2.0], maximum),
        shape: Shape::Plane {
            normal: UP,
            distance: 0.0,
        },
    };
    let triangle = |corners, origin, maximum| Record {
        version: 1,
        ray: down(origin, maximum),
        shape: Shape::Triangle { corners },
    };
    let mesh = |times| Record {
        version: 1,
        ray: down([0.25, 0.25, 1.0], 1.0),
        shape: Shape::Mesh {
            vertices: T.as_flattened().to_vec(),
            indices: [0, 1, 2].repeat(times),
        },
    };
    let mut k3 = plane(2.0);
    k3.ray.direction = [1.0, 0.0, 0.0];
    let wide = [[0.0; 3], [1e160, 0.0, 0.0], [0.0, 1.0, 0.0]];
    let thin = [[0.0; 3], [1e160, 1e160, 0.0], [0.0, 1e-7, 0.0]];
    vec![
        plane(2.0),
        plane(1.0),
        k3,
        triangle(T, [0.25, 0.25, 1.0], 1.0),
        triangle(T, [0.5, 0.5, 1.0], 1.0),
        triangle(T, [0.75, 0.5, 1.0], 1.0),
        triangle(wide, [2.5e159, 0.25, 1.0], 10.0),
        triangle(thin, [5e159, 5e159, 1.0], 10.0),
        mesh(2),
        mesh(0),
        mesh(4),
        mesh(5),
        Record {
            version: 1,
            ray: down([0.75, 0.25, 1.0], 2.0),
            shape: Shape::HeightField {
                rows: 2,
                columns: 2,
                spacing: [1.0; 2],
                heights: vec![0.0; 4],
            },
        },
        Record {
            version: 1,
            ray: down([0.5, 0.5, 2.0], 5.0),
            shape: Shape::LevelSet {
                sides: [2; 3],
                origin: [0.0; 3],
                spacing: [1.0; 3],
                values: vec![0.0; 8],
            },
        },
        overflow_after_no_normal(f64::NAN),
        overflow_after_no_normal(1e160),
        huge_middle(),
        not_a_number([0, 1]),
        not_a_number([1, 0]),
    ]
}

/// Two triangles along one ray: one that is hit, and farther off a long thin one whose
/// distance is not a number, in either order.
fn not_a_number(order: [usize; 2]) -> Record {
    let near = [[-1e3, -1e3, 5e199], [1e3, -1e3, 5e199], [0.0, 1e3, 5e199]];
    let thin = [[0.0; 3], [1e120, 1e120, 0.0], [0.0, 1e-7, 0.0]];
    let (vertices, indices) = soup(order.map(|place| [near, thin][place]).to_vec());
    Record {
        version: 1,
        ray: Ray {
            origin: [1.0, 1.0, 1e200],
            direction: DOWN,
            maximum: 2e200,
            near: 0.0,
        },
        shape: Shape::Mesh { vertices, indices },
    }
}

/// A height grid whose first cell gives 7, since its edges' cross is infinite; the last node of the second decides on 6.
fn overflow_after_no_normal(last: f64) -> Record {
    Record {
        version: 1,
        ray: Ray {
            origin: [1e160, 1e-60, 2e50],
            direction: DOWN,
            maximum: 4e50,
            near: 0.0,
        },
        shape: Shape::HeightField {
            rows: 2,
            columns: 3,
            spacing: [1e160, 1e50],
            heights: vec![0.0, 0.0, 0.0, 1e160, 1e160, last],
        },
    }
}

/// Five triangles whose box centres overflow if taken as (min + max) / 2.
fn huge_middle() -> Record {
    let mut vertices = Vec::new();
    for k in [4.0, 2.0, 0.0, 3.0, 1.0] {
        let x = 1.0e308 + k * 1.0e307;
        vertices.extend([x, 0.0, 0.0, x, 1.0, 0.0, x, 0.0, 1.0]);
    }
    Record {
        version: 1,
        ray: Ray {
            origin: [1.0e308, 0.25, 0.25],
            direction: [1.0, 0.0, 0.0],
            maximum: 7.0e307,
            near: 0.0,
        },
        shape: Shape::Mesh {
            vertices,
            indices: (0..15).collect(),
        },
    }
}

fn add(a: Point, b: Point) -> Point {
    [0, 1, 2].map(|k| a[k] + b[k])
}

fn times(a: Point, s: f64) -> Point {
    a.map(|x| x * s)
}

fn unit(a: Point) -> Point {
    let length = (a[0] * a[0] + a[1] * a[1] + a[2] * a[2]).sqrt();
    a.map(|x| x / length)
}

/// The point of a triangle at the parts `u` and `v` of its edges.
fn on_triangle(corners: [Point; 3], u: f64, v: f64) -> Point {
    let [a, b, c] = corners;
    [0, 1, 2].map(|k| a[k] + (b[k] - a[k]) * u + (c[k] - a[k]) * v)
}

fn parts(random: &mut Random) -> (f64, f64) {
    let fixed = [
        (0.0, 0.0),
        (1.0, 0.0),
        (0.0, 1.0),
        (0.5, 0.0),
        (0.0, 0.5),
        (0.5, 0.5),
        (0.25, 0.25),
        (0.25, 0.75),
        (1.0 / 3.0, 1.0 / 3.0),
        (1.0 / 3.0, 2.0 / 3.0),
        (0.5, 0.5 + f64::EPSILON),
        (-f64::EPSILON, 0.5),
        (1.5, 0.0),
        (-0.5, 0.5),
    ];
    match random.below(4) {
        0 | 1 => random.pick(&fixed),
        2 => {
            let u = random.unit();
            (u, (1.0 - u) * random.unit())
        }
        _ => (random.between(-0.2, 1.2), random.between(-0.2, 1.2)),
    }
}

fn axis_direction(random: &mut Random) -> Point {
    let zero = random.pick(&[0.0, -0.0]);
    let mut direction = [zero; 3];
    direction[random.below(3)] = random.sign();
    direction
}

/// A direction of length about 1.
fn direction(random: &mut Random) -> Point {
    match random.below(6) {
        0..3 => axis_direction(random),
        3 => {
            let half = std::f64::consts::FRAC_1_SQRT_2;
            let mut slanted = [half * random.sign(), half * random.sign(), 0.0];
            random.shuffle(&mut slanted);
            slanted
        }
        4 => random.pick(&[
            [0.6, 0.8, 0.0],
            [0.0, -0.6, 0.8],
            [0.8, 0.0, -0.6],
            [-0.6, 0.0, -0.8],
        ]),
        _ => loop {
            let drawn = [0; 3].map(|_| random.between(-1.0, 1.0));
            if drawn.iter().any(|x| x.abs() > 0.1) {
                break unit(drawn);
            }
        },
    }
}

/// A direction or normal moved to the border of what is admitted, 1e-12 off.
fn off_length(random: &mut Random, direction: Point) -> Point {
    let off = random.pick(&[1e-12, 0.999e-12, 1.001e-12, 0.5e-12, 2e-12, 1e-9, 1e-16]);
    let mut moved = times(direction, 1.0 + off * random.sign());
    if random.once_in(2) {
        let k = random.below(3);
        moved[k] = random.nudged(moved[k]);
    }
    moved
}

fn distance_from(random: &mut Random) -> f64 {
    match random.below(5) {
        0 => 1.0,
        1 => random.within(0, 8) as f64,
        2 => random.within(1, 32) as f64 / 4.0,
        3 => 0.0,
        _ => random.between(0.0, 6.0),
    }
}

/// A ray towards a target, at sizes of about `scale`.
pub fn ray_to(random: &mut Random, target: Point, scale: f64) -> Ray {
    let away = distance_from(random) * scale;
    let mut direction = direction(random);
    let mut origin = add(target, times(direction, -away));
    if random.once_in(3) {
        origin = target.map(|x| x + random.coordinate() * scale);
        let aimed = unit(add(target, times(origin, -1.0)));
        if aimed.iter().all(|x| x.is_finite()) {
            direction = aimed;
        }
    }
    if random.once_in(12) {
        let k = random.below(3);
        direction[k] = random.special();
        if random.once_in(2) {
            direction = unit(direction);
        }
    }
    if random.once_in(16) {
        direction = off_length(random, direction);
    }
    let maximum = match random.below(8) {
        0 => away,
        1 => away * 0.5,
        2 => away + scale,
        3 => random.pick(&[0.0, -0.0, 1.0, 1e3, 1e300, f64::MAX, 5e-324]),
        _ => 10.0 * scale,
    };
    Ray {
        origin,
        direction,
        maximum,
        near: 0.0,
    }
}

/// The size of a part: mostly 1, at times as large or small as floats go.
fn scale(random: &mut Random) -> f64 {
    if random.once_in(5) {
        let extreme = [
            1e-3, 1e3, 1e-8, 1e8, 1e-77, 1e77, 1e-108, 1e102, 1e-160, 1e154, 1e-310, 1e300,
        ];
        random.pick(&extreme)
    } else {
        1.0
    }
}

fn plane(random: &mut Random) -> Record {
    let mut normal = direction(random);
    if random.once_in(8) {
        normal = off_length(random, normal);
    }
    let scale = scale(random);
    let distance = random.coordinate() * scale;
    let slide = [0; 3].map(|_| random.coordinate() * scale);
    let target = match random.below(3) {
        0 => slide,
        _ => times(normal, distance),
    };
    let mut ray = ray_to(random, target, scale);
    if random.once_in(6) {
        // Nearly parallel, about where the denominator counts as none.
        let tilt = f64::EPSILON * random.pick(&[0.5, 16.0, 31.0, 32.0, 33.0, 64.0, 1000.0]);
        let along = [normal[1], -normal[0], 0.0];
        ray.direction = unit(add(unit(along), times(normal, tilt * random.sign())));
    }
    Record {
        version: 1,
        ray,
        shape: Shape::Plane { normal, distance },
    }
}

fn corners(random: &mut Random, scale: f64) -> [Point; 3] {
    let mut corners = [[0.0; 3]; 3].map(|_| [0; 3].map(|_| random.coordinate() * scale));
    match random.below(12) {
        0..3 => {
            // Flat across one axis, so that an axis ray meets it at one depth.
            let (axis, depth) = (random.below(3), random.coordinate() * scale);
            corners.iter_mut().for_each(|corner| corner[axis] = depth);
        }
        3 => corners[random.below(3)] = corners[random.below(3)],
        4 => corners[2] = on_triangle(corners, random.unit(), 0.0),
        5 => {
            let (thin, wide) = (
                random.pick(&[1e-7, 1e-12, 1e-150]),
                random.pick(&[1.0, 1e160]),
            );
            corners = [[0.0; 3], [wide, wide, 0.0], [0.0, thin, 0.0]];
        }
        6 => corners = T.map(|corner| times(corner, scale)),
        _ => {}
    }
    corners
}

fn triangle(random: &mut Random) -> Record {
    let scale = scale(random);
    let corners = corners(random, scale);
    let (u, v) = parts(random);
    Record {
        version: 1,
        ray: ray_to(random, on_triangle(corners, u, v), scale),
        shape: Shape::Triangle { corners },
    }
}

/// Triangles that share no vertex.
fn soup(triangles: Vec<[Point; 3]>) -> (Vec<f64>, Vec<u32>) {
    let vertices: Vec<f64> = triangles.as_flattened().as_flattened().to_vec();
    let indices = (0..3 * triangles.len() as u32).collect();
    (vertices, indices)
}

/// A sheet of squares, each of two triangles, that share their vertices.
fn sheet(random: &mut Random, side: usize) -> (Vec<f64>, Vec<u32>) {
    let rough = random.pick(&[0.0, 0.0, 1.0]);
    let mut vertices = Vec::new();
    for y in 0..=side {
        for x in 0..=side {
            vertices.extend([x as f64, y as f64, rough * random.coordinate()]);
        }
    }
    let (mut indices, across) = (Vec::new(), side as u32 + 1);
    for y in 0..side as u32 {
        for x in 0..side as u32 {
            let first = y * across + x;
            indices.extend([first, first + 1, first + across + 1]);
            indices.extend([first, first + across + 1, first + across]);
        }
    }
    (vertices, indices)
}

/// Parallel triangles one behind the other, in any order, some at one depth.
fn stack(random: &mut Random, count: usize) -> (Vec<f64>, Vec<u32>) {
    let (axis, levels) = (random.below(3), random.within(1, 12));
    let mut triangles = Vec::new();
    for _ in 0..count {
        let depth = random.within(-levels, levels) as f64 / 2.0;
        triangles.push(T.map(|corner| {
            let mut placed = times(corner, 2.0);
            placed.rotate_right((axis + 1) % 3);
            placed[axis] = depth;
            placed
        }));
    }
    soup(triangles)
}

/// One triangle many times over, its corners turned.
fn repeated(random: &mut Random, count: usize) -> (Vec<f64>, Vec<u32>) {
    let corners = corners(random, 1.0);
    let mut indices = Vec::new();
    for _ in 0..count {
        let mut turned = [0, 1, 2];
        if random.once_in(2) {
            random.shuffle(&mut turned);
        }
        indices.extend(turned);
    }
    (corners.as_flattened().to_vec(), indices)
}

/// Any three of a few vertices, so that indices repeat.
fn shared(random: &mut Random, count: usize) -> (Vec<f64>, Vec<u32>) {
    let vertices = random.within(1, 12) as usize;
    let places = (0..3 * vertices).map(|_| random.coordinate()).collect();
    let indices = (0..3 * count)
        .map(|_| random.below(vertices) as u32)
        .collect();
    (places, indices)
}

/// Coordinates at the ends of the range: centres, extents and products overflow
/// or underflow, and zeros have both signs.
fn at_the_ends(random: &mut Random, count: usize) -> (Vec<f64>, Vec<u32>) {
    let few = match random.below(4) {
        0 => vec![0.0, -0.0],
        1 => vec![1.0e308, 1.2e308, 1.5e308, f64::MAX],
        2 => vec![5e-324, 1e-323, 1.5e-323, 0.0, -5e-324],
        _ => vec![f64::MAX, -f64::MAX, 0.0, 1.0],
    };
    let triangle = |random: &mut Random| [[0.0; 3]; 3].map(|c: Point| c.map(|_| random.pick(&few)));
    let mut triangles = Vec::new();
    for _ in 0..count {
        triangles.push(if random.once_in(3) {
            corners(random, 1.0)
        } else {
            triangle(random)
        });
    }
    soup(triangles)
}

/// Triangles along one ray of which some are hit, some refused with 6 or 7 and some
/// hit at a distance that is not a number: the lowest refusing index decides.
fn refusing(random: &mut Random) -> Record {
    let far = random.once_in(3);
    let sorts: &[usize] = match (far, random.below(4)) {
        (true, 0) => &[4],
        (true, _) => &[2, 3, 4],
        (false, 0) => &[0],
        (false, 1) => &[0, 0, 0, 2],
        (false, 2) => &[0, 0, 0, 3],
        (false, _) => &[0, 0, 0, 0, 1, 2, 3],
    };
    let mut triangles = Vec::new();
    for _ in 0..random.within(1, 12) {
        let z = random.within(-2, 2) as f64 / 2.0;
        triangles.push(match random.pick(sorts) {
            0 => T.map(|corner| add(corner, [0.0, 0.0, z])),
            1 => [[0.0, 0.0, z], [1.0, f64::NAN, z], [0.0, 1.0, z]],
            2 => [[0.0, 0.0, z], [1e160, 0.0, z], [0.0, 1.2e160, z]],
            3 => [
                [-1.5e308, -1.5e308, z],
                [1.5e308, -1.5e308, z],
                [0.0, 1.5e308, z],
            ],
            _ => [[0.0, 0.0, z], [1e160, 1e160, z], [0.0, 1e-7, z]],
        });
    }
    let (vertices, indices) = soup(triangles);
    let across = if far { 5e159 } else { 0.25 };
    Record {
        version: 1,
        ray: Ray {
            origin: [across, across, 2.0],
            direction: DOWN,
            maximum: random.pick(&[1.0, 1.5, 2.0, 10.0]),
            near: 0.0,
        },
        shape: Shape::Mesh { vertices, indices },
    }
}

/// Long thin triangles seen from far away, which give a distance that is not a number,
/// among ordinary ones that are hit, in any order and on either side of them.
fn seen_from_far(random: &mut Random) -> Record {
    let far = random.pick(&[1e190, 1e200, 1e205]);
    let mut triangles = Vec::new();
    for _ in 0..random.within(1, 6) {
        let z = far * random.within(-3, 3) as f64 / 4.0;
        triangles.push(match random.below(3) {
            0 => [[0.0, 0.0, z], [1e120, 1e120, z], [0.0, 1e-7, z]],
            1 => [[-1e3, -1e3, z], [1e3, -1e3, z], [0.0, 1e3, z]],
            // One that the ray passes by, and whose box it does not touch.
            _ => [[2.0, 2.0, z], [1e120, 1e120, z], [2.0, 2.0 + 1e-7, z]],
        });
    }
    let (vertices, indices) = soup(triangles);
    Record {
        version: 1,
        ray: Ray {
            origin: [random.pick(&[1.0, 1.0, 0.5]), 1.0, far],
            direction: DOWN,
            maximum: far * random.pick(&[0.5, 1.0, 2.0, 2.0]),
            near: 0.0,
        },
        shape: Shape::Mesh { vertices, indices },
    }
}

fn mesh(random: &mut Random) -> Record {
    if random.once_in(16) {
        return refusing(random);
    }
    let most = random.pick(&[1, 4, 5, 9, 20, 60]);
    let least = i64::from(!random.once_in(40));
    let count = random.within(least, most) as usize;
    let (mut vertices, mut indices) = match random.below(9) {
        0 | 1 => {
            let triangles = (0..count).map(|_| corners(random, 1.0)).collect();
            soup(triangles)
        }
        2 | 3 => {
            let side = random.within(1, 5) as usize;
            sheet(random, side)
        }
        4 | 5 => stack(random, count),
        6 => repeated(random, count),
        7 => shared(random, count),
        _ => at_the_ends(random, count),
    };
    let scale = scale(random);
    vertices.iter_mut().for_each(|x| *x *= scale);
    let target = some_point_of(random, &vertices, &indices);
    let ray = ray_to(random, target, scale);
    if random.once_in(4) {
        let order = shuffled_triangles(random, &indices);
        indices = order;
    }
    if random.once_in(24) && !indices.is_empty() {
        let place = random.below(indices.len());
        indices[place] = random.pick(&[vertices.len() as u32 / 3, u32::MAX, 1 << 31, 65_536]);
    }
    if random.once_in(24) && !vertices.is_empty() {
        // One corner's coordinate is not a number: the box skips it.
        let place = random.below(vertices.len());
        vertices[place] = f64::NAN;
    }
    Record {
        version: 1,
        ray,
        shape: Shape::Mesh { vertices, indices },
    }
}

fn shuffled_triangles(random: &mut Random, indices: &[u32]) -> Vec<u32> {
    let mut triangles: Vec<&[u32]> = indices.chunks_exact(3).collect();
    random.shuffle(&mut triangles);
    triangles.concat()
}

fn some_point_of(random: &mut Random, vertices: &[f64], indices: &[u32]) -> Point {
    if indices.is_empty() {
        return [0.0; 3];
    }
    let triangle = random.below(indices.len() / 3);
    let corner = |k: usize| {
        let vertex = 3 * indices[3 * triangle + k] as usize;
        [vertices[vertex], vertices[vertex + 1], vertices[vertex + 2]]
    };
    let (u, v) = parts(random);
    on_triangle([corner(0), corner(1), corner(2)], u, v)
}

fn spacing(random: &mut Random) -> f64 {
    if random.once_in(40) {
        return random.pick(&[
            0.0,
            -0.0,
            -1.0,
            f64::NAN,
            f64::INFINITY,
            5e-324,
            1e308,
            f64::MAX,
        ]);
    }
    let usual = [1.0, 1.0, 0.5, 2.0, 0.1, 0.3, 1.0 / 3.0, 0.7, 1e-3, 37.5];
    random.pick(&usual) * scale(random)
}

/// A side of a grid, mostly small; at times outside what is admitted.
fn side(random: &mut Random, usual: i64) -> u32 {
    if random.once_in(60) {
        random.pick(&[0, 1, 257, 1_025])
    } else {
        random.within(2, usual) as u32
    }
}

/// A place along one side of a grid: a node, between nodes, or a little outside.
fn place(random: &mut Random, side: u32) -> f64 {
    let last = f64::from(side) - 1.0;
    match random.below(8) {
        0..3 => random.below(side.max(1) as usize) as f64,
        3 => random.below(2 * side.max(1) as usize) as f64 / 2.0,
        4 => random.pick(&[0.0, last]),
        5 => random.pick(&[-0.5, last + 0.5, -1e-9, last * (1.0 + f64::EPSILON)]),
        _ => random.unit() * last,
    }
}

fn values(random: &mut Random, count: usize) -> Vec<f64> {
    let constant = random.coordinate();
    let style = random.below(6);
    let value = |random: &mut Random| match style {
        0 => 0.0,
        1 => constant,
        2 => random.within(-2, 2) as f64,
        3 => random.pick(&[0.0, -0.0, 1.0, -1.0]),
        _ => random.coordinate(),
    };
    (0..count).map(|_| value(random)).collect()
}

fn height_field(random: &mut Random) -> Record {
    let [mut rows, mut columns] = [0; 2].map(|_| side(random, 6));
    if random.once_in(12) {
        (rows, columns) = (2, random.within(2, 500) as u32);
    } else if random.once_in(12) {
        (rows, columns) = (random.within(2, 500) as u32, 2);
    }
    if rows * columns > 1_013 {
        (rows, columns) = random.pick(&[(1_025, 0), (0, 1_025), (1_010, 1)]);
    }
    let spacing = [0; 2].map(|_| spacing(random));
    let size = scale(random);
    let mut heights = values(random, (rows * columns) as usize);
    heights.iter_mut().for_each(|height| *height *= size);
    let (x, y) = (place(random, columns), place(random, rows));
    let node = (y.max(0.0) as u32).min(rows.max(1) - 1) * columns
        + (x.max(0.0) as u32).min(columns.max(1) - 1);
    let z = heights.get(node as usize).copied().unwrap_or(0.0);
    let mut ray = ray_to(random, [x * spacing[0], y * spacing[1], z], size);
    if random.once_in(3) {
        ray.direction = [0.0, 0.0, random.sign()];
        ray.origin = [
            x * spacing[0],
            y * spacing[1],
            z - ray.direction[2] * 2.0 * size,
        ];
    }
    if random.once_in(6) {
        // A long ray over many cells.
        let across = [
            f64::from(columns) * spacing[0],
            f64::from(rows) * spacing[1],
            size,
        ];
        ray.origin = [-0.1 * across[0], random.unit() * across[1], z + size];
        let aimed = unit([
            across[0],
            random.between(-1.0, 1.0) * across[1],
            -2.0 * size,
        ]);
        ray.direction = aimed;
        ray.maximum = 4.0 * (across[0] + across[1]);
    }
    Record {
        version: 1,
        ray,
        shape: Shape::HeightField {
            rows,
            columns,
            spacing,
            heights,
        },
    }
}

/// The values of a grid: distances of a plane, a ball or a saddle, or any values.
fn distances(random: &mut Random, sides: [u32; 3]) -> Vec<f64> {
    let style = random.below(8);
    let (normal, shift) = (direction(random), random.coordinate());
    let centre = sides.map(|side| random.unit() * f64::from(side));
    let mut all = Vec::new();
    for z in 0..sides[2] {
        for y in 0..sides[1] {
            for x in 0..sides[0] {
                let node = [x, y, z].map(f64::from);
                let off: Point = [0, 1, 2].map(|k| node[k] - centre[k]);
                let dot = normal[0] * node[0] + normal[1] * node[1] + normal[2] * node[2];
                all.push(match style {
                    0 | 1 => dot - shift.abs(),
                    2 => dot - shift.abs().round(),
                    3 => off[0].hypot(off[1]).hypot(off[2]) - 1.0,
                    4 => off[0] * off[1] * off[2],
                    5 => (node[0] - 0.5) * (node[1] - 0.25) * (node[2] - 0.75) + shift * 1e-3,
                    _ => 0.0,
                });
            }
        }
    }
    if style > 5 {
        values(random, all.len())
    } else {
        all
    }
}

/// A place between two neighbouring nodes of other signs, at the zero between them.
fn at_a_change(random: &mut Random, sides: [u32; 3], values: &[f64]) -> Option<Point> {
    let strides = [1, sides[0] as usize, (sides[0] * sides[1]) as usize];
    for _ in 0..values.len().min(40) {
        let node = sides.map(|side| random.below(side as usize));
        let axis = random.below(3);
        let at = node[0] + strides[1] * node[1] + strides[2] * node[2];
        if node[axis] + 1 == sides[axis] as usize {
            continue;
        }
        let (low, high) = (values[at], values[at + strides[axis]]);
        if (low < 0.0) != (high < 0.0) {
            let mut place = node.map(|k| k as f64);
            let others = random.pick(&[0.0, 0.0, 0.25, 0.5]);
            place.iter_mut().for_each(|k| *k += others);
            place[axis] = node[axis] as f64 + low / (low - high);
            return Some(place);
        }
    }
    None
}

fn level_set(random: &mut Random) -> Record {
    let mut sides = [0; 3].map(|_| side(random, 5));
    if random.once_in(10) {
        sides = [2, 2, random.within(2, 240) as u32];
        random.shuffle(&mut sides);
    }
    if sides.iter().product::<u32>() > 1_009 {
        sides = random.pick(&[[257, 0, 2], [0, 257, 0], [2, 1, 257], [504, 2, 1]]);
    }
    let spacing = if random.once_in(2) {
        [spacing(random); 3]
    } else {
        [0; 3].map(|_| spacing(random))
    };
    let size = scale(random);
    let far = random.pick(&[1.0, 1.0, 1.0, 1.0, 1.0, 1.0, 0.0, 0.0, 1e6, 1e15, 1e300]);
    let origin = [0; 3].map(|_| random.coordinate() * far * spacing[0]);
    let mut values = distances(random, sides);
    values.iter_mut().for_each(|value| *value *= size);
    let mut nodes = sides.map(|side| place(random, side));
    if !random.once_in(3) {
        nodes = at_a_change(random, sides, &values).unwrap_or(nodes);
    }
    let target: Point = [0, 1, 2].map(|k| origin[k] + spacing[k] * nodes[k]);
    let mut ray = ray_to(random, target, spacing[0]);
    if random.once_in(6) {
        // From a place in the grid or on its face, along an axis or any way.
        ray.origin = target;
    }
    if random.once_in(16) {
        // Nearly along an axis: a component that the slab test takes as none.
        ray.direction = axis_direction(random);
        let along = (0..3).find(|&k| ray.direction[k] == 0.0).unwrap_or(0);
        let tiny = [5e-324, -1e-310, f64::MIN_POSITIVE, -3e-308, 1e-300, -1e-20];
        ray.direction[along] = random.pick(&tiny);
    }
    ray.maximum = ray
        .maximum
        .max(random.pick(&[0.0, 0.0, 100.0]) * spacing[0]);
    Record {
        version: 1,
        ray,
        shape: Shape::LevelSet {
            sides,
            origin,
            spacing,
            values,
        },
    }
}

/// Sets the maximum to the distance of the hit, or one step to either side.
fn maximum_at_the_hit(random: &mut Random, record: &mut Record) {
    if let Answer::Hit { distance, .. } = record.answer()
        && distance.is_finite()
    {
        record.ray.maximum = match random.below(4) {
            0 => distance.next_up(),
            1 => distance.next_down(),
            _ => distance,
        };
    }
}

/// A near distance for a ray: about a hit's distance, between 0 and the maximum or at
/// either, and at times one that is refused.
pub fn near(random: &mut Random, maximum: f64, hit: Option<f64>) -> f64 {
    match (random.below(12), hit) {
        (0..3, Some(distance)) => distance,
        (3, Some(distance)) => distance.next_up(),
        (4, Some(distance)) => distance.next_down(),
        (5, _) => maximum,
        (6, _) => -0.0,
        (7, _) => random.special(),
        (8, _) => maximum.next_up(),
        _ => maximum * random.unit(),
    }
}

/// Gives a record a near distance.
pub fn give_near(random: &mut Random, record: &mut Record) {
    let hit = match record.answer() {
        Answer::Hit { distance, .. } if distance.is_finite() => Some(distance),
        _ => None,
    };
    record.ray.near = near(random, record.ray.maximum, hit);
}

fn damage(random: &mut Random, record: &mut Record) {
    let (nudge, special) = (random.once_in(8), random.once_in(10));
    let mut floats = record.floats_mut();
    // The ray and the front of the shape's fields are met as often as all values.
    let reach = if random.once_in(2) {
        floats.len().min(14)
    } else {
        floats.len()
    };
    let place = random.below(reach);
    if special {
        *floats[place] = random.special();
    } else if nudge {
        *floats[place] = random.nudged(*floats[place]);
    }
}

/// Record `number` of the run `seed`, of one of `kinds`.
pub fn record(seed: u64, number: u64, kinds: &[u8]) -> Record {
    let random = &mut Random::of_record(seed, number);
    loop {
        let mut record = match random.pick(kinds) {
            1 => plane(random),
            2 => triangle(random),
            3 if number % 61 == 17 => seen_from_far(random),
            3 => mesh(random),
            4 => height_field(random),
            5 => level_set(random),
            kind => panic!("no kind {kind}"),
        };
        if random.once_in(4) {
            maximum_at_the_hit(random, &mut record);
        }
        damage(random, &mut record);
        if record.fits() {
            return record;
        }
    }
}

/// The same record in version 2, with a near distance of its own.
pub fn with_near(seed: u64, number: u64, kinds: &[u8]) -> Record {
    let random = &mut Random::of_record(seed ^ 0x6e65_6172, number);
    let mut record = record(seed, number, kinds);
    give_near(random, &mut record);
    if random.once_in(16) {
        record.ray.near = random.special();
    }
    record.version = 2;
    if record.fits() {
        record
    } else {
        with_near(seed, number.wrapping_add(1 << 32), kinds)
    }
}

/// A record of version 3: every float of one of version 2 is taken as the nearest f32. Three f32 are seldom a direction, so that
/// most rays go along an axis, through the point that was hit.
pub fn short(seed: u64, number: u64, kinds: &[u8]) -> Record {
    let random = &mut Random::of_record(seed ^ 0x7368_6f72, number);
    let mut record = with_near(seed, number, kinds);
    if random.once_in(2) {
        record.ray.near = 0.0;
    }
    if !random.once_in(8) {
        along_an_axis(&mut record);
    }
    for float in record.floats_mut() {
        *float = f64::from(*float as f32);
    }
    record.version = 3;
    record
}

/// The same record in version 2.
pub fn widened(seed: u64, number: u64, kinds: &[u8]) -> Record {
    Record {
        version: 2,
        ..short(seed, number, kinds)
    }
}

fn along_an_axis(record: &mut Record) {
    let found = plain::answer(record);
    let Ray {
        origin, direction, ..
    } = &mut record.ray;
    let largest = (0..3).fold(0, |best, k| {
        if direction[k].abs() > direction[best].abs() {
            k
        } else {
            best
        }
    });
    let sign = if direction[largest] < 0.0 { -1.0 } else { 1.0 };
    if let Answer::Hit { distance, .. } = found {
        for k in 0..3 {
            origin[k] += direction[k] * distance;
        }
        origin[largest] -= sign * distance;
    }
    *direction = [0.0; 3];
    direction[largest] = sign;
}

/// Malformed streams, one damage each, with a name for each.
pub fn bad_streams() -> Vec<(String, Vec<u8>)> {
    let good: Vec<Record> = marked();
    let first = good[0].write();
    let mut streams = vec![("empty-is-not-bad".to_owned(), Vec::new())];
    let mut put = |name: &str, bytes: Vec<u8>| streams.push((name.to_owned(), bytes));

    for cut in 1..4 {
        put(
            &format!("length-cut-to-{cut}"),
            [first.clone(), first[..cut].to_vec()].concat(),
        );
    }
    for length in [0u32, 1, 2, 57, 58, 8_192, 8_193, 0x8000_0000, u32::MAX] {
        let body = vec![1; 8_193];
        put(
            &format!("length-{length}"),
            [&length.to_be_bytes(), &body[..]].concat(),
        );
    }
    let kinds = [(1, 0), (2, 3), (3, 8), (4, 12), (5, 13)];
    for ((kind, place), version) in kinds
        .into_iter()
        .flat_map(|kind| [(kind, 1), (kind, 2), (kind, 3)])
    {
        let prefix = match version {
            1 => String::new(),
            _ => format!("version-{version}-"),
        };
        let whole = Record {
            version,
            ..good[place].clone()
        }
        .write();
        let length = whole.len() - 4;
        let set = |length: usize, body: &[u8]| [&(length as u32).to_be_bytes(), body].concat();
        let body = &whole[4..];
        put(
            &format!("{prefix}kind-{kind}-cut-by-one"),
            whole[..whole.len() - 1].to_vec(),
        );
        put(
            &format!("{prefix}kind-{kind}-cut-in-half"),
            whole[..whole.len() / 2].to_vec(),
        );
        put(
            &format!("{prefix}kind-{kind}-without-body"),
            whole[..4].to_vec(),
        );
        for less in [1, 8] {
            let shorter = set(length - less, &body[..length - less]);
            put(&format!("{prefix}kind-{kind}-short-by-{less}"), shorter);
            let longer = set(length + less, &[body, &[0; 8][..less]].concat());
            put(&format!("{prefix}kind-{kind}-long-by-{less}"), longer);
        }
        for (what, place, values) in [
            (
                "version",
                4,
                [0, if version == 3 { 2 } else { 3 - version }, 4, 255],
            ),
            ("kind", 5, [0, 6, 7, 255]),
        ] {
            for value in values {
                let mut other = whole.clone();
                other[place] = value;
                let name = format!("{prefix}kind-{kind}-with-{what}-{value}");
                put(&name, [&first[..], &other, &first].concat());
            }
        }
    }
    // the most values that version 2 has room for, before a record that is cut short, and one value more
    for (heights, name) in [(1_012, "longest"), (1_013, "too-long")] {
        let shape = Shape::HeightField {
            rows: 1,
            columns: heights,
            spacing: [1.0; 2],
            heights: vec![0.5; heights as usize],
        };
        let ray = good[0].ray.clone();
        let record = Record {
            version: 3,
            ray,
            shape,
        };
        put(
            &format!("version-3-heights-{name}"),
            [&first[..], &record.write(), &first[..9]].concat(),
        );
    }
    let counts = wrong_counts().into_iter();
    let counts = counts.flat_map(|wrong| [(wrong.clone(), 1), (wrong.clone(), 2), (wrong, 3)]);
    for ((name, place, words), version) in counts {
        let (name, counts) = match version {
            1 => (name, 62),
            2 => (format!("version-2-{name}"), 70),
            _ => (format!("version-3-{name}"), 38),
        };
        let mut whole = Record {
            version,
            ..good[place].clone()
        }
        .write();
        for (k, word) in words.iter().enumerate() {
            let at = counts + 4 * k;
            whole[at..at + 4].copy_from_slice(&word.to_be_bytes());
        }
        put(&name, [&first[..], &whole, &first].concat());
        // The same counts with no value after them, as if the product had wrapped to 0.
        let size = if version == 3 { 4 } else { 8 };
        let before_values = match good[place].shape.kind() {
            3 => 8,
            4 => 8 + 2 * size,
            _ => 12 + 6 * size,
        };
        let empty = &whole[4..counts + before_values];
        let length = (empty.len() as u32).to_be_bytes();
        put(&format!("{name}-without-values"), [&length, empty].concat());
    }
    streams
}

/// Counts that the record does not carry, some of them with a product that wraps.
fn wrong_counts() -> Vec<(String, usize, Vec<u32>)> {
    let mut all = Vec::new();
    let mut put =
        |name: &str, place, words: &[u32]| all.push((name.to_owned(), place, words.to_vec()));
    put("mesh-one-vertex-more", 8, &[4, 2]);
    put("mesh-one-vertex-less", 8, &[2, 2]);
    put("mesh-one-triangle-more", 8, &[3, 3]);
    put("mesh-one-triangle-less", 8, &[3, 1]);
    put("mesh-most-vertices", 8, &[u32::MAX, 2]);
    put("mesh-most-triangles", 8, &[3, u32::MAX]);
    put("mesh-vertices-wrap-32", 8, &[1 << 29, 0]);
    put("mesh-triangles-wrap-32", 8, &[0, 1 << 30]);
    put("heights-one-row-more", 12, &[3, 2]);
    put("heights-one-row-less", 12, &[1, 2]);
    put("heights-wrap-32", 12, &[1 << 16, 1 << 16]);
    put("heights-bytes-wrap-32", 12, &[1 << 15, 1 << 14]);
    put("heights-bytes-wrap-64", 12, &[1 << 31, 1 << 30]);
    put("heights-most", 12, &[u32::MAX, u32::MAX]);
    put("distances-one-more", 13, &[3, 2, 2]);
    put("distances-one-less", 13, &[1, 2, 2]);
    put("distances-wrap-32", 13, &[1 << 11, 1 << 11, 1 << 10]);
    put("distances-wrap-64", 13, &[1 << 22, 1 << 21, 1 << 21]);
    put("distances-bytes-wrap-64", 13, &[1 << 21, 1 << 20, 1 << 20]);
    put("distances-most", 13, &[u32::MAX, u32::MAX, u32::MAX]);
    all
}
