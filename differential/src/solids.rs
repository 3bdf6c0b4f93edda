//! Closed boards on a lattice: boxes, sheared ones, prisms, boards with a pocket or a bore through. A segment from a place
//! outside to one in the closed board has to hit, wherever it goes through the surface, and so has a ray from a place in it.

use crate::boards::{
    Board, Direction, FARTHEST, LONGEST, Line,
    judge::{Point, cross, dot, minus},
    step,
};
use oracle::{answer::Ray, random::Random};

type Holds = Box<dyn Fn(Point) -> bool>;

pub struct Solid {
    pub name: &'static str,
    pub triangles: Vec<[Point; 3]>,
    /// Whether the closed board has a point: told by its measures, not by its triangles.
    pub holds: Holds,
    low: Point,
    high: Point,
}

fn plus(p: Point, q: Point) -> Point {
    [p[0] + q[0], p[1] + q[1], p[2] + q[2]]
}

fn times(p: Point, k: i128) -> Point {
    p.map(|x| x * k)
}

fn between(random: &mut Random, low: i128, high: i128) -> i128 {
    random.within(low as i64, high as i64) as i128
}

/// Two triangles along either diagonal.
fn quad(random: &mut Random, corners: [Point; 4], triangles: &mut Vec<[Point; 3]>) {
    let [a, b, c, d] = corners;
    triangles.extend(if random.once_in(2) {
        [[a, b, c], [a, c, d]]
    } else {
        [[b, c, d], [b, d, a]]
    });
}

/// The outlines' walls, each from one place of a loop to the next.
fn walls(random: &mut Random, one: &[Point], other: &[Point], triangles: &mut Vec<[Point; 3]>) {
    for k in 0..one.len() {
        let next = (k + 1) % one.len();
        quad(
            random,
            [one[k], one[next], other[next], other[k]],
            triangles,
        );
    }
}

/// A parallelepiped; a box where its edges lie along the axes.
fn sheared(random: &mut Random, size: i128, boxed: bool) -> Option<Solid> {
    let mut edges = [[0; 3]; 3];
    for axis in 0..3 {
        for k in 0..3 {
            let any = between(random, -size / 4, size / 4);
            edges[axis][k] = if axis == k || boxed { 0 } else { any };
        }
        edges[axis][axis] = between(random, 1, size);
    }
    let [a, b, c] = edges;
    let start = [0; 3].map(|_: i128| between(random, -size, 0));
    let volume = dot(a, cross(b, c));
    if volume == 0 {
        return None;
    }
    let corner =
        |k: usize| (0..3).fold(start, |p, e| plus(p, times(edges[e], (k >> e & 1) as i128)));
    let faces = [
        [0, 1, 3, 2],
        [4, 5, 7, 6],
        [0, 1, 5, 4],
        [2, 3, 7, 6],
        [0, 2, 6, 4],
        [1, 3, 7, 5],
    ];
    let mut triangles = Vec::new();
    for face in faces {
        quad(random, face.map(corner), &mut triangles);
    }
    let holds = move |p: Point| {
        let from = minus(p, start);
        let parts = [cross(b, c), cross(c, a), cross(a, b)].map(|n| dot(from, n) * volume.signum());
        parts.iter().all(|part| (0..=volume.abs()).contains(part))
    };
    Some(solid(
        if boxed { "boxes" } else { "sheared boxes" },
        triangles,
        Box::new(holds),
    ))
}

/// The convex outline of some places, to the left.
fn outline(mut places: Vec<[i128; 2]>) -> Vec<[i128; 2]> {
    places.sort_unstable();
    places.dedup();
    let left = |p: [i128; 2], q: [i128; 2], r: [i128; 2]| {
        (q[0] - p[0]) * (r[1] - p[1]) - (q[1] - p[1]) * (r[0] - p[0]) > 0
    };
    let half = |places: &mut dyn Iterator<Item = [i128; 2]>| {
        let mut chain: Vec<[i128; 2]> = Vec::new();
        for place in places {
            while chain.len() > 1 && !left(chain[chain.len() - 2], chain[chain.len() - 1], place) {
                chain.pop();
            }
            chain.push(place);
        }
        chain.pop();
        chain
    };
    let mut chain = half(&mut places.iter().copied());
    chain.extend(half(&mut places.iter().rev().copied()));
    chain
}

/// A prism over a convex outline, its ends cut into a fan from one corner.
fn prism(random: &mut Random, size: i128) -> Option<Solid> {
    let places =
        (0..random.within(3, 9)).map(|_| [0; 2].map(|_: i128| between(random, -size, size)));
    let chain = outline(places.collect());
    if chain.len() < 3 {
        return None;
    }
    let (bottom, top) = (between(random, -size, 0), between(random, 1, size));
    let level = |z: i128| -> Vec<Point> { chain.iter().map(|p| [p[0], p[1], z]).collect() };
    let mut triangles = Vec::new();
    for ring in [level(bottom), level(top)] {
        let first = random.below(ring.len());
        let at = |k: usize| ring[(first + k) % ring.len()];
        triangles.extend((2..ring.len()).map(|k| [at(0), at(k - 1), at(k)]));
    }
    walls(random, &level(bottom), &level(top), &mut triangles);
    let holds = move |p: Point| {
        let inner = |k: usize| {
            let (a, b) = (chain[k], chain[(k + 1) % chain.len()]);
            (b[0] - a[0]) * (p[1] - a[1]) - (b[1] - a[1]) * (p[0] - a[0]) >= 0
        };
        (bottom..=top).contains(&p[2]) && (0..chain.len()).all(inner)
    };
    Some(solid("prisms", triangles, Box::new(holds)))
}

fn rectangle(low: [i128; 2], high: [i128; 2], z: i128) -> [Point; 4] {
    [
        [low[0], low[1], z],
        [high[0], low[1], z],
        [high[0], high[1], z],
        [low[0], high[1], z],
    ]
}

/// A board with a pocket from above, or a bore through it, with four sides.
fn pocket(random: &mut Random, size: i128) -> Option<Solid> {
    let (low, high) = (
        [0; 2].map(|_: i128| between(random, -size, -2)),
        [0; 2].map(|_: i128| between(random, 1, size)),
    );
    let (bottom, top) = (between(random, -size, 0), between(random, 1, size));
    let in_low = [0, 1].map(|k| between(random, low[k] + 1, high[k] - 1));
    let in_high = [0, 1].map(|k| between(random, in_low[k], high[k] - 1));
    if in_low[0] == in_high[0] || in_low[1] == in_high[1] {
        return None;
    }
    let through = random.once_in(3);
    let floor = if through {
        bottom
    } else {
        between(random, bottom, top - 1)
    };
    if !through && floor == bottom {
        return None;
    }
    let outer = [bottom, top].map(|z| rectangle(low, high, z));
    let inner = [floor, top].map(|z| rectangle(in_low, in_high, z));
    let mut triangles = Vec::new();
    walls(random, &outer[0], &outer[1], &mut triangles);
    walls(random, &inner[0], &inner[1], &mut triangles);
    walls(random, &outer[1], &inner[1], &mut triangles);
    if through {
        walls(random, &outer[0], &inner[0], &mut triangles);
    } else {
        quad(random, outer[0], &mut triangles);
        quad(random, inner[0], &mut triangles);
    }
    let holds = move |p: Point| {
        let in_outline = (0..2).all(|k| (low[k]..=high[k]).contains(&p[k]));
        let in_hole =
            (0..2).all(|k| in_low[k] < p[k] && p[k] < in_high[k]) && (through || p[2] > floor);
        in_outline && (bottom..=top).contains(&p[2]) && !in_hole
    };
    Some(solid(
        if through {
            "boards with a bore"
        } else {
            "boards with a pocket"
        },
        triangles,
        Box::new(holds),
    ))
}

fn solid(name: &'static str, triangles: Vec<[Point; 3]>, holds: Holds) -> Solid {
    let corners = || triangles.iter().flatten();
    let side = |k: usize| {
        (
            corners().map(|p| p[k]).min().unwrap(),
            corners().map(|p| p[k]).max().unwrap(),
        )
    };
    let sides = [side(0), side(1), side(2)];
    Solid {
        name,
        holds,
        low: sides.map(|side| side.0),
        high: sides.map(|side| side.1),
        triangles,
    }
}

/// The board with its axes changed, some of them turned round, and its triangles in any order.
fn turned(random: &mut Random, made: Solid) -> Solid {
    let mut axes = [0, 1, 2];
    random.shuffle(&mut axes);
    let signs = [0; 3].map(|_: i128| random.pick(&[1, -1]));
    let turn = move |p: Point| [0, 1, 2].map(|k| p[axes[k]] * signs[k]);
    let back = move |p: Point| {
        let mut before = [0; 3];
        (0..3).for_each(|k| before[axes[k]] = p[k] * signs[k]);
        before
    };
    let mut triangles: Vec<[Point; 3]> = made.triangles.iter().map(|t| t.map(turn)).collect();
    triangles.iter_mut().for_each(|t| random.shuffle(t));
    random.shuffle(&mut triangles);
    let holds = made.holds;
    solid(made.name, triangles, Box::new(move |p| holds(back(p))))
}

pub const KINDS: [&str; 5] = [
    "boxes",
    "sheared boxes",
    "prisms",
    "boards with a pocket",
    "boards with a bore",
];

/// A closed board, within the whole coordinates and with room around it.
pub fn any(random: &mut Random) -> Solid {
    loop {
        let size = random.pick(&[4, 8, 40, 2_000]);
        let made = match random.below(4) {
            0 => sheared(random, size, true),
            1 => sheared(random, size, false),
            2 => prism(random, size),
            _ => pocket(random, size),
        };
        if let Some(made) = made {
            return turned(random, made);
        }
    }
}

impl Solid {
    fn inside(&self, random: &mut Random) -> Option<Point> {
        (0..20).find_map(|_| {
            let p = [0, 1, 2].map(|k| between(random, self.low[k], self.high[k]));
            (self.holds)(p).then_some(p)
        })
    }

    fn farthest(&self) -> i128 {
        let ends = self.low.iter().chain(&self.high);
        ends.map(|x| x.abs()).max().unwrap()
    }

    /// A segment from a place outside, in a direction of the lattice, to one in the closed board; none where a few tries find
    /// no such.
    pub fn way_in(&self, random: &mut Random) -> Option<Board> {
        let inside = self.inside(random)?;
        let direction = Direction::any(random);
        let span = (0..3).map(|k| self.high[k] - self.low[k]).max().unwrap();
        let length = between(random, 1, span + 8);
        let origin = minus(inside, times(direction.vector, length));
        let farthest = origin
            .iter()
            .fold(self.farthest(), |far, x| far.max(x.abs()));
        if (self.holds)(origin) || farthest > FARTHEST {
            return None;
        }
        let mut line = Line {
            origin,
            direction,
            step: step(random, farthest),
            near: 0,
            far: 0,
        };
        let (over, under) = line.in_units((length, 1));
        let end = over.div_euclid(under) + i128::from(over % under != 0);
        if end > LONGEST {
            return None;
        }
        line.far = if random.once_in(2) {
            end
        } else {
            between(random, end, LONGEST)
        };
        Some(Board::new(random, line, self.triangles.clone()))
    }

    /// A ray from a place in the closed board that ends outside of it: in a direction of the lattice, along an axis, toward a
    /// corner or the middle of a side, or in any direction.
    pub fn way_out(&self, random: &mut Random) -> Option<Board> {
        let origin = self.inside(random)?;
        let line = Line {
            origin,
            direction: Direction::any(random),
            step: step(random, self.farthest()),
            near: 0,
            far: LONGEST,
        };
        let mut board = Board::new(random, line, self.triangles.clone());
        let t = random.pick(&self.triangles);
        let toward = match random.below(4) {
            0 => t[0],
            1 => plus(t[0], minus(t[1], t[0]).map(|x| x / 2)),
            2 => [0; 3].map(|_: i128| between(random, -1_000, 1_000)),
            _ => return Some(board),
        };
        let way = minus(toward, origin).map(|x| x as f64);
        let length = way.iter().map(|x| x * x).sum::<f64>().sqrt();
        if length > 0.0 {
            board.ray.direction = way.map(|x| x / length);
        }
        Some(board)
    }
}

pub const ROUND: &str = "round bodies, finer than the grid in places";

/// A closed round body of floats, and a ray from its middle outward: rings of corners about an axis between two poles, some of
/// them closer than a unit of the grid, so that it flattens triangles. In any direction, along an axis, or toward a corner or the
/// middle of a side.
pub fn round(random: &mut Random) -> (Ray, Vec<f64>, Vec<u32>) {
    let radius = random.pick(&[2e-4, 1e-3, 0.1, 5.0, 900.0]);
    let middle = [0.0; 3].map(|_: f64| random.between(-6_000.0, 6_000.0));
    let (rings, sectors) = (random.within(1, 6) as u32, random.within(3, 40) as u32);
    let angle = |share: f64| (share * std::f64::consts::PI).sin_cos();
    let mut vertices = Vec::new();
    let mut put = |[x, y, z]: [f64; 3]| {
        let at = [x, y, z];
        vertices.extend((0..3).map(|k| middle[k] + radius * at[k]));
    };
    put([0.0, 0.0, 1.0]);
    for ring in 1..=rings {
        // every second ring lies close to the one before it
        let share = f64::from(ring + ring % 2) / f64::from(rings + 2) + 1e-7 * f64::from(ring);
        let (wide, high) = angle(share);
        for sector in 0..sectors {
            let (y, x) = angle(2.0 * f64::from(sector) / f64::from(sectors));
            put([wide * x, wide * y, high]);
        }
    }
    put([0.0, 0.0, -1.0]);
    let at = |ring: u32, sector: u32| 1 + ring * sectors + sector % sectors;
    let last = 1 + rings * sectors;
    let mut indices = Vec::new();
    for sector in 0..sectors {
        indices.extend([0, at(0, sector), at(0, sector + 1)]);
        for ring in 1..rings {
            let (a, b) = (at(ring - 1, sector), at(ring - 1, sector + 1));
            let (c, d) = (at(ring, sector), at(ring, sector + 1));
            indices.extend([a, c, b, b, c, d]);
        }
        indices.extend([last, at(rings - 1, sector + 1), at(rings - 1, sector)]);
    }
    let corner = |random: &mut Random| {
        let vertex = 3 * random.below(vertices.len() / 3);
        [0, 1, 2].map(|k| vertices[vertex + k] - middle[k])
    };
    let (p, q) = (corner(random), corner(random));
    let way = match random.below(4) {
        0 => p,
        1 => [0, 1, 2].map(|k| (p[k] + q[k]) / 2.0),
        2 => Direction::any(random).floats,
        _ => [0.0; 3].map(|_: f64| random.between(-1.0, 1.0)),
    };
    let length = way.iter().map(|x| x * x).sum::<f64>().sqrt();
    let direction = if length > 0.0 {
        way.map(|x| x / length)
    } else {
        [0.0, 0.0, 1.0]
    };
    let ray = Ray {
        origin: middle,
        direction,
        maximum: 4_000.0,
        near: 0.0,
    };
    (ray, vertices, indices)
}
