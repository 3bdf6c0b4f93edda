//! Boards on a lattice and drills along its vectors, made so that a drill's wall, its rims and its flat ends lie just at corners,
//! sides and faces, in any direction; with triangles inside the drill, along it, around it and without area. A step of the lattice
//! is a whole number of units of the grid, and what is drilled lies up to half a unit off the grid.

use crate::boards::judge::{Point, cross, dot, minus, normal};
use crate::boards::{Direction, FARTHEST, LONGEST, below, off_grid, step, whole};
use oracle::{
    answer::Ray,
    drill::{Cylinder, Drill, Part},
    random::Random,
};

/// The widest radius in units, and a unit in millimetres.
const WIDEST: i128 = 1 << 22;
const UNIT: f64 = 1.0 / 32_768.0;

/// A step is so many parts where it is counted whether a drill touches just so.
const FINER: i128 = 1 << 10;

#[derive(Clone, Debug)]
pub struct Board {
    /// In units.
    pub cylinder: Cylinder,
    pub triangles: Vec<[Point; 3]>,
    /// The drill and the corners as the call gets them.
    pub drill: Drill,
    pub vertices: Vec<f64>,
}

fn plus(p: Point, q: Point, times: i128) -> Point {
    [0, 1, 2].map(|k| p[k] + q[k] * times)
}

/// The whole number whose square this is.
fn root(square: i128) -> Option<i128> {
    let about = (square as f64).sqrt() as i128;
    (about - 1..=about + 1).find(|&x| x >= 0 && x * x == square)
}

fn shared(p: Point) -> i128 {
    let both = |mut a: i128, mut b: i128| {
        while b != 0 {
            (a, b) = (b, a % b);
        }
        a.abs()
    };
    p.iter().copied().fold(0, both).max(1)
}

/// A drill's own directions: along the axis, aside, and square to both; the distance of one step aside, where it is whole.
struct Frame {
    origin: Point,
    along: Point,
    aside: Point,
    across: Point,
    distance: Option<i128>,
}

impl Frame {
    /// Aside is a vector of a whole length, where one is found.
    fn any(random: &mut Random, origin: Point, along: Point) -> Self {
        let mut aside = [0; 3];
        for attempt in 0..60 {
            let size = if attempt < 20 { 2 } else { 6 };
            let vector = [0; 3].map(|_: i128| whole(random, size));
            let fits = cross(vector, along) != [0; 3] && dot(vector, along) == 0;
            if fits && (root(dot(vector, vector)).is_some() || aside == [0; 3]) {
                aside = vector;
            }
            if fits && root(dot(vector, vector)).is_some() {
                break;
            }
        }
        if aside == [0; 3] {
            let steepest = (0..3).max_by_key(|&k| along[k].abs()).expect("three");
            let mut axis = [0; 3];
            axis[(steepest + 1) % 3] = 1;
            aside = cross(along, axis);
        }
        let across = cross(aside, along);
        let part = shared(across);
        Self {
            origin,
            along,
            aside,
            across: across.map(|x| x / part),
            distance: root(dot(aside, aside)),
        }
    }

    /// So many steps along, aside and across.
    fn at(&self, along: i128, aside: i128, across: i128) -> Point {
        let place = plus(self.origin, self.along, along);
        plus(plus(place, self.aside, aside), self.across, across)
    }
}

/// A triangle about a drill whose wall is so many steps aside and which is so many steps long.
fn triangle(random: &mut Random, frame: &Frame, wall: i128, length: i128) -> [Point; 3] {
    let mut some = |size: i128| whole(random, size.max(1));
    let (p, q, r) = (some(length), some(length), some(length));
    let (s, t) = (some(3), some(3));
    let outward = wall + 1 + some(2).abs();
    let (left, right) = (-1 - some(2).abs(), 1 + some(2).abs());
    let mut corners = match random.below(11) {
        // a corner at the wall
        0 => [
            frame.at(p, wall, 0),
            frame.at(q, outward, s),
            frame.at(r, outward, t),
        ],
        // a side that passes the wall
        1 => [
            frame.at(p, wall, left),
            frame.at(q, wall, right),
            frame.at(r, outward, s),
        ],
        // a face along the wall
        2 => [
            frame.at(p, wall, left),
            frame.at(q, wall, right),
            frame.at(r, wall, s),
        ],
        // a face square to the axis, beside it or about it
        3 => {
            let [a, b, c] = [0; 3].map(|_: i128| [whole(random, wall + 2), whole(random, 3)]);
            [
                frame.at(p, a[0], a[1]),
                frame.at(p, b[0], b[1]),
                frame.at(p, c[0], c[1]),
            ]
        }
        // inside of the drill
        4 => [
            frame.at(p, 1.min(wall), 0),
            frame.at(q, (wall - 1).max(0), 0),
            frame.at(r, 0, 0),
        ],
        // a point, or a piece of a line
        5 => [
            frame.at(p, wall, 0),
            frame.at(p, wall, 0),
            frame.at(p, wall, 0),
        ],
        6 => {
            let (from, to) = (frame.at(p, wall, left), frame.at(q, wall, right));
            let twice = plus(minus(from, to), from, 1);
            [from, to, if s > 0 { twice } else { from }]
        }
        // around the axis
        7 => {
            let far = 4 * (wall + 2);
            [
                frame.at(p, far, far),
                frame.at(q, -far, far),
                frame.at(r, s, -2 * far),
            ]
        }
        // a face that the axis lies in, or runs beside
        8 => {
            let beside = if t > 0 { wall } else { 0 };
            [
                frame.at(p, beside, left),
                frame.at(q, beside, right),
                frame.at(p + q, beside, s),
            ]
        }
        // through a flat end, with two corners far off
        9 => {
            let far = 2 * (wall + 2);
            [
                frame.at(p, 0, 0),
                frame.at(p + length, far, s),
                frame.at(p + length, far, t),
            ]
        }
        _ => {
            let size = 2 * wall + 2;
            [p, q, r].map(|along| {
                let [aside, across] = [0; 2].map(|_: i128| whole(random, size));
                frame.at(along, aside, across)
            })
        }
    };
    random.shuffle(&mut corners);
    corners
}

/// Where the foot of a point lies, in units: a whole number at it or just beside it.
fn foot(random: &mut Random, from: Point, direction: Point) -> i128 {
    let (over, under) = (dot(from, direction) << 30, dot(direction, direction));
    let low = over.div_euclid(under);
    match random.below(8) {
        0 => low - 1,
        1 => low + 2,
        k if k % 2 == 0 => low,
        _ => low + i128::from(over % under != 0),
    }
}

/// Millimetres that are read as so many units upward.
fn radius_of(random: &mut Random, units: i128) -> f64 {
    let off = match random.below(6) {
        _ if units == 0 => return random.pick(&[0.0, 0.0, -0.0]),
        0 => random.between(0.5, 0.999),
        1 => random.between(0.001, 0.5),
        2 => 0.5,
        _ => 0.0,
    };
    (units as f64 - off) * UNIT
}

/// One to four triangles, and a drill whose radius and ends are often where it just touches one of them.
pub fn board(random: &mut Random) -> Board {
    let direction = Direction::any(random);
    let origin = [0; 3].map(|_: i128| whole(random, 40));
    let frame = Frame::any(random, origin, direction.vector);
    let wall = below(random, 4);
    let length = random.pick(&[1, 3, 20]);
    let count = random.within(1, 4);
    let lattice: Vec<[Point; 3]> = (0..count)
        .map(|_| triangle(random, &frame, wall, length))
        .collect();
    let coordinates = lattice.iter().flatten().chain([&origin]).flatten();
    let farthest = coordinates.map(|x| x.abs()).max().expect("an origin");
    let across = frame.distance.map_or(1, |distance| distance * wall.max(1));
    let step = step(random, farthest).min(WIDEST / across);
    let triangles: Vec<[Point; 3]> = lattice
        .iter()
        .map(|triangle| triangle.map(|corner| corner.map(|x| x * step)))
        .collect();
    let origin = origin.map(|x| x * step);
    let along = direction.vector.map(|x| x * direction.times);
    let from = |random: &mut Random| {
        let triangle = triangles[random.below(triangles.len())];
        minus(triangle[random.below(3)], origin)
    };
    let corner = from(random);
    let radius = radius(random, &frame, wall, step, corner);
    let end = |random: &mut Random| {
        let corner = from(random);
        let at = match random.below(4) {
            0 => below(random, (4 * length * step).min(LONGEST) + 1),
            _ => foot(random, corner, along),
        };
        at.clamp(0, LONGEST)
    };
    let ends = [end(random), end(random)];
    let (near, far) = match random.below(8) {
        0 => (ends[0], ends[0]),
        1..4 => (0, ends[0]),
        _ => (ends[0].min(ends[1]), ends[0].max(ends[1])),
    };
    let cylinder = Cylinder {
        origin,
        direction: along,
        near,
        far,
        radius,
    };
    Board::new(random, cylinder, direction.floats, triangles)
}

/// The wall's distance in units, or one more or less, or that of a corner, down or up, or any, or none.
fn radius(random: &mut Random, frame: &Frame, wall: i128, step: i128, from: Point) -> i128 {
    let any = random.within(0, 4 * step.min(WIDEST) as i64) as i128;
    let units = match (random.below(8), frame.distance) {
        (0, _) => 0,
        (1, _) => any,
        (2..=5, Some(distance)) => distance * wall * step,
        (6, Some(distance)) => distance * wall * step + whole(random, 1),
        _ => {
            let (aside, along) = (cross(from, frame.along), frame.along);
            let square = dot(aside, aside) / dot(along, along);
            (square as f64).sqrt() as i128 + below(random, 2)
        }
    };
    units.clamp(0, WIDEST)
}

impl Board {
    /// With floats that are read as the drill and the triangles.
    fn new(
        random: &mut Random,
        cylinder: Cylinder,
        direction: [f64; 3],
        triangles: Vec<[Point; 3]>,
    ) -> Self {
        let mut place = |x: &i128| off_grid(random, *x, FARTHEST);
        let coordinates = triangles.iter().flatten().flatten();
        let vertices = coordinates.map(&mut place).collect();
        let origin = cylinder.origin.map(|x| place(&x));
        let maximum = off_grid(random, cylinder.far, LONGEST).max(0.0);
        let near = match off_grid(random, cylinder.near, LONGEST).max(0.0) {
            _ if cylinder.near == cylinder.far => maximum,
            near => near,
        };
        let ray = Ray {
            origin,
            direction,
            maximum,
            near,
        };
        let radius = radius_of(random, cylinder.radius);
        Self {
            cylinder,
            triangles,
            drill: Drill { ray, radius },
            vertices,
        }
    }

    pub fn indices(&self) -> Vec<u32> {
        (0..3 * self.triangles.len() as u32).collect()
    }

    /// The judge's answer: each triangle that has a point in the drill, ascending.
    pub fn judged(&self) -> Vec<u32> {
        let touched = |index: &u32| self.cylinder.touches(self.triangles[*index as usize]);
        (0..self.triangles.len() as u32).filter(touched).collect()
    }
}

const TOUCHED: &str = "touched";
const CLEAR: &str = "clear";
const BY_CORNER: &str = "touched at a corner of the part between the ends";
const BY_SIDE: &str = "touched at a side, its corners outside";
const BY_AXIS: &str = "touched where the axis passes through alone";
const RIM: &str = "touched at the radius exactly";
const START: &str = "touched at the flat start exactly";
const END: &str = "touched at the flat end exactly";
const BESIDE: &str = "clear, and touched with a unit more";
const ASLANT: &str = "touched aslant";
const ASLANT_RIM: &str = "touched aslant, at the radius exactly";
const ALONG: &str = "touched along a face";
const NO_AREA: &str = "touched a triangle without area";
const DISC: &str = "touched by a drill of no length";
const LINE: &str = "touched by a drill of radius 0";
const SEVERAL: &str = "touched two triangles or more";
const OFF_GRID: &str = "radii between two units";

/// What a run over boards has to meet.
pub const MET: [&str; 17] = [
    TOUCHED, CLEAR, BY_CORNER, BY_SIDE, BY_AXIS, RIM, START, END, BESIDE, ASLANT, ASLANT_RIM,
    ALONG, NO_AREA, DISC, LINE, SEVERAL, OFF_GRID,
];

/// The same drill and triangle in parts of a unit, its ends moved inward by so many parts, its radius less by so many.
fn moved_in(board: &Board, triangle: [Point; 3], start: i128, end: i128, radius: i128) -> bool {
    let drill = board.cylinder;
    let finer = Cylinder {
        origin: drill.origin.map(|x| x * FINER),
        direction: drill.direction,
        near: drill.near * FINER + start,
        far: drill.far * FINER - end,
        radius: drill.radius * FINER - radius,
    };
    finer.touches(triangle.map(|corner| corner.map(|x| x * FINER)))
}

/// What a board and its answer have to do with each other, by the judge's numbers.
pub fn met(board: &Board, judged: &[u32], mut count: impl FnMut(&'static str)) {
    let drill = &board.cylinder;
    if (board.drill.radius / UNIT).fract() != 0.0 {
        count(OFF_GRID);
    }
    let Some(&first) = judged.first() else {
        count(CLEAR);
        let mut triangles = board.triangles.iter();
        if triangles.any(|&triangle| moved_in(board, triangle, 0, 0, -FINER)) {
            count(BESIDE);
        }
        return;
    };
    let triangle = board.triangles[first as usize];
    let part = drill.part_in(triangle).expect("it is touched");
    count(TOUCHED);
    count(match part {
        Part::Corner => BY_CORNER,
        Part::Side => BY_SIDE,
        Part::Axis => BY_AXIS,
    });
    let aslant = drill.direction.iter().filter(|&&x| x != 0).count() > 1;
    let rim = drill.radius > 0 && !moved_in(board, triangle, 0, 0, 1);
    let flat = normal(triangle) == [0; 3];
    let counted = [
        (rim, RIM),
        (
            !moved_in(board, triangle, 1, 0, 0) && drill.near < drill.far,
            START,
        ),
        (
            !moved_in(board, triangle, 0, 1, 0) && drill.near < drill.far,
            END,
        ),
        (aslant, ASLANT),
        (aslant && rim, ASLANT_RIM),
        (!flat && dot(normal(triangle), drill.direction) == 0, ALONG),
        (flat, NO_AREA),
        (drill.near == drill.far, DISC),
        (drill.radius == 0, LINE),
        (judged.len() > 1, SEVERAL),
    ];
    counted
        .iter()
        .filter(|(is, _)| *is)
        .for_each(|(_, what)| count(what));
}
