//! The drill written down plainly: 'clear exactly where no point of any triangle, with area or without, lies in the closed,
//! flat-ended cylinder about the segment; else the lowest index of a triangle that has one'. The triangle is clipped by the two
//! planes that end the drill, and the least distance to the axis is looked for at the corners, at the sides and inside of what is
//! left, in whole numbers of any size.

use crate::{
    answer::Ray,
    big::Big,
    mesh_exact::{FURTHEST, Line, Point, UNITS, cross, dot, minus, on_grid, ray_in_range},
    model::{Tree, corners, indices_admitted, vertices_admitted, vertices_box},
    plain::{parts, ray_admitted},
    slips::{Slip::*, or, slipped},
};

#[derive(Clone, Copy, Debug, PartialEq)]
pub struct Drill {
    pub ray: Ray,
    pub radius: f64,
}

#[derive(Clone, Copy, Debug, PartialEq, Eq)]
pub enum Answer {
    Clear,
    Touched(u32),
    Refused(u32),
}

const WIDEST: f64 = 128.0;

/// The least whole number of units that is not below x, by the float's digits.
fn upward(x: f64) -> i128 {
    let (digits, exponent) = parts(x);
    let digits = i128::from(digits);
    match exponent + UNITS as i32 {
        up @ 0.. => digits << up,
        down @ -64..0 => {
            let one = 1 << -down;
            let whole = digits / one;
            let rest = or(DrillNearest, digits % one, 2 * (digits % one) / one);
            whole + i128::from(rest > 0)
        }
        _ => i128::from(digits > 0 && !slipped(DrillNearest)),
    }
}

/// Where a triangle has its point nearest to the axis, of what is left of it between the ends.
#[derive(Clone, Copy, Debug, PartialEq, Eq)]
pub enum Part {
    Corner,
    Side,
    Axis,
}

/// A drill on the grid: in units, the direction in parts of 2^-30.
#[derive(Clone, Copy, Debug)]
pub struct Cylinder {
    pub origin: Point,
    pub direction: Point,
    pub near: i128,
    pub far: i128,
    pub radius: i128,
}

/// A point from the drill's origin: how far its foot on the axis lies behind near and before the maximum, and the cross of the
/// point and the direction, whose length tells the distance to the axis. All of them are times one number above 0, `times`.
#[derive(Clone, Debug)]
struct Place {
    behind: Big,
    before: Big,
    aside: [Big; 3],
    times: Big,
}

impl Place {
    /// What each of its numbers is, made of those of two places.
    fn of_both(p: &Self, q: &Self, number: impl Fn(&Big, &Big) -> Big) -> Self {
        Self {
            behind: number(&p.behind, &q.behind),
            before: number(&p.before, &q.before),
            aside: [0, 1, 2].map(|k| number(&p.aside[k], &q.aside[k])),
            times: number(&p.times, &q.times),
        }
    }
}

type End = fn(&Place) -> &Big;

/// The part of a polygon that lies on the inner side of one of the ends, the end included.
fn clipped(polygon: &[Place], end: End) -> Vec<Place> {
    let mut kept = Vec::new();
    for (k, p) in polygon.iter().enumerate() {
        let q = &polygon[(k + 1) % polygon.len()];
        let (here, there) = (end(p), end(q));
        if here.sign() >= 0 {
            kept.push(p.clone());
        }
        if here.sign() * there.sign() < 0 {
            // where the side crosses the end: each corner counts by the other's height
            let sign = &Big::from(i128::from(here.sign()));
            let (p_counts, q_counts) = (&(&Big::ZERO - there) * sign, here * sign);
            kept.push(Place::of_both(p, q, |x, y| {
                &(x * &p_counts) + &(y * &q_counts)
            }));
        }
    }
    kept
}

fn inner(p: &[Big; 3], q: &[Big; 3]) -> Big {
    let product = |k: usize| &p[k] * &q[k];
    &(&product(0) + &product(1)) + &product(2)
}

impl Cylinder {
    /// On the grid, 'the radius upward to the next whole unit'.
    pub fn of(drill: &Drill) -> Option<Self> {
        let line = Line::of(&drill.ray)?;
        Some(Self {
            origin: line.origin,
            direction: line.direction,
            near: or(DrillNear, line.near, 0),
            far: line.far,
            radius: or(DrillLine, upward(drill.radius), 0),
        })
    }

    /// A point from the origin, times so much.
    fn place(&self, from: Point, times: i128) -> Place {
        let square = dot(self.direction, self.direction);
        let foot = dot(from, self.direction) << 30;
        Place {
            behind: Big::from(foot - self.near * square * times),
            before: Big::from(self.far * square * times - foot),
            aside: cross(from, self.direction).map(Big::from),
            times: Big::from(times),
        }
    }

    /// Whether a distance to the axis is at most the radius: the square over a square.
    fn reaches(&self, square: &Big, under: &Big) -> bool {
        let reach = self.radius * self.radius * dot(self.direction, self.direction);
        let most = &Big::from(reach) * under;
        or(DrillRim, *square <= most, *square < most)
    }

    fn reaches_place(&self, p: &Place) -> bool {
        self.reaches(&inner(&p.aside, &p.aside), &(&p.times * &p.times))
    }

    /// Whether a point of the space, times 2^30 and from the origin, lies in the drill.
    pub fn holds(&self, from: Point) -> bool {
        let place = self.place(from, 1 << 30);
        place.behind.sign() >= 0 && place.before.sign() >= 0 && self.reaches_place(&place)
    }

    /// The side of two corners, where its least distance to the axis is at neither of them.
    fn reaches_side(&self, p: &Place, q: &Place) -> bool {
        let times = &p.times * &q.times;
        let (a, b) = (
            [0, 1, 2].map(|k| &p.aside[k] * &q.times),
            [0, 1, 2].map(|k| &q.aside[k] * &p.times),
        );
        let way = [0, 1, 2].map(|k| &b[k] - &a[k]);
        let (first, last) = (inner(&a, &way), inner(&b, &way));
        if first.sign() >= 0 || last.sign() <= 0 {
            return false;
        }
        let length = inner(&way, &way);
        let least = &(&inner(&a, &a) * &length) - &(&first * &first);
        self.reaches(&least, &(&length * &(&times * &times)))
    }

    /// Whether the axis' line passes through what is left: seen along the axis it turns one way about it.
    fn passes_through(&self, polygon: &[Place]) -> bool {
        let steepest = (0..3).max_by_key(|&k| self.direction[k].abs());
        let axis = steepest.expect("three axes");
        let (i, j) = ((axis + 1) % 3, (axis + 2) % 3);
        let turns = (0..polygon.len()).map(|k| {
            let (p, q) = (&polygon[k].aside, &polygon[(k + 1) % polygon.len()].aside);
            (&(&p[i] * &q[j]) - &(&p[j] * &q[i])).sign()
        });
        let turns: Vec<i32> = turns.collect();
        let left = turns.contains(&1);
        let right = turns.contains(&-1);
        left != right
    }

    /// Whether a point of the triangle of these corners lies in the drill.
    pub fn touches(&self, triangle: [Point; 3]) -> bool {
        self.part_in(triangle).is_some()
    }

    /// What of a triangle lies in the drill: a corner, else a side, else the place where the axis passes through it.
    pub fn part_in(&self, triangle: [Point; 3]) -> Option<Part> {
        let edges = [1, 2].map(|k| minus(triangle[k], triangle[0]));
        if slipped(DrillFlat) && cross(edges[0], edges[1]) == [0; 3] {
            return None;
        }
        let from = triangle.map(|corner| minus(corner, self.origin));
        if slipped(DrillRound) && from.iter().any(|&corner| self.in_ball(corner)) {
            return Some(Part::Corner);
        }
        let mut polygon = from.map(|corner| self.place(corner, 1)).to_vec();
        polygon = clipped(&polygon, |place| &place.behind);
        if !slipped(DrillEndless) {
            polygon = clipped(&polygon, |place| &place.before);
        }
        let at_end = |end: End| polygon.iter().all(|place| end(place).sign() == 0);
        let open_end = slipped(DrillEnd) && at_end(|place| &place.before);
        let open_start = slipped(DrillStart) && at_end(|place| &place.behind);
        if open_end || open_start {
            return None;
        }
        let mut sides =
            (0..polygon.len()).map(|k| (&polygon[k], &polygon[(k + 1) % polygon.len()]));
        if polygon.iter().any(|place| self.reaches_place(place)) {
            Some(Part::Corner)
        } else if !slipped(DrillSides) && sides.any(|(p, q)| self.reaches_side(p, q)) {
            Some(Part::Side)
        } else if !slipped(DrillInside) && self.passes_through(&polygon) {
            Some(Part::Axis)
        } else {
            None
        }
    }

    /// The slip's rounded ends: whether a point from the origin lies in a ball about one of the axis' ends.
    fn in_ball(&self, from: Point) -> bool {
        [self.near, self.far].iter().any(|end| {
            let way = [0, 1, 2].map(|k| (from[k] << 30) - end * self.direction[k]);
            let way = way.map(Big::from);
            let reach = Big::from(self.radius << 30);
            inner(&way, &way) <= &reach * &reach
        })
    }
}

/// A triangle on the grid, none where a corner is not within 8,192 mm.
fn read(corners: [[f64; 3]; 3]) -> Option<[Point; 3]> {
    let [a, b, c] = corners.map(|corner| on_grid(corner, FURTHEST));
    Some([a?, b?, c?])
}

/// 1 of the ray and of the radius, then 12 of both.
pub fn refused_before_mesh(drill: &Drill) -> Option<u32> {
    let negative = drill.radius < or(DrillNegative, 0.0, -1.0);
    let size =
        drill.radius.is_finite() && !negative && !(slipped(DrillZero) && drill.radius == 0.0);
    if !ray_admitted(&drill.ray) {
        return Some(1);
    }
    let in_range = ray_in_range(&drill.ray);
    if slipped(DrillOrder) && !in_range {
        return Some(12);
    }
    if !size {
        return Some(1);
    }
    let widest = or(DrillWide, WIDEST, WIDEST + 1.0) - or(DrillWideAt, 0.0, 1e-9);
    (!in_range || drill.radius > widest).then_some(12)
}

/// The answer of the triangle of an index alone, for a drill that 1 and 12 let pass: 5 where it has no corners, 12 where one is
/// out of range.
pub fn triangle_at(drill: &Drill, vertices: &[f64], indices: &[u32], index: u32) -> Answer {
    let (Some(cylinder), Some(corners)) = (
        Cylinder::of(drill),
        corners(vertices, indices, index as usize),
    ) else {
        return Answer::Refused(5);
    };
    match read(corners) {
        None => Answer::Refused(12),
        Some(triangle) if cylinder.touches(triangle) => Answer::Touched(index),
        Some(_) => Answer::Clear,
    }
}

/// 1 and 12 of ray and radius, then 2, then 5 where a triangle has no valid box, then 12 of a corner of any triangle.
pub fn drill_plain(drill: &Drill, vertices: &[f64], indices: &[u32]) -> Answer {
    let admitted = vertices_admitted(vertices) && indices_admitted(indices);
    match refused_before_mesh(drill) {
        Some(12) if slipped(DrillShape) && !admitted => return Answer::Refused(2),
        Some(number) => return Answer::Refused(number),
        None if !admitted => return Answer::Refused(2),
        None => {}
    }
    let n = indices.len() / 3;
    let fits = |index| corners(vertices, indices, index).is_some_and(|c| vertices_box(c).is_some());
    let answers: Vec<Answer> = (0..n as u32)
        .map(|index| triangle_at(drill, vertices, indices, index))
        .collect();
    let far = answers.contains(&Answer::Refused(12));
    let unfit = !(0..n).all(fits);
    let mut touched = answers
        .iter()
        .filter(|answer| matches!(answer, Answer::Touched(_)));
    let named = if slipped(DrillHighest) {
        touched.next_back()
    } else {
        touched.next()
    };
    let kept = slipped(DrillFar) && named.is_some();
    if unfit && !(slipped(DrillLate) && far) {
        return Answer::Refused(5);
    }
    if far && !kept {
        return Answer::Refused(12);
    }
    named.copied().unwrap_or(Answer::Clear)
}

/// Through a tree, what refuses before the walk: 1 and 12 of ray and radius, 2, 3.
pub fn refused_before_walk(
    drill: &Drill,
    vertices: &[f64],
    indices: &[u32],
    tree: Tree,
    list_length: usize,
    stack_length: usize,
) -> Option<u32> {
    if let Some(number) = refused_before_mesh(drill) {
        return Some(number);
    }
    let n = indices.len() / 3;
    let admitted =
        vertices_admitted(vertices) && indices_admitted(indices) && tree.node_count <= 2 * n;
    if !admitted {
        return Some(2);
    }
    let room = tree.node_count + or(DrillStack, 1, 0);
    let list = or(DrillList, n, n - n.min(1));
    let short = !tree.is_long_enough(n) || list_length < list || stack_length < room;
    short.then_some(3)
}
