//! The exact cast written down plainly, in space and in whole numbers of 128 bits: 'none exactly where no point of the segment
//! lies in a closed triangle of the mesh that has area on the grid; else a hit at the least depth over all triangles'.

use crate::{
    answer::{Answer, Ray},
    listing::{HitArea, Row, in_order_of_depth, put},
    model::{Tree, candidates, corners, indices_admitted, vertices_admitted, vertices_box},
    plain::{self, parts, ray_admitted},
    slips::{Slip::*, or, slipped},
};
use std::cmp::Ordering;

pub type Point = [i128; 3];

/// A number over one above 0.
type Fraction = (i128, i128);

/// 2^15 units are a millimetre, and a direction's component is a whole number of 2^-30.
pub(crate) const UNITS: u32 = 15;
const PARTS: u32 = 30;

pub(crate) const FURTHEST: f64 = 8_192.0;
const LONGEST: f64 = 32_768.0;

fn units() -> u32 {
    or(ExactUnit, UNITS, UNITS + 1)
}

/// 'the nearest whole number of units, ties to even': x times 2^places, by the float's digits.
fn nearest_whole(x: f64, places: u32) -> i128 {
    let (digits, exponent) = parts(x);
    let digits = i128::from(digits);
    let size = match exponent + places as i32 {
        up @ 0.. => digits << up,
        down @ -64..0 => {
            let one = 1 << -down;
            let (kept, rest) = (digits / one, digits % one);
            let odd = or(ExactTie, kept % 2, 1);
            kept + i128::from(2 * rest > one || 2 * rest == one && odd == 1)
        }
        _ => 0,
    };
    if x < 0.0 { -size } else { size }
}

fn within(x: f64, limit: f64) -> bool {
    x.abs() <= limit
}

/// A point within 8,192 mm, on the grid.
pub(crate) fn on_grid(p: [f64; 3], furthest: f64) -> Option<Point> {
    let inside = p.iter().all(|&x| within(x, furthest));
    inside.then(|| p.map(|x| nearest_whole(x, units())))
}

pub(crate) fn minus(p: Point, q: Point) -> Point {
    [0, 1, 2].map(|k| p[k] - q[k])
}

pub(crate) fn cross(p: Point, q: Point) -> Point {
    [1, 2, 0].map(|k| p[k] * q[(k + 1) % 3] - p[(k + 1) % 3] * q[k])
}

pub(crate) fn dot(p: Point, q: Point) -> i128 {
    (0..3).map(|k| p[k] * q[k]).sum()
}

fn fraction(over: i128, under: i128) -> Fraction {
    (over * under.signum(), under.abs())
}

/// By the whole parts, and then by what is left of each, upside down: no product is formed.
fn order((a, b): Fraction, (c, d): Fraction) -> Ordering {
    let wholes = a.div_euclid(b).cmp(&c.div_euclid(d));
    match (wholes, a.rem_euclid(b), c.rem_euclid(d)) {
        (Ordering::Equal, 0, 0) => Ordering::Equal,
        (Ordering::Equal, 0, _) => Ordering::Less,
        (Ordering::Equal, _, 0) => Ordering::Greater,
        (Ordering::Equal, rest, other) => order((d, other), (b, rest)),
        (told, _, _) => told,
    }
}

/// 'the segment is origin + s · direction / 2^30 for s from near to the maximum, both included'
pub(crate) struct Line {
    pub origin: Point,
    pub direction: Point,
    pub near: i128,
    pub far: i128,
}

impl Line {
    /// 'the origin .. from -8,192 to 8,192, or near or the maximum is above 32,768'
    pub fn of(ray: &Ray) -> Option<Self> {
        let longest = or(ExactReach, LONGEST, LONGEST + 1.0) - or(ExactReachAt, 0.0, 1e-9);
        let furthest = or(ExactOrigin, FURTHEST, FURTHEST + 1.0) - or(ExactOriginAt, 0.0, 1e-9);
        if !within(ray.near, longest) || !within(ray.maximum, longest) {
            return None;
        }
        let parts = or(ExactParts, PARTS, PARTS - 1);
        let unscaled = 1 << (PARTS - parts);
        Some(Self {
            origin: on_grid(ray.origin, furthest)?,
            direction: ray.direction.map(|x| nearest_whole(x, parts) * unscaled),
            near: nearest_whole(ray.near, units()),
            far: nearest_whole(ray.maximum, units()),
        })
    }

    /// The first point of the segment where the line is in a triangle from low to high.
    fn first(&self, low: Fraction, high: Fraction) -> Option<Fraction> {
        let (near, far) = ((self.near, 1), (self.far, 1));
        let (before, behind) = (order(high, near), order(low, far));
        if before.is_lt() || slipped(ExactNear) && before.is_eq() {
            return None;
        }
        if behind.is_gt() || slipped(ExactMaximum) && behind.is_eq() {
            return None;
        }
        if order(low, near).is_ge() {
            return Some(low);
        }
        // the line enters before near and is still inside there
        (!slipped(ExactInside)).then_some(near)
    }

    /// The depth of a triangle of these corners, in units: by the signs of three volumes where the line crosses its plane.
    fn depth(&self, corners: [Point; 3]) -> Option<Fraction> {
        let from = corners.map(|corner| minus(corner, self.origin));
        let normal = cross(minus(from[1], from[0]), minus(from[2], from[0]));
        let rise = dot(normal, self.direction);
        let height = dot(normal, from[0]);
        if normal == [0; 3] {
            return slipped(ExactFlat)
                .then(|| self.depth_on_line(from))
                .flatten();
        }
        if rise == 0 {
            let missed = height != 0 || slipped(ExactParallel);
            return if missed {
                None
            } else {
                self.depth_along(from, normal)
            };
        }
        let volumes = [0, 1, 2].map(|k| {
            let sides = cross(from[(k + 1) % 3], from[(k + 2) % 3]);
            dot(self.direction, sides) * rise.signum()
        });
        let on_side = slipped(ExactSide) && volumes[0] == 0;
        let at_corner = slipped(ExactCorner) && volumes.iter().filter(|&&v| v == 0).count() == 2;
        if volumes.iter().any(|&volume| volume < 0) || on_side || at_corner {
            return None;
        }
        let at = fraction(height << PARTS, rise);
        self.first(at, at)
    }

    /// A triangle whose plane the line lies in, looked at along the axis that its normal leans to most: the line's depths at
    /// its corners and sides.
    fn depth_along(&self, from: [Point; 3], normal: Point) -> Option<Fraction> {
        let axis = (0..3).max_by_key(|&k| normal[k].abs())?;
        let (i, j) = ((axis + 1) % 3, (axis + 2) % 3);
        let d = self.direction;
        let along = if d[i].abs() >= d[j].abs() { i } else { j };
        let beside = from.map(|p| d[i] * p[j] - d[j] * p[i]);
        let mut ends = Vec::new();
        for k in 0..3 {
            let next = (k + 1) % 3;
            let (p, q) = (beside[k], beside[next]);
            if p == 0 {
                ends.push(fraction(from[k][along] << PARTS, d[along]));
            }
            if p.signum() * q.signum() < 0 {
                let over = (from[next][along] * p - from[k][along] * q) << PARTS;
                ends.push(fraction(over, (p - q) * d[along]));
            }
        }
        let low = ends.iter().copied().min_by(|&a, &b| order(a, b))?;
        let high = ends.iter().copied().max_by(|&a, &b| order(a, b))?;
        self.first(low, high)
    }

    /// The slip's depth of a triangle that the grid flattens: that of its corners on the line.
    fn depth_on_line(&self, from: [Point; 3]) -> Option<Fraction> {
        let d = self.direction;
        let along = (0..3).max_by_key(|&k| d[k].abs())?;
        let on = from.iter().filter(|&&p| cross(p, d) == [0; 3]);
        let depths = on.map(|p| fraction(p[along] << PARTS, d[along]));
        depths
            .filter_map(|at| self.first(at, at))
            .min_by(|&a, &b| order(a, b))
    }
}

/// 'its distance the f64 nearest to it', of a depth in units, in millimetres: by long division, digit after digit.
fn millimetres((over, under): Fraction) -> f64 {
    let under = under << units();
    if slipped(ExactRounded) {
        return over as f64 / under as f64;
    }
    let (mut digits, mut rest, mut exponent) = (over / under, over % under, 0);
    if over == 0 {
        return 0.0;
    }
    while digits < 1 << 52 {
        rest *= 2;
        digits = 2 * digits + rest / under;
        rest %= under;
        exponent -= 1;
    }
    let up = 2 * rest > under || 2 * rest == under && digits % 2 == 1;
    (digits + i128::from(up && !slipped(ExactCut))) as f64 * 2f64.powi(exponent)
}

/// Whether 12 is not the ray's.
pub fn ray_in_range(ray: &Ray) -> bool {
    Line::of(ray).is_some()
}

/// One triangle's own answer: 12 where a corner is out of range.
fn triangle(ray: &Ray, line: &Line, corners: [[f64; 3]; 3]) -> Answer {
    let furthest = or(ExactFar, FURTHEST, FURTHEST + 1.0) - or(ExactFarAt, 0.0, 1e-9);
    let nan = |p: [f64; 3]| {
        p.map(|x| {
            if slipped(ExactNan) && x.is_nan() {
                0.0
            } else {
                x
            }
        })
    };
    let [Some(a), Some(b), Some(c)] = corners.map(|corner| on_grid(nan(corner), furthest)) else {
        return Answer::Refused(12);
    };
    let Some(depth) = line.depth([a, b, c]) else {
        return Answer::None;
    };
    let normal = cross(minus(b, a), minus(c, a)).map(|x| x as f64);
    if slipped(ExactNormal) {
        return plain::hit_on(ray, corners, millimetres(depth));
    }
    plain::hit_with(ray, normal, millimetres(depth))
}

/// The answer of the triangle of an index at these vertices, for a ray that refusals 1 and 12 let pass; 5 where it has no
/// corners.
pub fn triangle_at(ray: &Ray, vertices: &[f64], indices: &[u32], index: u32) -> Answer {
    let (Some(line), Some(corners)) = (Line::of(ray), corners(vertices, indices, index as usize))
    else {
        return Answer::Refused(5);
    };
    triangle(ray, &line, corners)
}

/// 'the lowest index where several round to it'
fn nearest(ray: &Ray, line: &Line, vertices: &[f64], indices: &[u32]) -> Answer {
    let mut best = Answer::None;
    let mut refused = None;
    let touching = if slipped(ExactCandidates) {
        candidates(ray, vertices, indices)
    } else {
        Vec::new()
    };
    for index in 0..indices.len() as u32 / 3 {
        let Some(corners) = corners(vertices, indices, index as usize) else {
            continue;
        };
        match triangle(ray, line, corners) {
            Answer::None => {}
            Answer::Refused(_) if slipped(ExactCandidates) && !touching.contains(&index) => {}
            Answer::Refused(number) => refused = refused.or(Some(number)),
            Answer::Hit {
                normal, distance, ..
            } => {
                let nearer = match best {
                    Answer::Hit {
                        distance: least, ..
                    } => distance < least || slipped(ExactTies) && distance == least,
                    _ => true,
                };
                if nearer {
                    best = Answer::Hit {
                        normal,
                        distance,
                        index: Some(index),
                    };
                }
            }
        }
    }
    let held = slipped(ExactNearest) && matches!(best, Answer::Hit { .. });
    match refused {
        Some(number) if !held => Answer::Refused(number),
        _ => best,
    }
}

/// 1, then 12 of the ray, then 2, then 5 where a triangle has no valid box, then 12 of a corner of any triangle.
pub fn ray_mesh_exact_plain(ray: &Ray, vertices: &[f64], indices: &[u32]) -> Answer {
    if !ray_admitted(ray) {
        return Answer::Refused(1);
    }
    let admitted = vertices_admitted(vertices) && indices_admitted(indices);
    if slipped(ExactShape) && !admitted {
        return Answer::Refused(2);
    }
    let Some(line) = Line::of(ray) else {
        return Answer::Refused(12);
    };
    if !admitted {
        return Answer::Refused(2);
    }
    let fits = |index| corners(vertices, indices, index).is_some_and(|c| vertices_box(c).is_some());
    let found = nearest(ray, &line, vertices, indices);
    if slipped(ExactLate) && found == Answer::Refused(12) {
        return found;
    }
    if !(0..indices.len() / 3).all(fits) {
        return Answer::Refused(5);
    }
    found
}

/// Through a tree, what refuses before the walk: 1, 12 of the ray, 2, 3, 4.
pub fn refused_before_walk(
    ray: &Ray,
    vertices: &[f64],
    indices: &[u32],
    cast_vertices: &[f64],
    tree: Tree,
    stack_length: usize,
) -> Option<u32> {
    if !ray_admitted(ray) {
        return Some(1);
    }
    let n = indices.len() / 3;
    let admitted = vertices_admitted(vertices)
        && vertices_admitted(cast_vertices)
        && indices_admitted(indices)
        && tree.node_count <= 2 * n;
    if slipped(ExactTreeShape) && !admitted {
        return Some(2);
    }
    if Line::of(ray).is_none() {
        return Some(12);
    }
    if !admitted {
        return Some(2);
    }
    let posed = vertices.len() == cast_vertices.len();
    let room = tree.node_count + or(ExactTreeStack, 1, 0);
    let short = !tree.is_long_enough(n) || stack_length < room;
    if short && !(slipped(ExactTreePose) && !posed) {
        return Some(3);
    }
    (!posed).then_some(4)
}

/// Every triangle that is met, at the mesh's own vertices and for a mesh of numbers, in order of depth: 12 where a corner is out
/// of range, wherever it lies.
fn rows(ray: &Ray, vertices: &[f64], indices: &[u32]) -> Result<Vec<Row>, u32> {
    let mut rows = Vec::new();
    for index in 0..indices.len() as u32 / 3 {
        match triangle_at(ray, vertices, indices, index) {
            Answer::None => {}
            Answer::Refused(number) => return Err(number),
            Answer::Hit {
                normal: [x, y, z],
                distance,
                ..
            } => rows.push((index, [distance, x, y, z])),
        }
    }
    if slipped(ExactAllFirst) {
        rows.truncate(1);
    }
    if slipped(ExactAllUnsorted) {
        return Ok(rows);
    }
    let mut rows = in_order_of_depth(rows);
    if slipped(ExactAllTies) {
        rows.sort_by(|a, b| a.1[0].total_cmp(&b.1[0]).then(b.0.cmp(&a.0)));
    }
    Ok(rows)
}

/// What a listing through a tree refuses before its walk: 1, 12 of the ray, 2, 3, 4; the list has a place for each triangle.
#[allow(clippy::too_many_arguments)]
pub fn listing_refused_before_walk(
    ray: &Ray,
    vertices: &[f64],
    indices: &[u32],
    cast_vertices: &[f64],
    tree: Tree,
    list_length: usize,
    stack_length: usize,
) -> Option<u32> {
    let short = list_length + or(ExactAllList, 0, 1) < indices.len() / 3;
    match refused_before_walk(ray, vertices, indices, cast_vertices, tree, stack_length) {
        None | Some(4) if short => Some(3),
        refused => refused,
    }
}

/// The listing at the mesh's own vertices, through a tree that passes the check, of a mesh of numbers, once nothing refuses before
/// the walk: every triangle that is met, once; 3 where they are more than the places, after 12 of a corner. After a refusal every
/// place of both slices is zero.
pub fn ray_mesh_exact_all(
    ray: &Ray,
    vertices: &[f64],
    indices: &[u32],
    area: &mut HitArea,
) -> Result<usize, u32> {
    let found = rows(ray, vertices, indices);
    put(found, area)
}

/// 'every corner of every triangle of the mesh is three numbers (no NaN; an index past the vertices is a no)'
pub fn mesh_has_numbers(vertices: &[f64], indices: &[u32]) -> bool {
    let looked = or(NumbersThird, 3, 2);
    (0..indices.len() / 3).all(|index| {
        corners(vertices, indices, index).map_or(slipped(NumbersIndex), |corners| {
            let numbers = corners[..looked].as_flattened();
            let admitted = |x: &f64| !x.is_nan() && !(slipped(NumbersInfinite) && x.is_infinite());
            numbers.iter().all(admitted)
        })
    })
}
