//! A judge in fractions of whole numbers: where a line first lies in a closed triangle, by the triangle's plane and sides in
//! space. The differential run (differential/src/boards.rs) has the same judge.

use std::cmp::Ordering;

pub type Point = [i128; 3];

pub fn minus(p: Point, q: Point) -> Point {
    [p[0] - q[0], p[1] - q[1], p[2] - q[2]]
}

pub fn cross(p: Point, q: Point) -> Point {
    [
        p[1] * q[2] - p[2] * q[1],
        p[2] * q[0] - p[0] * q[2],
        p[0] * q[1] - p[1] * q[0],
    ]
}

pub fn dot(p: Point, q: Point) -> i128 {
    p[0] * q[0] + p[1] * q[1] + p[2] * q[2]
}

/// The cross of a triangle's edges.
pub fn normal(t: [Point; 3]) -> Point {
    cross(minus(t[1], t[0]), minus(t[2], t[0]))
}

/// A depth as a fraction with a divisor above 0.
pub type Depth = (i128, i128);

fn fraction(over: i128, under: i128) -> Depth {
    if under < 0 {
        (-over, -under)
    } else {
        (over, under)
    }
}

fn deeper(d: Depth, e: Depth) -> bool {
    d.0 * e.1 > e.0 * d.1
}

/// The depths d where first + d · slope is not below 0, within those from low to high.
fn clip(low: &mut Depth, high: &mut Depth, first: i128, slope: i128) -> bool {
    if slope == 0 {
        return first >= 0;
    }
    let at = fraction(-first, slope);
    if slope > 0 && deeper(at, *low) {
        *low = at;
    }
    if slope < 0 && deeper(*high, at) {
        *high = at;
    }
    !deeper(*low, *high)
}

/// How far inside of a triangle's side the origin lies, and by how much more a step along the line does.
pub fn beside(o: Point, d: Point, t: [Point; 3], side: usize) -> (i128, i128) {
    let (p, q) = (t[side], t[(side + 1) % 3]);
    let (n, edge) = (normal(t), minus(q, p));
    (dot(n, cross(edge, minus(o, p))), dot(n, cross(edge, d)))
}

/// The first depth from near to far, in lengths of d, at which the line is in the closed triangle; one without area has no
/// surface.
pub fn first_depth(o: Point, d: Point, near: Depth, far: Depth, t: [Point; 3]) -> Option<Depth> {
    let n = normal(t);
    if n == [0, 0, 0] {
        return None;
    }
    let (mut low, mut high) = (near, far);
    // in the plane: not above it, and not below it
    let (above, rise) = (dot(n, minus(o, t[0])), dot(n, d));
    let mut inside =
        clip(&mut low, &mut high, above, rise) && clip(&mut low, &mut high, -above, -rise);
    for side in 0..3 {
        let (first, slope) = beside(o, d, t, side);
        inside = inside && clip(&mut low, &mut high, first, slope);
    }
    inside.then_some(low)
}

/// Which of two fractions is less: by their whole parts, then by what is left of each, upside down.
fn order(d: Depth, e: Depth) -> Ordering {
    let (p, q) = (d.0.div_euclid(d.1), e.0.div_euclid(e.1));
    let (r, s) = (d.0 - p * d.1, e.0 - q * e.1);
    match (p.cmp(&q), r, s) {
        (Ordering::Equal, 0, _) => 0.cmp(&s),
        (Ordering::Equal, _, 0) => Ordering::Greater,
        (Ordering::Equal, _, _) => order((e.1, s), (d.1, r)),
        (told, _, _) => told,
    }
}

/// A float above 0 and below 2^53, of at least 2^-70, as a fraction.
fn as_fraction(x: f64) -> Depth {
    let exponent = (x.to_bits() >> 52) as i32 - 1075;
    let digits = x.to_bits() & ((1 << 52) - 1) | 1 << 52;
    assert!((-122..=0).contains(&exponent), "{x}");
    (i128::from(digits), 1 << -exponent)
}

/// The float nearest to a depth: of the floats about the quotient the last that is not above it, or the next, by which half
/// it lies in; in the middle the even one.
pub fn nearest(d: Depth) -> f64 {
    if d.0 == 0 {
        return 0.0;
    }
    let about = (d.0 as f64 / d.1 as f64).to_bits();
    let below = (about - 3..=about + 3).rev().map(f64::from_bits);
    let low = below
        .into_iter()
        .find(|&x| order(as_fraction(x), d).is_le());
    let low = low.expect("the quotient is near");
    let high = f64::from_bits(low.to_bits() + 1);
    let (over, under) = as_fraction(low);
    let last = low.to_bits() & 1;
    match order((2 * over + 1, 2 * under), d) {
        Ordering::Less => high,
        Ordering::Equal if last == 1 => high,
        _ => low,
    }
}
