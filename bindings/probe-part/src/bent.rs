//! Slots bent along an arc, through the corners of a polygon: two arcs of one centre, and ends that are half circles or
//! straight.
use crate::boxes::box_around;
use crate::circles::{wrapped, Circle, WIDEST_SIDE};
use crate::fit::{fitted, Place};
use crate::model::Outline;
use crate::outline::Named;
use std::f64::consts::PI;

/// A polygon of more corners is not looked at.
const MOST_CORNERS: usize = 1000;

/// A bent slot: the centre and the radius of its middle line, half its width, and where the middle line begins and ends.
#[derive(Clone, Copy)]
struct Bent {
    centre: Place,
    radius: f64,
    half: f64,
    /// The angle of its middle.
    middle: f64,
    /// From its middle to either end.
    sweep: f64,
}

impl Bent {
    fn circle(&self) -> Circle {
        Circle {
            centre: self.centre,
            radius: self.radius,
        }
    }

    /// The distance of a point from it, where its ends are round.
    fn off(&self, point: Place) -> f64 {
        let circle = self.circle();
        let turn = wrapped(circle.angle_of(point) - self.middle);
        if turn.abs() <= self.sweep {
            return (circle.radius_of(point) - self.radius).abs() - self.half;
        }
        let (sine, cosine) = (self.middle + self.sweep * turn.signum()).sin_cos();
        let end = [
            self.centre[0] + self.radius * cosine,
            self.centre[1] + self.radius * sine,
        ];
        (point[0] - end[0]).hypot(point[1] - end[1]) - self.half
    }

    /// The distance of a point from its long sides.
    fn off_sides(&self, point: Place) -> f64 {
        (self.circle().radius_of(point) - self.radius).abs() - self.half
    }
}

/// A slot bent along an arc.
pub fn bent(corners: &[Place], tolerance: f64) -> Option<Named> {
    if corners.len() > MOST_CORNERS {
        return None;
    }
    let guess = guessed(corners, tolerance)?;
    let found = with_round_ends(corners, guess, tolerance)
        .or_else(|| with_straight_ends(corners, guess, tolerance))?;
    let inner = found.radius - found.half;
    if found.half <= 2.0 * tolerance || inner <= tolerance || found.sweep >= PI {
        return None;
    }
    // three corners or more on either side, and the centre outside
    let circle = found.circle();
    let is_outer = |corner: &&Place| circle.radius_of(**corner) > circle.radius;
    let outer = corners.iter().filter(is_outer).count();
    if outer < 3 || corners.len() - outer < 3 || circle.turns(corners).abs() > 1.0 {
        return None;
    }
    let [low, high] = box_around(corners);
    Some(Named {
        outline: Outline::Arc {
            width: 2.0 * found.half,
            radius: found.radius,
            sweep: 2.0 * found.sweep.to_degrees(),
        },
        centre: [(low[0] + high[0]) / 2.0, (low[1] + high[1]) / 2.0],
    })
}

/// A guess by the circle of the longest arc.
fn guessed(corners: &[Place], tolerance: f64) -> Option<Bent> {
    let circle = longest_arc(corners, tolerance)?;
    let off = |corner: &Place| circle.radius_of(*corner);
    let inner = corners.iter().map(off).fold(f64::INFINITY, f64::min);
    let outer = corners.iter().map(off).fold(0.0, f64::max);
    let near = |a: f64, b: f64| (a - b).abs() <= 2.0 * tolerance;
    let on_side = |corner: &&Place| near(off(corner), inner) || near(off(corner), outer);
    let on_sides: Vec<Place> = corners.iter().filter(on_side).copied().collect();
    // from a corner of the middle on, so that no turn is cut where angles begin anew
    let reference = circle.angle_of(*on_sides.get(on_sides.len() / 4)?);
    let turn = |corner: &Place| wrapped(circle.angle_of(*corner) - reference);
    let low = on_sides.iter().map(turn).fold(f64::INFINITY, f64::min);
    let high = on_sides.iter().map(turn).fold(f64::NEG_INFINITY, f64::max);
    Some(Bent {
        centre: circle.centre,
        radius: (outer + inner) / 2.0,
        half: (outer - inner) / 2.0,
        middle: reference + (low + high) / 2.0,
        sweep: (high - low) / 2.0,
    })
}

fn with_round_ends(corners: &[Place], guess: Bent, tolerance: f64) -> Option<Bent> {
    // angles as lengths along the middle line
    let at = |measures: &[f64; 6]| Bent {
        centre: [measures[0], measures[1]],
        radius: measures[2],
        half: measures[3],
        middle: measures[4] / guess.radius,
        sweep: measures[5] / guess.radius,
    };
    let start = [
        guess.centre[0],
        guess.centre[1],
        guess.radius,
        guess.half,
        guess.middle * guess.radius,
        guess.sweep * guess.radius,
    ];
    let found = at(&fitted(corners, start, |measures, point| {
        at(measures).off(point)
    }));
    let fits = |&corner: &Place| found.off(corner).abs() <= 2.0 * tolerance;
    let long = 2.0 * found.sweep * found.radius;
    (corners.iter().all(fits) && long > 4.0 * tolerance).then_some(found)
}

/// All corners lie on the long sides, and both of these end at the same two angles.
fn with_straight_ends(corners: &[Place], guess: Bent, tolerance: f64) -> Option<Bent> {
    let at = |measures: &[f64; 4]| Bent {
        centre: [measures[0], measures[1]],
        radius: measures[2],
        half: measures[3],
        ..guess
    };
    let start = [guess.centre[0], guess.centre[1], guess.radius, guess.half];
    let mut found = at(&fitted(corners, start, |measures, point| {
        at(measures).off_sides(point)
    }));
    let circle = found.circle();
    let turn = |corner: &Place| wrapped(circle.angle_of(*corner) - guess.middle);
    let fits = |corner: &Place| found.off_sides(*corner).abs() <= 2.0 * tolerance;
    if !corners.iter().all(fits) {
        return None;
    }
    let side = |is_outer: bool| {
        let on = move |corner: &&Place| (circle.radius_of(**corner) > circle.radius) == is_outer;
        let turns: Vec<f64> = corners.iter().filter(on).map(turn).collect();
        [
            turns.iter().copied().fold(f64::INFINITY, f64::min),
            turns.iter().copied().fold(f64::NEG_INFINITY, f64::max),
        ]
    };
    let (inner, outer) = (side(false), side(true));
    let apart = |end: usize| (inner[end] - outer[end]).abs() * circle.radius;
    if !(apart(0) <= 4.0 * tolerance && apart(1) <= 4.0 * tolerance) {
        return None;
    }
    found.middle += (outer[0] + outer[1]) / 2.0;
    found.sweep = (outer[1] - outer[0]) / 2.0;
    Some(found)
}

/// The circle that the longest arc of a polygon lies on.
fn longest_arc(corners: &[Place], tolerance: f64) -> Option<Circle> {
    let count = corners.len();
    let mut best: Option<(Circle, f64)> = None;
    for start in 0..count {
        let run: Vec<Place> = (0..count).map(|n| corners[(start + n) % count]).collect();
        let Some((circle, taken)) = arc_from(&run, tolerance) else {
            continue;
        };
        let side = |pair: &[Place]| (pair[1][0] - pair[0][0]).hypot(pair[1][1] - pair[0][1]);
        let long: f64 = run[..taken].windows(2).map(side).sum();
        if best.map_or(true, |(_, most)| long > most) {
            best = Some((circle, long));
        }
    }
    best.map(|(circle, _)| circle)
}

/// The circle of the arc that some corners begin with, and how many lie on it: five or more, which rise well above the
/// line between the first and the last.
fn arc_from(run: &[Place], tolerance: f64) -> Option<(Circle, usize)> {
    let mut found = None;
    for taken in 3..=run.len() {
        let points = &run[..taken];
        let Some(circle) = Circle::through(points) else {
            continue;
        };
        let [before, last] = [points[taken - 2], points[taken - 1]];
        let step = wrapped(circle.angle_of(last) - circle.angle_of(before));
        let on = |point: &Place| circle.has(*point, tolerance);
        if !points.iter().all(on) || step.abs() > WIDEST_SIDE {
            break;
        }
        if taken >= 5 && rise(points) > 4.0 * tolerance {
            found = Some((circle, taken));
        }
    }
    found
}

/// How far points rise above the line between the first and the last.
fn rise(points: &[Place]) -> f64 {
    let (a, b) = (points[0], points[points.len() - 1]);
    let way = [b[0] - a[0], b[1] - a[1]];
    let long = way[0].hypot(way[1]).max(1e-12);
    let off =
        |point: &Place| ((point[0] - a[0]) * way[1] - (point[1] - a[1]) * way[0]).abs() / long;
    points.iter().map(off).fold(0.0, f64::max)
}
