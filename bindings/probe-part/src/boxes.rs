//! Rectangles, sharp or with round corners, and slots, through the corners of a polygon, however they are turned.
use crate::circles::WIDEST_ARC;
use crate::fit::{fitted, Place};
use crate::geometry::sides;
use crate::model::Outline;
use crate::outline::Named;
use std::f64::consts::{FRAC_PI_2, PI};

/// The box around points: its least and largest coordinates.
pub fn box_around(points: &[Place]) -> [Place; 2] {
    let side = |side: usize| points.iter().map(move |point| point[side]);
    [
        std::array::from_fn(|axis| side(axis).fold(f64::INFINITY, f64::min)),
        std::array::from_fn(|axis| side(axis).fold(f64::NEG_INFINITY, f64::max)),
    ]
}

/// The direction of the longest side, from 0 to below half a turn.
fn longest_angle(corners: &[Place]) -> f64 {
    let ways = sides(corners).map(|(a, b)| [b[0] - a[0], b[1] - a[1]]);
    let longest = ways.max_by(|a, b| a[0].hypot(a[1]).total_cmp(&b[0].hypot(b[1])));
    longest.map_or(0.0, |way| way[1].atan2(way[0]).rem_euclid(PI))
}

fn rotated([x, y]: Place, angle: f64) -> Place {
    let (sine, cosine) = angle.sin_cos();
    [cosine * x - sine * y, sine * x + cosine * y]
}

/// The area of a polygon, and the direction in which it is longest, by its moments.
fn moments(corners: &[Place]) -> (f64, f64) {
    let origin = corners[0];
    let [mut area, mut x, mut y, mut xx, mut xy, mut yy] = [0.0; 6];
    for (a, b) in sides(corners) {
        let [a, b] = [a, b].map(|point| [point[0] - origin[0], point[1] - origin[1]]);
        let cross = a[0] * b[1] - a[1] * b[0];
        area += cross / 2.0;
        x += cross * (a[0] + b[0]) / 6.0;
        y += cross * (a[1] + b[1]) / 6.0;
        xx += cross * (a[0] * a[0] + a[0] * b[0] + b[0] * b[0]) / 12.0;
        yy += cross * (a[1] * a[1] + a[1] * b[1] + b[1] * b[1]) / 12.0;
        let mixed = a[0] * b[1] + 2.0 * a[0] * a[1] + 2.0 * b[0] * b[1] + b[0] * a[1];
        xy += cross * mixed / 24.0;
    }
    let (xx, xy, yy) = (
        (xx - x * x / area) * area.signum(),
        (xy - x * y / area) * area.signum(),
        (yy - y * y / area) * area.signum(),
    );
    (area.abs(), (2.0 * xy).atan2(xx - yy) / 2.0)
}

/// A box that is turned: the polygon's box along a direction, as its middle and its sides.
fn turned_box(corners: &[Place], way: f64) -> (Place, Place) {
    let straight: Vec<Place> = corners
        .iter()
        .map(|&corner| rotated(corner, -way))
        .collect();
    let [low, high] = box_around(&straight);
    let middle = [(low[0] + high[0]) / 2.0, (low[1] + high[1]) / 2.0];
    (rotated(middle, way), [high[0] - low[0], high[1] - low[1]])
}

/// The sides and the angle as they are listed: turned by nothing, the sides are those along the axes; else the longer one
/// comes first.
fn listed(size: Place, way: f64, tolerance: f64) -> (Place, f64) {
    let reach = size[0].max(size[1]) / 2.0;
    let is_along = |axis: f64| (way - axis).sin().abs() * reach <= tolerance;
    if is_along(0.0) {
        (size, 0.0)
    } else if is_along(FRAC_PI_2) {
        ([size[1], size[0]], 0.0)
    } else if size[0] >= size[1] {
        (size, way.to_degrees().rem_euclid(180.0))
    } else {
        let across = way.to_degrees() + 90.0;
        ([size[1], size[0]], across.rem_euclid(180.0))
    }
}

/// A rectangle: its four corners, and beside them none that is off its sides.
pub fn rectangle(corners: &[Place], tolerance: f64) -> Option<Named> {
    let ways = [0.0, longest_angle(corners)];
    ways.into_iter().find_map(|way| {
        let (middle, size) = turned_box(corners, way);
        if size[0].min(size[1]) <= 4.0 * tolerance {
            return None;
        }
        let inward = |corner: &Place| -> Place {
            let from = rotated([corner[0] - middle[0], corner[1] - middle[1]], -way);
            std::array::from_fn(|side| size[side] / 2.0 - from[side].abs())
        };
        let on_side = |off: Place| off[0].min(off[1]) <= tolerance;
        let is_corner = |off: Place| off[0].max(off[1]) <= tolerance;
        let offs: Vec<Place> = corners.iter().map(inward).collect();
        let sharp = corners.iter().zip(&offs).filter(|(_, &off)| is_corner(off));
        let mut quarters = [false; 4];
        for (corner, _) in sharp {
            let from = rotated([corner[0] - middle[0], corner[1] - middle[1]], -way);
            quarters[usize::from(from[0] > 0.0) + 2 * usize::from(from[1] > 0.0)] = true;
        }
        if !offs.iter().all(|&off| on_side(off)) || quarters.contains(&false) {
            return None;
        }
        let (size, angle) = listed(size, way, tolerance);
        Some(Named {
            outline: Outline::Rectangle { size, angle },
            centre: middle,
        })
    })
}

/// The nearest point of a line between two points.
fn nearest([a, b]: [Place; 2], point: Place) -> Place {
    let way = [b[0] - a[0], b[1] - a[1]];
    let square = way[0] * way[0] + way[1] * way[1];
    let share = if square > 0.0 {
        ((point[0] - a[0]) * way[0] + (point[1] - a[1]) * way[1]) / square
    } else {
        0.0
    };
    let share = share.clamp(0.0, 1.0);
    [a[0] + share * way[0], a[1] + share * way[1]]
}

/// Whether each side of a polygon is one of an outline's arcs of some radius, and no wider than such sides are, or runs
/// straight along it.
fn is_fine(
    corners: &[Place],
    radius: f64,
    tolerance: f64,
    outward: impl Fn(Place) -> Place,
) -> bool {
    sides(corners).all(|(a, b)| {
        let (one, other) = (outward(a), outward(b));
        let cross = one[0] * other[1] - one[1] * other[0];
        let dot = one[0] * other[0] + one[1] * other[1];
        let turn = cross.atan2(dot).abs();
        let is_straight = radius * (1.0 - (turn / 2.0).cos()) <= tolerance;
        let chord = 2.0 * radius * (turn / 2.0).sin();
        let long = (b[0] - a[0]).hypot(b[1] - a[1]);
        is_straight || (turn <= WIDEST_ARC && long <= chord + 4.0 * tolerance)
    })
}

/// A slot: the points at one distance from a line between two centres.
pub fn slot(corners: &[Place], tolerance: f64) -> Option<Named> {
    if corners.len() < 8 {
        return None;
    }
    let (_, way) = moments(corners);
    let (middle, size) = turned_box(corners, way);
    let radius = size[1] / 2.0;
    let half = size[0] / 2.0 - radius;
    if !(half > 0.0 && radius > 2.0 * tolerance) {
        return None;
    }
    let ahead = rotated([half, 0.0], way);
    let guess = [
        middle[0] - ahead[0],
        middle[1] - ahead[1],
        middle[0] + ahead[0],
        middle[1] + ahead[1],
        radius,
    ];
    let outward = |line: [Place; 2], point: Place| {
        let near = nearest(line, point);
        [point[0] - near[0], point[1] - near[1]]
    };
    let off = |measures: &[f64; 5], point: Place| {
        let [x1, y1, x2, y2, radius] = *measures;
        let away = outward([[x1, y1], [x2, y2]], point);
        away[0].hypot(away[1]) - radius
    };
    let measures = fitted(corners, guess, off);
    let [x1, y1, x2, y2, radius] = measures;
    let line = [[x1, y1], [x2, y2]];
    let long = (x2 - x1).hypot(y2 - y1);
    let fits = corners
        .iter()
        .all(|&corner| off(&measures, corner).abs() <= tolerance);
    // with centres so near each other it is nearly a circle
    let is_far = long > 16.0 * tolerance;
    let is_round = || is_fine(corners, radius, tolerance, |point| outward(line, point));
    if !fits || !is_far || !is_round() {
        return None;
    }
    let way = (y2 - y1).atan2(x2 - x1);
    let (size, angle) = listed([long + 2.0 * radius, 2.0 * radius], way, tolerance);
    Some(Named {
        outline: Outline::Slot { size, angle },
        centre: [(x1 + x2) / 2.0, (y1 + y2) / 2.0],
    })
}

/// From a turned box with round corners to a point: the vector from the nearest point of the inner box, whose sides are the
/// box's without the round corners, and the distance from the outline.
fn from_rounded(middle: Place, half: Place, radius: f64, way: f64, point: Place) -> (Place, f64) {
    let from = rotated([point[0] - middle[0], point[1] - middle[1]], -way);
    let over: Place = std::array::from_fn(|side| from[side].abs() - (half[side] - radius));
    let beyond = over.map(|part| part.max(0.0));
    let within = over[0].max(over[1]).min(0.0);
    let signed: Place = if within < 0.0 {
        std::array::from_fn(|side| {
            let is_nearer = over[side] >= over[1 - side];
            if is_nearer {
                from[side].signum()
            } else {
                0.0
            }
        })
    } else {
        std::array::from_fn(|side| beyond[side] * from[side].signum())
    };
    (signed, beyond[0].hypot(beyond[1]) + within - radius)
}

/// A rectangle with round corners, along the axes if it can be, else turned.
pub fn rounded(corners: &[Place], tolerance: f64) -> Option<Named> {
    if corners.len() < 8 {
        return None;
    }
    let (area, longest) = moments(corners);
    let along = |way: f64, is_free: bool| rounded_along(corners, area, way, is_free, tolerance);
    along(0.0, false)
        .or_else(|| along(longest_angle(corners), true))
        .or_else(|| along(longest, true))
}

fn rounded_along(
    corners: &[Place],
    area: f64,
    way: f64,
    is_free: bool,
    tolerance: f64,
) -> Option<Named> {
    let (middle, size) = turned_box(corners, way);
    let short = size[0].min(size[1]);
    let missing = (size[0] * size[1] - area).max(0.0) / (4.0 - PI);
    let radius = missing.sqrt().clamp(short / 1000.0, 0.49 * short);
    let reach = size[0].hypot(size[1]);
    let guess = [
        middle[0],
        middle[1],
        size[0] / 2.0,
        size[1] / 2.0,
        radius,
        0.0,
    ];
    // the turn as a length: at the far end of the box
    let turn = |measures: &[f64; 6]| way + if is_free { measures[5] / reach } else { 0.0 };
    let from = |measures: &[f64; 6], point: Place| {
        let [x, y, wide, high, radius, _] = *measures;
        from_rounded([x, y], [wide, high], radius, turn(measures), point)
    };
    let measures = fitted(corners, guess, |measures, point| from(measures, point).1);
    let [x, y, wide, high, radius, _] = measures;
    let fits = corners
        .iter()
        .all(|&corner| from(&measures, corner).1.abs() <= tolerance);
    let flat = [wide - radius, high - radius].map(|half| 2.0 * half);
    let is_box = flat[0].min(flat[1]) > -tolerance && flat[0].max(flat[1]) > 4.0 * tolerance;
    let outward = |point: Place| from(&measures, point).0;
    let is_round = radius > 4.0 * tolerance && is_fine(corners, radius, tolerance, outward);
    if !fits || !is_box || !is_round {
        return None;
    }
    let (size, angle) = listed([2.0 * wide, 2.0 * high], turn(&measures), tolerance);
    Some(Named {
        outline: Outline::Rounded {
            size,
            radius,
            angle,
        },
        centre: [x, y],
    })
}
