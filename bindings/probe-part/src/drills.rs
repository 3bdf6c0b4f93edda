//! Drills at a part: whether one is clear, or what it touches first and where; that the drill which fits a round row is clear from
//! its entry to its end; and what is left behind a blind one. Clear and touched are the proved call's answers.
use crate::geometry::{add, along, cross, dot, length, scale, subtract, unit, Vector};
use crate::model::{Check, Doubt, End, Frame, Kind, Outline, Part, Row};
use crate::shape::Shape;
use crate::words::fixed;
use probe_rays::{Batch, Cast, Ray, Refusal, Scratch};
use std::f64::consts::PI;

/// The grid's unit, in millimetres.
const UNIT: f64 = 1.0 / 32_768.0;

/// By so much a drill is thinner than what it is to fit in, and by so much it ends before a floor or begins behind it.
pub const SLACK: f64 = 0.01;

/// The widest radius that the call admits.
pub const WIDEST: f64 = 128.0;

/// Less behind a blind bore is doubtful to the program, if nothing else is asked.
pub const WEB: f64 = 1.0;

/// So far the next surface behind a blind bore is looked for, or as far as is asked.
const BEHIND: f64 = 30.0;

/// A drill, in the file's coordinates: its axis from near to the maximum, and its radius.
#[derive(Clone, Copy, Debug, PartialEq)]
pub struct Drill {
    /// The axis.
    pub ray: Ray,
    /// The radius.
    pub radius: f64,
}

/// Where a drill that goes in first touches something.
#[derive(Clone, Copy, Debug, PartialEq)]
pub struct Touch {
    /// How deep its flat end is then, along the axis, to the grid's unit.
    pub depth: f64,
    /// A triangle that is touched there: the one of the lowest number.
    pub triangle: u32,
    /// The triangle's point nearest to the axis so far, computed in floats.
    pub place: Vector,
}

impl Drill {
    /// From a point in a direction of any length, so deep and of a diameter.
    pub fn new(from: Vector, way: Vector, depth: f64, diameter: f64) -> Drill {
        Drill {
            ray: Ray::toward(from, way, depth),
            radius: diameter / 2.0,
        }
    }

    /// That begins so deep.
    fn beginning(self, near: f64) -> Drill {
        Drill {
            ray: self.ray.with_near(near),
            ..self
        }
    }

    /// That ends so deep.
    fn ending(self, depth: f64) -> Drill {
        let Ray {
            origin,
            direction,
            near_distance,
            ..
        } = self.ray;
        Drill {
            ray: Ray::new(origin, direction, depth).with_near(near_distance),
            ..self
        }
    }

    /// What it touches first; nothing where it is clear. The depth is found by halving: a drill that goes deeper touches no less.
    pub fn first_touch(
        &self,
        shape: &Shape,
        scratch: &mut Scratch,
    ) -> Result<Option<Touch>, Refusal> {
        let mut touched = |depth: f64| {
            let drill = self.ending(depth);
            shape.drill(&drill.ray, drill.radius, scratch)
        };
        let [near, far] = [self.ray.near_distance, self.ray.max_distance];
        let Some(mut triangle) = touched(far)? else {
            return Ok(None);
        };
        let (mut low, mut high) = (near, far);
        if let Some(at_once) = touched(near)? {
            (triangle, high) = (at_once, near);
        }
        while high - low > UNIT {
            let middle = low + (high - low) / 2.0;
            match touched(middle)? {
                Some(found) => (triangle, high) = (found, middle),
                None => low = middle,
            }
        }
        Ok(Some(Touch {
            depth: high,
            triangle,
            place: nearest(shape, triangle, &self.ending(high).ray),
        }))
    }
}

/// The part of a polygon whose heights are not below 0.
fn clipped(polygon: &[Vector], height: impl Fn(Vector) -> f64) -> Vec<Vector> {
    let mut kept = Vec::new();
    for (place, &p) in polygon.iter().enumerate() {
        let q = polygon[(place + 1) % polygon.len()];
        let (here, there) = (height(p), height(q));
        if here >= 0.0 {
            kept.push(p);
        }
        if (here < 0.0) != (there < 0.0) {
            kept.push(along(p, subtract(q, p), here / (here - there)));
        }
    }
    kept
}

/// The point of a triangle nearest to a ray's axis, of those whose feet lie on the segment.
fn nearest(shape: &Shape, triangle: u32, ray: &Ray) -> Vector {
    let corners = shape.triangles()[triangle as usize].map(|k| shape.vertices()[k as usize]);
    let foot = |point: Vector| dot(subtract(point, ray.origin), ray.direction);
    let before = clipped(&corners, |point| ray.max_distance + UNIT - foot(point));
    let polygon = clipped(&before, |point| foot(point) - ray.near_distance + UNIT);
    let aside = |point: Vector| subtract(point, along(ray.origin, ray.direction, foot(point)));
    let mut best = polygon.first().copied().unwrap_or(corners[0]);
    let mut take = |point: Vector| {
        if length(aside(point)) < length(aside(best)) {
            best = point;
        }
    };
    for (place, &p) in polygon.iter().enumerate() {
        let q = polygon[(place + 1) % polygon.len()];
        let way = subtract(aside(q), aside(p));
        let square = dot(way, way);
        let part = if square > 0.0 {
            -dot(aside(p), way) / square
        } else {
            0.0
        };
        take(along(p, subtract(q, p), part.clamp(0.0, 1.0)));
    }
    if let Some(point) = crossing(corners, ray) {
        take(point);
    }
    best
}

/// Where a ray's axis passes through a triangle.
fn crossing([a, b, c]: [Vector; 3], ray: &Ray) -> Option<Vector> {
    let normal = cross(subtract(b, a), subtract(c, a));
    let rise = dot(normal, ray.direction);
    let depth = dot(normal, subtract(a, ray.origin)) / rise;
    let point = along(ray.origin, ray.direction, depth);
    let inside =
        |p: Vector, q: Vector| dot(normal, cross(subtract(q, p), subtract(point, p))) >= 0.0;
    let on_segment = (ray.near_distance..=ray.max_distance).contains(&depth);
    (rise != 0.0 && on_segment && inside(a, b) && inside(b, c) && inside(c, a)).then_some(point)
}

/// Drills of a command line: eight numbers each, the place, the direction, of any length, the depth and the diameter.
pub fn from_words(words: &[String]) -> Result<Vec<Drill>, String> {
    if words.is_empty() || words.len() % 8 != 0 {
        return Err(format!(
            "a drill is eight numbers (place, direction, depth, diameter), but {} are given",
            words.len()
        ));
    }
    let number = |word: &String| word.parse().map_err(|_| format!("not a number: {word}"));
    let numbers: Vec<f64> = words.iter().map(number).collect::<Result<_, _>>()?;
    let drill = |n: &[f64]| Drill::new([n[0], n[1], n[2]], [n[3], n[4], n[5]], n[6], n[7]);
    Ok(numbers.chunks_exact(8).map(drill).collect())
}

/// What a drill does, in words.
pub fn drill_words(drill: &Drill, answer: &Result<Option<Touch>, Refusal>) -> String {
    match answer {
        Ok(None) => "clear".into(),
        Ok(Some(touch)) => touch_words(touch),
        Err(Refusal::OutOfRange) if drill.radius > WIDEST => {
            "refused 12, out of range: the diameter is above 256".into()
        }
        Err(Refusal::InvalidInput) if !(drill.radius >= 0.0 && drill.radius.is_finite()) => {
            "refused 1, invalid input: the diameter is not a number from 0 on".into()
        }
        Err(refusal) => refusal.explained(&drill.ray),
    }
}

/// Where a drill touches, in words.
pub fn touch_words(touch: &Touch) -> String {
    format!(
        "touches triangle {} at {} mm, near ({})",
        touch.triangle,
        fixed(touch.depth, 3),
        touch.place.map(|part| fixed(part, 3)).join(", ")
    )
}

/// The diameter of a round row, and how far its sides are from its axis.
pub fn fitting(row: &Row) -> Option<(f64, f64)> {
    let Outline::Circle { diameter, sides } = row.outline else {
        return None;
    };
    let regular = diameter / 2.0 * (PI / sides as f64).cos();
    let outline = row.loops.first().map_or(&[][..], Vec::as_slice);
    let aside = |point: Vector| {
        let from = subtract(point, row.centre);
        subtract(from, scale(row.axis, dot(from, row.axis)))
    };
    let to_side = |(place, &p): (usize, &Vector)| {
        let (p, q) = (aside(p), aside(outline[(place + 1) % outline.len()]));
        length(cross(p, unit(subtract(q, p))))
    };
    let sides = outline.iter().enumerate().map(to_side);
    Some((diameter, sides.fold(regular, f64::min)))
}

/// Whether a row is a round hole that a drill makes: a bore or a round pocket that nothing stands in.
pub fn is_drilled(rows: &[Row], place: usize) -> bool {
    let row = &rows[place];
    let stands = |other: &Row| other.within == Some(place) && other.kind == Kind::Island;
    matches!(row.kind, Kind::Bore | Kind::Pocket)
        && row.loops.len() < 2
        && row.end != End::Unknown
        && !rows.iter().any(stands)
}

/// The drill that fits a round row, from its entry to just before its end, in the file's coordinates.
pub fn fitting_drill(frame: &Frame, row: &Row) -> Option<Drill> {
    let (_, inner) = fitting(row)?;
    let depth = match row.end {
        End::Floor | End::Tip { .. } => row.depth - SLACK,
        _ => row.depth,
    };
    let radius = (inner - SLACK / 2.0).min(WIDEST);
    (depth > 0.0 && radius > 0.0).then(|| in_file(frame, row.centre, row.axis, depth, radius))
}

/// What the drill that fits a row touches first. Where another surface cuts the wall, some of its triangles span two sides of the
/// outline. Where one of these is touched, the drill is made to pass it; sides that are wider still are touched.
fn row_touch(
    shape: &Shape,
    frame: &Frame,
    row: &Row,
    scratch: &mut Scratch,
) -> Result<Option<(Drill, Touch)>, Refusal> {
    let Outline::Circle { diameter, sides } = row.outline else {
        return Ok(None);
    };
    let Some(mut drill) = fitting_drill(frame, row) else {
        return Ok(None);
    };
    let least = diameter / 2.0 * (2.0 * PI / sides as f64).cos() - SLACK;
    loop {
        let Some(touch) = drill.first_touch(shape, scratch)? else {
            return Ok(None);
        };
        let inner = to_wall(shape, touch.triangle, &drill.ray, diameter / 2.0);
        match inner.map(|inner| inner - SLACK / 2.0) {
            Some(radius) if least <= radius && radius < drill.radius => drill.radius = radius,
            _ => return Ok(Some((drill, touch))),
        }
    }
}

/// How far a triangle is from an axis, if its corners lie on the cylinder of a radius about it.
fn to_wall(shape: &Shape, triangle: u32, axis: &Ray, radius: f64) -> Option<f64> {
    let aside = |point: Vector| {
        let from = subtract(point, axis.origin);
        subtract(from, scale(axis.direction, dot(from, axis.direction)))
    };
    let corners = shape.triangles()[triangle as usize];
    let corners = corners.map(|corner| aside(shape.vertices()[corner as usize]));
    let off = SLACK + shape.step();
    let on_wall = |corner: &Vector| (length(*corner) - radius).abs() <= off;
    let to_side = |place: usize| {
        let (p, q) = (corners[place], corners[(place + 1) % 3]);
        let way = subtract(q, p);
        let square = dot(way, way);
        // a side along the axis is as far off as its ends
        if square > 0.0 {
            length(along(p, way, (-dot(p, way) / square).clamp(0.0, 1.0)))
        } else {
            length(p)
        }
    };
    let sides = (0..3).map(to_side);
    corners
        .iter()
        .all(on_wall)
        .then(|| sides.fold(f64::INFINITY, f64::min))
}

/// A drill of a place and a direction of the part's own frame.
pub fn in_file(frame: &Frame, from: Vector, way: Vector, depth: f64, radius: f64) -> Drill {
    Drill::new(
        frame.place_in_file(from),
        frame.direction_in_file(way),
        depth,
        2.0 * radius,
    )
}

/// How deep a blind row is, with its tip.
fn blind_depth(row: &Row) -> Option<f64> {
    match row.end {
        End::Floor => Some(row.depth),
        End::Tip { depth, .. } => Some(depth),
        _ => None,
    }
}

/// What is left behind a blind round row, over the whole of its diameter, up to the next surface, if one lies within `reach`. A row
/// that another one goes on from, or that runs out at a face, has no such web.
fn web(
    shape: &Shape,
    frame: &Frame,
    rows: &[Row],
    place: usize,
    reach: f64,
    scratch: &mut Scratch,
) -> Result<Option<f64>, Refusal> {
    let row = &rows[place];
    let goes_on = rows.iter().any(|other| other.within == Some(place));
    let (Some(end), Some((diameter, _))) = (blind_depth(row), fitting(row)) else {
        return Ok(None);
    };
    if goes_on || !row.open.is_empty() {
        return Ok(None);
    }
    let radius = (diameter / 2.0).min(WIDEST);
    let behind = in_file(frame, row.centre, row.axis, end + reach, radius).beginning(end + SLACK);
    // most often the surface behind is flat: then the axis meets it where the drill does
    let Cast::Hit(hit) = shape.cast(&behind.ray, scratch) else {
        let touch = behind.first_touch(shape, scratch)?;
        return Ok(touch.map(|touch| left(touch.depth, end)));
    };
    let before = behind.ending((hit.distance - SLACK / 2.0).max(end + SLACK));
    match before.first_touch(shape, scratch)? {
        Some(touch) => Ok(Some(left(touch.depth, end))),
        None => Ok(Some(left(hit.distance, end))),
    }
}

/// The web up to a depth; what is touched at once leaves none.
fn left(depth: f64, end: f64) -> f64 {
    if depth <= end + SLACK {
        0.0
    } else {
        depth - end
    }
}

/// Asks of every round row whether the drill that fits it is clear, and what is left behind it, over the machine's threads;
/// less than `web` is doubtful.
pub fn drill_rows(
    shape: &Shape,
    frame: &Frame,
    rows: &mut [Row],
    web_asked: f64,
) -> Result<(), Refusal> {
    // the frame is of where the part is cast at, and drills are of the file
    let by = shape.shift().unwrap_or_default();
    let frame = &Frame {
        origin: add(frame.origin, by),
        ..*frame
    };
    let drilled: Vec<usize> = (0..rows.len())
        .filter(|&place| is_drilled(rows, place))
        .collect();
    let all: &[Row] = rows;
    let found = Batch::new()
        .progress("drilling rows")
        .run(&drilled, |&place, scratch| {
            Ok((
                row_touch(shape, frame, &all[place], scratch)?,
                web(shape, frame, all, place, web_asked.max(BEHIND), scratch)?,
            ))
        });
    for (&place, found) in drilled.iter().zip(found) {
        let (touched, web) = found?;
        let row = &mut rows[place];
        row.web = web;
        if let (Some((drill, touch)), true) = (touched, row.is_confirmed()) {
            row.check = Check::Differs(format!(
                "a drill of {} touches a surface at {}",
                fixed(2.0 * drill.radius, 2),
                fixed(touch.depth, 2)
            ));
        }
    }
    Ok(())
}

/// How many rows leave less than so much behind them, and the least that one leaves.
pub fn thin_webs(part: &Part, least: f64) -> Option<Doubt> {
    let webs = part.rows.iter().filter_map(|row| row.web);
    let thin: Vec<f64> = webs.filter(|&web| web < least).collect();
    let thinnest = thin.iter().copied().fold(f64::INFINITY, f64::min);
    (!thin.is_empty()).then_some(Doubt::ThinWeb(thin.len(), thinnest))
}
