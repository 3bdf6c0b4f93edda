//! The five casts written down plainly, from document 01 and in its order of operations: a second reading beside the unchanged
//! Rust, whose minimum and maximum leave the sign of a zero open. Here document 01's rule decides it, so every bit is told.

use crate::{
    answer::{Answer, MOST_TRIANGLES, MOST_VERTICES, Ray},
    math::{self, Vec3},
    model::{self, BuildAreas},
    record::{Record, Shape},
    slips::{Slip::*, or, slipped},
    tree::FlatTree,
};
use std::cell::Cell;

const EPS: f64 = f64::EPSILON;

/// Document 02, M-102: 'Runs against the Rust leave out inputs where any triangle gives NaN.'
pub const NAN: &str = "a triangle's distance is not a number";

/// Document 02, M-106: 'The Rust is compared for near 0'. Its own distance decides at a plane and a triangle for near above 0.
pub const NEAR_GRID: &str = "a distance grid with a near distance above 0";
pub const NEAR_NORMAL: &str = "a triangle nearer than near has no normal, which the Rust asks";

/// Document 02, M-104: 'Where the old rule succeeded, the bits are as before, and the Rust is compared there.' Where both rules
/// fail, for a zero vector or a component that is not finite, both refuse, and the Rust is compared too.
pub const SCALED: &str = "a vector is scaled before it is normalised, which the Rust refuses";

thread_local! {
    static CHANGED: Cell<Option<&'static str>> = const { Cell::new(None) };
}

/// Notes why an input is not held against the Rust. The first reason stands.
fn changed(reason: &'static str) {
    CHANGED.set(CHANGED.get().or(Some(reason)));
}

/// Runs a cast of this model, and says why its input is not held against the Rust, if it is not: a rule of document 02 was met
/// on the way, whatever the answer is.
pub fn beside_the_rust<T>(cast: impl FnOnce() -> T) -> (T, Option<&'static str>) {
    CHANGED.set(None);
    let answer = cast();
    (answer, CHANGED.get())
}

/// A cast stops at a miss or at a refusal's number.
enum Stop {
    Miss,
    Refused(u32),
}

type Step<T> = Result<T, Stop>;

fn refuse<T>(number: u32) -> Step<T> {
    Err(Stop::Refused(number))
}

fn finite(x: f64, number: u32) -> Step<f64> {
    if x.is_finite() { Ok(x) } else { refuse(number) }
}

fn told(cast: Step<(Vec3, f64)>) -> Answer {
    match cast {
        Ok((normal, distance)) => Answer::Hit {
            normal: normal.to_array(),
            distance,
            index: None,
        },
        Err(Stop::Miss) => Answer::None,
        Err(Stop::Refused(number)) => Answer::Refused(number),
    }
}

pub fn minimum(a: f64, b: f64) -> f64 {
    if slipped(MinimumNan) && (a.is_nan() || b.is_nan()) {
        return f64::NAN;
    }
    if slipped(MinimumSecond) && a == b {
        b
    } else {
        math::minimum(a, b)
    }
}

pub fn maximum(a: f64, b: f64) -> f64 {
    if slipped(MaximumSecond) && a == b {
        b
    } else {
        math::maximum(a, b)
    }
}

fn each(a: Vec3, b: Vec3, of: impl Fn(f64, f64) -> f64) -> Vec3 {
    Vec3::new(of(a.x, b.x), of(a.y, b.y), of(a.z, b.z))
}

pub fn least(a: Vec3, b: Vec3) -> Vec3 {
    each(a, b, minimum)
}

pub fn greatest(a: Vec3, b: Vec3) -> Vec3 {
    each(a, b, maximum)
}

fn dot(a: Vec3, b: Vec3) -> f64 {
    if slipped(DotOrder) {
        return a.z * b.z + a.y * b.y + a.x * b.x;
    }
    a.x * b.x + a.y * b.y + a.z * b.z
}

/// Document 02, M-104: where the dot is not finite or below 2^-1022 the vector is scaled first.
fn normalised(v: Vec3) -> Option<Vec3> {
    let square = dot(v, v);
    let least = or(NormalLeast, f64::MIN_POSITIVE, 5e-324);
    if square.is_finite() && square >= least {
        return Some(over(v, square.sqrt()));
    }
    let largest = v.x.abs().max(v.y.abs()).max(v.z.abs());
    if !v.is_finite() || largest == 0.0 || (slipped(NormalZero) && square == 0.0) {
        return None;
    }
    changed(SCALED);
    let e = exponent(largest) - or(NormalHalf, 0, -1);
    let scaled = Vec3::new(
        times_two_to_minus(e, v.x),
        times_two_to_minus(e, v.y),
        times_two_to_minus(e, v.z),
    );
    Some(over(scaled, dot(scaled, scaled).sqrt()))
}

fn over(v: Vec3, length: f64) -> Vec3 {
    Vec3::new(v.x / length, v.y / length, v.z / length)
}

/// The digits and the exponent of a finite number's size: it is digits times 2 to the exponent.
pub(crate) fn parts(x: f64) -> (u64, i32) {
    let digits = x.to_bits() & ((1 << 52) - 1);
    match (x.to_bits() >> 52) as i32 & 0x7ff {
        0 => (digits, -1074),
        field => (digits | 1 << 52, field - 1075),
    }
}

/// The e of a number from 2^e to below 2^(e+1) in size.
fn exponent(x: f64) -> i32 {
    let (digits, exponent) = parts(x);
    exponent + 63 - digits.leading_zeros() as i32
}

/// x times 2^-e, rounded once: by whole numbers.
fn times_two_to_minus(e: i32, x: f64) -> f64 {
    let (digits, exponent) = parts(x);
    if digits == 0 {
        return x;
    }
    let exponent = exponent - e;
    // the last of 53 digits, or the least unit
    let lowest = (exponent + 11 - digits.leading_zeros() as i32).max(-1074);
    let size = match lowest - exponent {
        places @ ..=0 => digits << -places,
        places @ 1..=63 => {
            let (kept, rest) = (digits >> places, digits & ((1 << places) - 1));
            let half = 1 << (places - 1);
            kept + u64::from(rest > half || rest == half && kept % 2 == 1)
        }
        _ => 0,
    };
    // the leading digit adds one to the exponent's field
    let sign = x.to_bits() >> 63 << 63;
    f64::from_bits(sign | (((lowest + 1074) as u64) << 52) + size)
}

/// Ties away from zero.
pub fn round(x: f64) -> f64 {
    or(RoundEven, x.round(), x.round_ties_even())
}

// ---- refusals 1 and 2

pub fn ray_admitted(ray: &Ray) -> bool {
    let (origin, direction) = (
        Vec3::from_array(ray.origin),
        Vec3::from_array(ray.direction),
    );
    if !(origin.is_finite() || slipped(OriginNotLooked)) || !direction.is_finite() {
        return false;
    }
    let near_above = or(
        NearAtMaximum,
        ray.near > ray.maximum,
        ray.near >= ray.maximum,
    );
    if !ray.near.is_finite() || ray.near < 0.0 || near_above {
        return false;
    }
    if !ray.maximum.is_finite()
        || ray.maximum < 0.0
        || (slipped(MaximumOfZero) && ray.maximum == 0.0)
    {
        return false;
    }
    let square = dot(direction, direction);
    let off = or(LengthBySquare, square.sqrt(), square) - 1.0;
    !(or(LengthBelow, off.abs(), off) > 1e-12)
}

fn spacings_admitted(spacings: &[f64]) -> bool {
    spacings
        .iter()
        .all(|&s| s.is_finite() && (s > 0.0 || (slipped(SpacingOfZero) && s == 0.0)))
}

fn shape_admitted(shape: &Shape) -> bool {
    match shape {
        Shape::Plane { normal, distance } => {
            let off = Vec3::from_array(*normal).length() - 1.0;
            (off.abs() <= 1e-12 || slipped(PlaneLength))
                && (distance.is_finite() || slipped(PlaneDistance))
        }
        Shape::Triangle { .. } => true,
        Shape::Mesh { vertices, indices } => {
            vertices.len() <= 3 * MOST_VERTICES && indices.len() <= 3 * MOST_TRIANGLES
        }
        Shape::HeightField {
            rows,
            columns,
            spacing,
            heights,
        } => {
            let sides = [*rows, *columns].map(|side| side as usize);
            let least = or(FieldSides, 2, 1);
            sides.iter().all(|side| (least..=1_024).contains(side))
                && spacings_admitted(spacing)
                && heights.len() == sides[0] * sides[1]
        }
        Shape::LevelSet {
            sides,
            origin,
            spacing,
            values,
        } => {
            let sides = sides.map(|side| side as usize);
            let least = or(GridSides, 2, 1);
            let most = or(GridMost, or(GridMore, 256, 257), 255);
            sides.iter().all(|side| (least..=most).contains(side))
                && spacings_admitted(spacing)
                && values.len() == sides[0] * sides[1] * sides[2]
                && (origin.iter().all(|o| o.is_finite()) || slipped(GridOrigin))
        }
    }
}

/// The answer to a record.
pub fn answer(record: &Record) -> Answer {
    let ray = &record.ray;
    if slipped(ShapeBeforeRay) && !shape_admitted(&record.shape) {
        return Answer::Refused(2);
    }
    if !ray_admitted(ray) {
        return Answer::Refused(1);
    }
    if !shape_admitted(&record.shape) {
        return Answer::Refused(2);
    }
    match &record.shape {
        Shape::Plane { normal, distance } => told(plane(ray, Vec3::from_array(*normal), *distance)),
        Shape::Triangle { corners } => triangle(ray, *corners),
        Shape::Mesh { vertices, indices } => mesh(ray, vertices, indices),
        Shape::HeightField {
            rows,
            columns,
            spacing,
            heights,
        } => {
            let field = Field {
                rows: *rows as usize,
                columns: *columns as usize,
                spacing: *spacing,
                heights,
            };
            field.cast(ray)
        }
        Shape::LevelSet {
            sides,
            origin,
            spacing,
            values,
        } => {
            let grid = Grid {
                sides: sides.map(|side| side as usize),
                origin: Vec3::from_array(*origin),
                spacing: Vec3::from_array(*spacing),
                values,
            };
            told(grid.cast(ray))
        }
    }
}

// ---- plane and triangle

fn outside_range(ray: &Ray, distance: f64) -> bool {
    let near = or(
        NearKept,
        distance < ray.near,
        distance < ray.near && ray.near <= 0.0,
    );
    near || (slipped(NearLost) && distance == ray.near && ray.near > 0.0) || distance > ray.maximum
}

fn turned(slip: crate::slips::Slip, normal: Vec3) -> Vec3 {
    or(slip, -normal, Vec3::new(0.0, 0.0, 0.0) - normal)
}

fn plane(ray: &Ray, normal: Vec3, distance: f64) -> Step<(Vec3, f64)> {
    let (origin, direction) = (
        Vec3::from_array(ray.origin),
        Vec3::from_array(ray.direction),
    );
    let denominator = finite(dot(direction, normal), 6)?;
    if slipped(PlaneOriginFirst) {
        finite(dot(origin, normal), 6)?;
    }
    let threshold = EPS * or(PlaneParallel, 32.0, 31.0);
    let parallel = or(
        PlaneStrict,
        denominator.abs() <= threshold,
        denominator.abs() < threshold,
    );
    if parallel {
        return Err(Stop::Miss);
    }
    let distance = (distance - finite(dot(origin, normal), 6)?) / denominator;
    if slipped(PlaneOverflow) && !distance.is_finite() {
        return Err(Stop::Miss);
    }
    let distance = finite(distance, 6)?;
    if outside_range(ray, distance)
        || (slipped(PlaneMaximum) && distance == ray.maximum)
        || (slipped(PlaneAtOrigin) && distance == 0.0)
    {
        return Err(Stop::Miss);
    }
    let faces_away = denominator > 0.0 && !slipped(PlaneNormal);
    Ok((
        if faces_away {
            turned(PlaneTurned, normal)
        } else {
            normal
        },
        distance,
    ))
}

/// The triangle cast for a ray that refusal 1 let pass.
pub fn triangle(ray: &Ray, corners: [[f64; 3]; 3]) -> Answer {
    told(triangle_cast(ray, corners.map(Vec3::from_array)))
}

fn triangle_cast(ray: &Ray, corners: [Vec3; 3]) -> Step<(Vec3, f64)> {
    let (origin, direction) = (
        Vec3::from_array(ray.origin),
        Vec3::from_array(ray.direction),
    );
    let (a, b) = (corners[1] - corners[0], corners[2] - corners[0]);
    let p = direction.cross(b);
    let determinant = dot(a, p);
    if slipped(TriangleDeterminant) && !determinant.is_finite() {
        return Err(Stop::Miss);
    }
    let determinant = finite(determinant, 6)?;
    let largest = |v: Vec3| maximum(maximum(v.x.abs(), v.y.abs()), v.z.abs());
    let edges = or(
        TriangleScaleOne,
        maximum(largest(a), largest(b)),
        largest(a),
    );
    let scale = or(TriangleScale, maximum(edges, 1.0), edges);
    let threshold = scale * EPS * or(TriangleFactor, 32.0, 64.0);
    let flat = or(
        TriangleStrict,
        determinant.abs() <= threshold,
        determinant.abs() < threshold,
    );
    if flat {
        return Err(Stop::Miss);
    }
    let inverse = 1.0 / determinant;
    let offset = origin - corners[0];
    let u = or(
        TriangleDivided,
        dot(offset, p) * inverse,
        dot(offset, p) / determinant,
    );
    if !(u >= 0.0 && u <= 1.0)
        || (slipped(TriangleLow) && u == 0.0)
        || (slipped(TriangleHigh) && u == 1.0)
    {
        return Err(Stop::Miss);
    }
    let q = offset.cross(a);
    let v = dot(direction, q) * inverse;
    if v < 0.0
        || u + v > 1.0
        || (slipped(TriangleLowV) && v == 0.0)
        || (slipped(TriangleFar) && u + v == 1.0)
    {
        return Err(Stop::Miss);
    }
    let distance = dot(b, q) * inverse;
    if distance >= 0.0 && distance < ray.near && normalised(a.cross(b)).is_none() {
        changed(NEAR_NORMAL);
        if slipped(NearAfterNormal) {
            return refuse(7);
        }
    }
    if outside_range(ray, distance)
        || (slipped(TriangleMaximum) && distance == ray.maximum)
        || (slipped(TriangleAtOrigin) && distance == 0.0)
    {
        return Err(Stop::Miss);
    }
    let across = if slipped(TriangleEdges) {
        b.cross(a)
    } else {
        a.cross(b)
    };
    if distance.is_nan() {
        changed(NAN);
        if !slipped(NanKept) && !(slipped(NanAfterNormal) && normalised(across).is_none()) {
            return refuse(or(NanSeven, 6, 7));
        }
    }
    Ok((facing(direction, across)?, distance))
}

/// A triangle's normal by the cross of its edges, turned to the ray.
fn facing(direction: Vec3, across: Vec3) -> Step<Vec3> {
    let normal = normalised(across).ok_or(Stop::Refused(7))?;
    let faces_away = dot(direction, normal) > 0.0 && !slipped(TriangleNormal);
    Ok(if faces_away {
        turned(TriangleTurned, normal)
    } else {
        normal
    })
}

/// The hit of a triangle at a distance that was found before, by the cross of its edges.
pub(crate) fn hit_with(ray: &Ray, across: [f64; 3], distance: f64) -> Answer {
    let across = Vec3::from_array(across);
    told(facing(Vec3::from_array(ray.direction), across).map(|normal| (normal, distance)))
}

/// The same of the corners' floats.
pub(crate) fn hit_on(ray: &Ray, corners: [[f64; 3]; 3], distance: f64) -> Answer {
    let [first, second, third] = corners.map(Vec3::from_array);
    let across = (second - first).cross(third - first);
    hit_with(ray, across.to_array(), distance)
}

/// The first refusal, else the first strictly least distance, over triangles in their order.
pub fn nearest<'a>(casts: impl Iterator<Item = (Option<u32>, Answer)> + 'a) -> Answer {
    let mut best: Option<(f64, Answer)> = None;
    for (index, cast) in casts {
        match cast {
            Answer::Refused(_) if slipped(FoldRefusal) && best.is_some() => {}
            Answer::Refused(number) => return Answer::Refused(number),
            Answer::None => {}
            Answer::Hit {
                normal, distance, ..
            } => {
                let nearer =
                    |least: f64| distance < least || (slipped(FoldTies) && distance == least);
                if best.is_none_or(|(least, _)| nearer(least) && !slipped(FoldFirst)) {
                    let hit = Answer::Hit {
                        normal,
                        distance,
                        index,
                    };
                    best = Some((distance, hit));
                }
            }
        }
    }
    best.map_or(Answer::None, |(_, hit)| hit)
}

/// The segment's end is 6 unless finite; its box, from the origin on.
pub fn segment_box(ray: &Ray) -> Option<[f64; 6]> {
    let origin = Vec3::from_array(ray.origin);
    let end = origin + Vec3::from_array(ray.direction) * ray.maximum;
    if !end.is_finite() {
        return None;
    }
    let (low, high) = (least(origin, end), greatest(origin, end));
    Some([low.x, low.y, low.z, high.x, high.y, high.z])
}

/// Closed intervals, tested by 'at most' alone.
pub fn touches(a: &[f64], b: &[f64]) -> bool {
    if slipped(TouchOpen) {
        return (0..3).all(|k| a[k] < b[k + 3] && b[k] < a[k + 3]);
    }
    (0..3).all(|k| a[k] <= b[k + 3] && b[k] <= a[k + 3])
}

/// The mesh cast at the mesh's own vertices through the tree that the build writes.
fn mesh(ray: &Ray, vertices: &[f64], indices: &[u32]) -> Answer {
    let n = indices.len() / 3;
    let mut tree = FlatTree::default().padded(n);
    let mut areas = BuildAreas {
        node_boxes: &mut tree.node_boxes,
        triangle_boxes: &mut tree.triangle_boxes,
        node_words: &mut tree.node_words,
        order: &mut tree.order,
    };
    match model::build(vertices, indices, &mut areas, n) {
        Err(number) => Answer::Refused(number),
        Ok(node_count) => {
            tree.node_count = node_count;
            model::ray_mesh(
                ray,
                vertices,
                indices,
                vertices,
                (&tree).into(),
                n,
                2 * n + 1,
            )
        }
    }
}

// ---- the height grid

struct Field<'a> {
    rows: usize,
    columns: usize,
    spacing: [f64; 2],
    heights: &'a [f64],
}

impl Field<'_> {
    /// The cells on one axis that a span of the segment's box may meet; none where it lies outside.
    fn cells(low: f64, high: f64, spacing: f64, span: f64, count: usize) -> Option<(usize, usize)> {
        if high < 0.0 || low > span {
            return None;
        }
        let last_cell = count - 1;
        let scaled = |side: f64| (side / spacing).clamp(0.0, last_cell as f64);
        let (low, high) = (scaled(low), scaled(high));
        if !low.is_finite() || !high.is_finite() {
            return None;
        }
        let first = (low.floor() as usize).saturating_sub(or(HeightEarly, 1, 0));
        let last = (high.floor() as usize).min(last_cell);
        Some((first.min(last), last))
    }

    fn vertex(&self, row: usize, column: usize) -> Step<Vec3> {
        let place = row * self.columns + column;
        let (along, across) = or(HeightSwapped, (column, row), (row, column));
        let vertex = Vec3::new(
            along as f64 * self.spacing[0],
            across as f64 * self.spacing[1],
            self.heights[place],
        );
        if vertex.is_finite() {
            Ok(vertex)
        } else {
            refuse(or(HeightVertex, 6, 5))
        }
    }

    /// A cell's triangles whose box touches.
    fn list(
        &self,
        row: usize,
        column: usize,
        bounds: &[f64],
        listed: &mut Vec<[Vec3; 3]>,
    ) -> Step<()> {
        let v00 = self.vertex(row, column)?;
        let v10 = self.vertex(row, column + 1)?;
        let v01 = self.vertex(row + 1, column)?;
        let v11 = self.vertex(row + 1, column + 1)?;
        let second = or(HeightOther, [v00, v11, v01], [v10, v11, v01]);
        for corners in [[v00, v10, v11], second] {
            let low = least(least(corners[0], corners[1]), corners[2]);
            let high = greatest(greatest(corners[0], corners[1]), corners[2]);
            let own = [low.x, low.y, low.z, high.x, high.y, high.z];
            if touches(&own, bounds) || slipped(FoldAll) {
                listed.push(corners);
            }
        }
        Ok(())
    }

    fn listing(&self, bounds: &[f64]) -> (Vec<[Vec3; 3]>, Option<u32>) {
        let mut listed = Vec::new();
        let (columns, rows) = (self.columns - 1, self.rows - 1);
        let spans = [
            self.spacing[0] * columns as f64,
            self.spacing[1] * rows as f64,
        ];
        if !spans.iter().all(|span| span.is_finite()) {
            return (listed, (!slipped(HeightSpan)).then_some(6));
        }
        let range = |axis: usize, count| {
            Self::cells(
                bounds[axis],
                bounds[axis + 3],
                self.spacing[axis],
                spans[axis],
                count,
            )
        };
        let (Some((left, right)), Some((first, last))) = (range(0, columns), range(1, rows)) else {
            return (listed, None);
        };
        let last = if slipped(HeightLast) && last > first {
            last - 1
        } else {
            last
        };
        let mut cells: Vec<[usize; 2]> = (first..=last)
            .flat_map(|row| (left..=right).map(move |column| [row, column]))
            .collect();
        if slipped(HeightRows) {
            cells.sort_by_key(|&[row, column]| (column, row));
        }
        for [row, column] in cells {
            if let Err(Stop::Refused(number)) = self.list(row, column, bounds, &mut listed) {
                return (listed, Some(number));
            }
        }
        (listed, None)
    }

    fn cast(&self, ray: &Ray) -> Answer {
        let Some(bounds) = segment_box(ray) else {
            return Answer::Refused(or(SegmentEnd, 6, 5));
        };
        let (listed, refusal) = self.listing(&bounds);
        if let Some(number) = refusal.filter(|_| !slipped(HeightListing)) {
            return Answer::Refused(number);
        }
        let found = nearest(
            listed
                .iter()
                .map(|&corners| (None, told(triangle_cast(ray, corners)))),
        );
        match (found, refusal) {
            (Answer::Refused(number), _) | (_, Some(number)) => Answer::Refused(number),
            (found, None) => found,
        }
    }
}

// ---- the distance grid

struct Grid<'a> {
    sides: [usize; 3],
    origin: Vec3,
    spacing: Vec3,
    values: &'a [f64],
}

struct Sample {
    value: f64,
    gradient: Vec3,
}

fn lerp(a: f64, b: f64, t: f64) -> Step<f64> {
    finite(or(LerpForm, a * (1.0 - t) + b * t, a + (b - a) * t), 6)
}

impl Grid<'_> {
    fn last_node(&self) -> Vec3 {
        let [x, y, z] = self.sides.map(|side| (side - 1) as f64);
        self.origin + self.spacing * Vec3::new(x, y, z)
    }

    /// From the near side of the box to the far side; a miss where the ray does not meet it.
    fn interval(&self, ray: &Ray) -> Step<(f64, f64)> {
        let (low, high) = (
            least(self.origin, self.last_node()),
            greatest(self.origin, self.last_node()),
        );
        if !low.is_finite() || !high.is_finite() {
            return refuse(5);
        }
        let (low, high) = (low.to_array(), high.to_array());
        if ray.near > 0.0 {
            changed(NEAR_GRID);
        }
        let (mut entry, mut exit) = (or(NearGrid, ray.near, 0.0), ray.maximum);
        for axis in 0..3 {
            let (origin, direction) = (ray.origin[axis], ray.direction[axis]);
            if direction.abs() <= or(GridParallelZero, f64::MIN_POSITIVE, 0.0) {
                if (origin < low[axis] || origin > high[axis]) && !slipped(GridParallel) {
                    return Err(Stop::Miss);
                }
                continue;
            }
            let (first, second) = (
                (low[axis] - origin) / direction,
                (high[axis] - origin) / direction,
            );
            if slipped(GridEntry) && axis == 0 {
                entry = minimum(first, second);
            }
            entry = maximum(entry, minimum(first, second));
            exit = minimum(exit, maximum(first, second));
            if entry > exit || (slipped(GridOpen) && entry == exit) {
                return Err(Stop::Miss);
            }
        }
        if exit < 0.0 || entry > ray.maximum {
            return Err(Stop::Miss);
        }
        Ok((or(GridEntry, maximum(entry, 0.0), entry), exit))
    }

    /// The cell that the ray goes into at a point.
    fn cells(&self, point: Vec3, direction: Vec3) -> Step<[usize; 3]> {
        let (point, direction) = (point.to_array(), direction.to_array());
        let (origin, spacing) = (self.origin.to_array(), self.spacing.to_array());
        let mut cells = [0; 3];
        for axis in 0..3 {
            let coordinate = finite((point[axis] - origin[axis]) / spacing[axis], 6)?;
            let nearest = round(coordinate);
            let slack = EPS * maximum(coordinate.abs(), 1.0) * or(CellSlack, 16.0, 1.0);
            let back = direction[axis] < 0.0
                && (coordinate - nearest).abs() <= slack
                && nearest > 0.0
                && !slipped(CellBack);
            let cell = if back {
                nearest as usize - 1
            } else {
                coordinate.floor() as usize
            };
            cells[axis] = cell.min(self.sides[axis] - 2);
        }
        Ok(cells)
    }

    fn next_boundary(
        &self,
        current: f64,
        point: Vec3,
        direction: Vec3,
        cells: [usize; 3],
        exit: f64,
    ) -> Step<f64> {
        let (point, direction) = (point.to_array(), direction.to_array());
        let (origin, spacing) = (self.origin.to_array(), self.spacing.to_array());
        let mut next = or(CellEnd, exit, f64::INFINITY);
        for axis in 0..3 {
            if direction[axis] == 0.0 {
                continue;
            }
            let ahead = cells[axis] + usize::from(direction[axis] > 0.0);
            let boundary = origin[axis] + spacing[axis] * ahead as f64;
            let distance = finite((boundary - point[axis]) / direction[axis], 6)?;
            let slack = EPS * maximum(point[axis].abs(), 1.0) * 16.0;
            if distance > or(BoundaryNear, slack, 0.0) {
                next = minimum(next, current + distance);
            }
        }
        Ok(next)
    }

    fn place(&self, axis: usize, point: f64) -> Step<(usize, f64)> {
        let (origin, spacing) = (self.origin.to_array()[axis], self.spacing.to_array()[axis]);
        let coordinate = finite((point - origin) / spacing, 6)?;
        let coordinate = coordinate.clamp(0.0, (self.sides[axis] - 1) as f64);
        let cell = (coordinate.floor() as usize).min(self.sides[axis] - 2);
        let fraction = (coordinate - cell as f64).clamp(0.0, 1.0);
        if slipped(SampleLast) && fraction == 1.0 {
            return Ok((cell, 0.0));
        }
        Ok((cell, fraction))
    }

    /// The point "drawn onto the box or, if still refused, moved to the nearest it admits" (M-103): on each axis the origin below
    /// it, above the last node that node, or the float below where the way from the origin to it is not finite.
    fn drawn(&self, point: Vec3) -> Vec3 {
        let (origin, last) = (self.origin.to_array(), self.last_node().to_array());
        let (point, spacing) = (point.to_array(), self.spacing.to_array());
        Vec3::from_array([0, 1, 2].map(|axis| {
            let admitted = ((last[axis] - origin[axis]) / spacing[axis]).is_finite();
            if point[axis] < origin[axis] {
                origin[axis]
            } else if point[axis] <= last[axis] {
                point[axis]
            } else if admitted {
                let below = or(SampleBelow, last[axis], last[axis].next_down());
                or(SampleOutside, below, origin[axis])
            } else {
                last[axis].next_down()
            }
        }))
    }

    fn value(&self, x: usize, y: usize, z: usize) -> f64 {
        self.values[(z * self.sides[1] + y) * self.sides[0] + x]
    }

    fn sample(&self, point: Vec3) -> Step<Sample> {
        if !point.is_finite() {
            return refuse(6);
        }
        let point = self.drawn(point);
        let (x, tx) = self.place(0, point.x)?;
        let (y, ty) = self.place(1, point.y)?;
        let (z, tz) = self.place(2, point.z)?;
        let corner = |i: usize, j: usize, k: usize| self.value(x + i, y + j, z + k);
        let value = || -> Step<f64> {
            let x00 = lerp(corner(0, 0, 0), corner(1, 0, 0), tx)?;
            let x10 = lerp(corner(0, 1, 0), corner(1, 1, 0), tx)?;
            let x01 = lerp(corner(0, 0, 1), corner(1, 0, 1), tx)?;
            let x11 = lerp(corner(0, 1, 1), corner(1, 1, 1), tx)?;
            lerp(lerp(x00, x10, ty)?, lerp(x01, x11, ty)?, tz)
        };
        let value = value()?;
        let slope = |a: f64, b: f64, spacing: f64| -> Step<f64> { Ok(finite(a - b, 6)? / spacing) };
        let flat =
            |a: Step<f64>, b: Step<f64>, c: Step<f64>, d: Step<f64>, s: f64, t: f64| -> Step<f64> {
                lerp(lerp(a?, b?, s)?, lerp(c?, d?, s)?, t)
            };
        let dx = |j, k| slope(corner(1, j, k), corner(0, j, k), self.spacing.x);
        let dy = |i, k| slope(corner(i, 1, k), corner(i, 0, k), self.spacing.y);
        let dz = |i, j| slope(corner(i, j, 1), corner(i, j, 0), self.spacing.z);
        let gradient = || -> Step<Vec3> {
            let gradient = Vec3::new(
                flat(dx(0, 0), dx(1, 0), dx(0, 1), dx(1, 1), ty, tz)?,
                flat(dy(0, 0), dy(1, 0), dy(0, 1), dy(1, 1), tx, tz)?,
                flat(dz(0, 0), dz(1, 0), dz(0, 1), dz(1, 1), tx, ty)?,
            );
            if gradient.is_finite() {
                Ok(gradient)
            } else {
                refuse(6)
            }
        };
        let gradient = match gradient() {
            Err(_) if slipped(SampleGradient) => Vec3::new(0.0, 0.0, 0.0),
            gradient => gradient?,
        };
        Ok(Sample { value, gradient })
    }

    fn hit(&self, ray: &Ray, point: Vec3, distance: f64) -> Step<(Vec3, f64)> {
        let sample = self.sample(point)?;
        let normal = normalised(sample.gradient).ok_or(Stop::Refused(or(GradientLength, 8, 7)))?;
        let away = slipped(GradientFacing) && dot(normal, Vec3::from_array(ray.direction)) > 0.0;
        Ok((if away { -normal } else { normal }, distance))
    }

    fn cast(&self, ray: &Ray) -> Step<(Vec3, f64)> {
        let (origin, direction) = (
            Vec3::from_array(ray.origin),
            Vec3::from_array(ray.direction),
        );
        let (mut current, exit) = self.interval(ray)?;
        let sum: usize = self.sides.iter().sum();
        let more = or(CellsThree, or(CellsFive, or(CellsMany, 4, 100_000), 5), 3);
        for _ in 0..sum + more {
            if current > exit {
                return Err(Stop::Miss);
            }
            let point = origin + direction * current;
            let cells = self.cells(point, direction)?;
            let next = self.next_boundary(current, point, direction, cells, exit)?;
            if next <= current {
                let value = self.sample(point)?.value;
                if value == 0.0 && !slipped(StoppedValue) {
                    return self.hit(ray, point, current);
                }
                return Err(Stop::Miss);
            }
            let end = or(CellEnd, minimum(next, exit), next);
            let at = |fraction: f64| current + (end - current) * fraction;
            let fractions = or(
                SampleThirds,
                [0.0, 1.0 / 3.0, 2.0 / 3.0, 1.0],
                [0.0, 0.25, 0.75, 1.0],
            );
            let mut values = [0.0; 4];
            for (value, fraction) in values.iter_mut().zip(fractions) {
                *value = self.sample(origin + direction * at(fraction))?.value;
            }
            if let Some(fraction) = first_cubic_root(values)? {
                let distance = at(fraction);
                return self.hit(ray, origin + direction * distance, distance);
            }
            if end >= exit {
                return Err(Stop::Miss);
            }
            current = end;
        }
        refuse(8)
    }
}

fn turning_points(a: f64, b: f64, c: f64) -> Vec<f64> {
    let (da, db) = (3.0 * a, 2.0 * b);
    let inside = |points: &[f64]| {
        points
            .iter()
            .copied()
            .filter(|&u| u > 0.0 && u < 1.0)
            .collect()
    };
    if slipped(RootTurns) {
        return Vec::new();
    }
    if da.abs() <= EPS * maximum(b.abs(), 1.0) {
        return if db != 0.0 && !slipped(RootLinear) {
            inside(&[-c / db])
        } else {
            Vec::new()
        };
    }
    let discriminant = db * db - 4.0 * da * c;
    if !(discriminant >= 0.0) || (slipped(RootDouble) && discriminant == 0.0) {
        return Vec::new();
    }
    let root = discriminant.sqrt();
    inside(&[(-db - root) / (2.0 * da), (-db + root) / (2.0 * da)])
}

fn first_cubic_root([y0, y1, y2, y3]: [f64; 4]) -> Step<Option<f64>> {
    let delta1 = y1 - y0;
    let delta2 = y2 - 2.0 * y1 + y0;
    let delta3 = y3 - 3.0 * y2 + 3.0 * y1 - y0;
    let coefficients = [
        4.5 * delta3,
        4.5 * (delta2 - delta3),
        3.0 * delta1 - 1.5 * delta2 + delta3,
        y0,
    ];
    if !coefficients.iter().all(|value| value.is_finite()) {
        return if slipped(RootOverflow) {
            Ok(None)
        } else {
            refuse(6)
        };
    }
    let [a, b, c, d] = coefficients;
    let mut points = vec![0.0, 1.0];
    points.extend(turning_points(a, b, c));
    points.sort_by(f64::total_cmp);
    let evaluate = |u: f64| ((a * u + b) * u + c) * u + d;
    let scale = coefficients
        .iter()
        .map(|value| value.abs())
        .fold(or(RootScale, 1.0, 0.0), maximum);
    let tolerance = scale * EPS * or(RootTolerance, 64.0, 32.0);
    for ends in points.windows(2) {
        let (low, high) = (ends[0], ends[1]);
        let accepted = |u: f64| evaluate(u).abs() <= tolerance;
        let order = or(RootHighFirst, [low, high], [high, low]);
        if let Some(end) = order.into_iter().find(|&u| accepted(u)) {
            return Ok(Some(end));
        }
        if evaluate(low).is_sign_positive() != evaluate(high).is_sign_positive() {
            return Ok(Some(halved(low, high, tolerance, evaluate)));
        }
    }
    Ok(None)
}

fn halved(mut low: f64, mut high: f64, tolerance: f64, evaluate: impl Fn(f64) -> f64) -> f64 {
    let mut low_value = evaluate(low);
    for _ in 0..or(Halvings63, or(Halvings65, 64, 65), 63) {
        let middle = low * 0.5 + high * 0.5;
        let value = evaluate(middle);
        if value.abs() <= tolerance && !slipped(HalvingEarly) {
            return middle;
        }
        if value.is_sign_positive() == low_value.is_sign_positive() {
            (low, low_value) = (middle, value);
        } else {
            high = middle;
        }
    }
    low * 0.5 + high * 0.5
}
