//! What is expected of a part's rows, and whether a report agrees: each that is known stands in it once, and nothing else
//! does. Positions, sizes and depths are held to 0.01 mm.
#![allow(dead_code)]
use crate::board::{mapped, single, Chance, Place, Point, Side};
use probe_part::model::{End, Kind, Outline, Part, Report, Row};
use probe_part::recognise::{recognise, Options};
use probe_part::shape::Shape;
use probe_part::tables::{table, Listing};
use probe_rays::stl::Corners;
use probe_rays::{Ray, Scratch};

pub const NEAR: f64 = 0.01;

/// What is expected of a row, in the coordinates that the board was made in.
#[derive(Clone, Debug)]
pub struct Known {
    pub kind: Kind,
    /// The outline's word and its measures.
    pub outline: (&'static str, Vec<f64>),
    pub centre: Point,
    pub axis: Point,
    pub entry: f64,
    pub depth: f64,
    pub through: bool,
}

pub fn known(
    kind: Kind,
    word: &'static str,
    sizes: &[f64],
    side: Side,
    centre: Point,
    entry: f64,
    depth: f64,
) -> Known {
    Known {
        kind,
        outline: (word, sizes.to_vec()),
        centre,
        axis: side.axis(),
        entry,
        depth,
        through: false,
    }
}

/// A bore from a face of a board; an infinite depth is through.
pub fn bore(size: Point, side: Side, middle: Place, diameter: f64, depth: f64) -> Known {
    let through = depth.is_infinite();
    Known {
        through,
        ..known(
            Kind::Bore,
            "circle",
            &[diameter],
            side,
            side.at(size, middle, 0.0),
            0.0,
            depth.min(side.thickness(size)),
        )
    }
}

/// A move of space: it keeps lengths, and may mirror.
#[derive(Clone, Copy, Debug)]
pub struct Pose {
    pub axes: [Point; 3],
    pub origin: Point,
    pub mirrors: bool,
}

impl Pose {
    pub const STILL: Pose = Pose {
        axes: [[1.0, 0.0, 0.0], [0.0, 1.0, 0.0], [0.0, 0.0, 1.0]],
        origin: [0.0; 3],
        mirrors: false,
    };

    /// A turn by a quaternion of chance, a move, and perhaps a mirror.
    pub fn of_chance(chance: &mut Chance, mirrors: bool) -> Pose {
        let q: [f64; 4] = std::array::from_fn(|_| chance.between(-1.0, 1.0));
        let long = q.iter().map(|part| part * part).sum::<f64>().sqrt();
        let [w, x, y, z] = q.map(|part| part / long);
        let sign = if mirrors { -1.0 } else { 1.0 };
        Pose {
            axes: [
                [
                    sign * (1.0 - 2.0 * (y * y + z * z)),
                    sign * (2.0 * (x * y + w * z)),
                    sign * (2.0 * (x * z - w * y)),
                ],
                [
                    2.0 * (x * y - w * z),
                    1.0 - 2.0 * (x * x + z * z),
                    2.0 * (y * z + w * x),
                ],
                [
                    2.0 * (x * z + w * y),
                    2.0 * (y * z - w * x),
                    1.0 - 2.0 * (x * x + y * y),
                ],
            ],
            origin: std::array::from_fn(|_| chance.between(-500.0, 500.0)),
            mirrors,
        }
    }

    pub fn way(&self, way: Point) -> Point {
        std::array::from_fn(|k| (0..3).map(|n| way[n] * self.axes[n][k]).sum())
    }

    pub fn place(&self, point: Point) -> Point {
        let way = self.way(point);
        std::array::from_fn(|k| way[k] + self.origin[k])
    }
}

fn word(outline: &Outline) -> (&'static str, Vec<f64>) {
    match outline {
        Outline::Circle { diameter, .. } => ("circle", vec![*diameter]),
        Outline::Ring { outer, inner } => ("ring", vec![*outer, *inner]),
        Outline::Rectangle { size, .. } => ("rectangle", size.to_vec()),
        Outline::Rounded { size, radius, .. } => ("rounded", vec![size[0], size[1], *radius]),
        Outline::Slot { size, .. } => ("slot", size.to_vec()),
        Outline::Arc {
            width,
            radius,
            sweep,
        } => ("arc", vec![*width, *radius, *sweep]),
        Outline::Other { size } => ("other", size.to_vec()),
    }
}

fn apart(a: Point, b: Point) -> f64 {
    (0..3).map(|k| (a[k] - b[k]).powi(2)).sum::<f64>().sqrt()
}

fn agrees(part: &Part, row: &Row, known: &Known, pose: &Pose, near: f64) -> bool {
    let (found, mut sizes) = word(&row.outline);
    let mut wanted = known.outline.1.clone();
    // which side of a rectangle comes first depends on how the part lies
    if ["rectangle", "rounded", "slot", "other"].contains(&found)
        && sizes.len() >= 2
        && wanted.len() >= 2
    {
        sizes[..2].sort_by(f64::total_cmp);
        wanted[..2].sort_by(f64::total_cmp);
    }
    let same_size = found == known.outline.0
        && sizes.len() == wanted.len()
        && sizes
            .iter()
            .zip(&wanted)
            .all(|(a, b)| (a - b).abs() <= near);
    let (centre, axis) = (
        part.frame.place_in_file(row.centre),
        part.frame.direction_in_file(row.axis),
    );
    let placed = |at: Point, way: Point| {
        apart(centre, pose.place(at)) <= near && apart(axis, pose.way(way)) <= 1e-3
    };
    // what goes through may be entered from either end
    let far: Point = std::array::from_fn(|k| known.centre[k] + known.axis[k] * known.depth);
    let back = known.axis.map(|part| -part);
    let is_placed = placed(known.centre, known.axis) || (known.through && placed(far, back));
    row.kind == known.kind
        && same_size
        && is_placed
        && (known.through || (row.entry_depth - known.entry).abs() <= near)
        && (row.depth - known.depth).abs() <= near
        && (row.end == End::Through) == known.through
        && row.is_confirmed()
}

/// Points nearer than this to a surface of a row say nothing: sides of circles lie within them by less.
const BAND: f64 = 0.6;

/// Whether a row takes away the material at a place of the part's frame; none near its border.
fn takes(part: &Part, row: &Row, point: Point) -> Option<bool> {
    let from: Point = std::array::from_fn(|k| point[k] - row.centre[k]);
    let height: f64 = (0..3).map(|k| from[k] * row.axis[k]).sum();
    let outward: Point = std::array::from_fn(|k| from[k] - height * row.axis[k]);
    let radius = outward.iter().map(|part| part * part).sum::<f64>().sqrt();
    let within = |low: f64, value: f64, high: f64| {
        if (value - low).abs() < BAND || (value - high).abs() < BAND {
            None
        } else {
            Some(low < value && value < high)
        }
    };
    // from a face all that is above the entry is outside the part
    let low = if row.within.is_none() {
        f64::NEG_INFINITY
    } else {
        0.0
    };
    let high = match row.end {
        End::Through => f64::INFINITY,
        End::OpensInto(_) if height > row.depth - BAND && height < row.depth + BAND => return None,
        _ => row.depth,
    };
    let deep = within(low, height, high);
    let across = match &row.outline {
        Outline::Circle { diameter, sides } => {
            // between the circle and its sides
            let apothem = diameter / 2.0 * (std::f64::consts::PI / *sides as f64).cos();
            if radius > apothem - BAND && radius < diameter / 2.0 + BAND {
                return None;
            }
            let wide = match row.cone {
                Some(angle) => diameter / 2.0 - height * (angle / 2.0).to_radians().tan(),
                None => diameter / 2.0,
            };
            if let (End::Tip { angle, depth }, None) = (row.end, row.cone) {
                let cone = (depth - height) * (angle / 2.0).to_radians().tan();
                return within(f64::NEG_INFINITY, radius, wide.min(cone.max(0.0)));
            }
            within(f64::NEG_INFINITY, radius, wide)
        }
        Outline::Ring { outer, inner } => within(inner / 2.0, radius, outer / 2.0),
        _ => in_polygon(part, row, point),
    };
    match (deep, across) {
        (Some(false), _) | (_, Some(false)) => Some(false),
        (Some(true), Some(true)) => Some(true),
        _ => None,
    }
}

/// Whether a place lies in the polygon around a row, seen along its axis.
fn in_polygon(_: &Part, row: &Row, point: Point) -> Option<bool> {
    let across = (0..3)
        .max_by(|&a, &b| row.axis[a].abs().total_cmp(&row.axis[b].abs()))
        .unwrap();
    let flat = |p: Point| -> Place { [p[(across + 1) % 3], p[(across + 2) % 3]] };
    let place = flat(point);
    let polygon: Vec<Place> = row.loops[0].iter().map(|&p| flat(p)).collect();
    let mut inside = false;
    for n in 0..polygon.len() {
        let (a, b) = (polygon[n], polygon[(n + 1) % polygon.len()]);
        let way = [b[0] - a[0], b[1] - a[1]];
        let long = way[0].hypot(way[1]).max(1e-12);
        let from = [place[0] - a[0], place[1] - a[1]];
        let share = ((from[0] * way[0] + from[1] * way[1]) / long).clamp(0.0, long);
        let off = [
            from[0] - way[0] / long * share,
            from[1] - way[1] / long * share,
        ];
        if off[0].hypot(off[1]) < BAND {
            return None;
        }
        let crosses = (a[1] > place[1]) != (b[1] > place[1]);
        if crosses && place[0] < a[0] + (place[1] - a[1]) / way[1] * way[0] {
            inside = !inside;
        }
    }
    Some(inside)
}

/// Whether the rows explain where there is material: the place lies within the outer faces and no row takes it away.
fn has_material(part: &Part, point: Point) -> Option<bool> {
    for face in &part.faces {
        let off: f64 = (0..3)
            .map(|k| (point[k] - face.point[k]) * face.normal[k])
            .sum();
        if face.radius.is_none() && off > -BAND {
            return None;
        }
    }
    let mut material = true;
    for (number, row) in part.rows.iter().enumerate() {
        if matches!(row.kind, Kind::Island | Kind::Boss) {
            continue;
        }
        if takes(part, row, point)? {
            let islands = part
                .rows
                .iter()
                .filter(|other| other.kind == Kind::Island && other.within == Some(number));
            let mut stands = false;
            for island in islands {
                stands |= takes(
                    part,
                    &Row {
                        within: Some(0),
                        ..island.clone()
                    },
                    point,
                )?;
            }
            material &= stands;
        }
    }
    Some(material)
}

/// Places of chance within the part's box: the mesh has material there, by counting its surfaces above, exactly where the
/// rows leave some.
pub fn explains(facets: &[Corners], part: &Part, seed: u64) {
    let shape = Shape::of(facets).unwrap();
    let mut chance = Chance(seed);
    let mut scratch = Scratch::new();
    let (mut asked, mut empty) = (0, 0);
    for _ in 0..1000 {
        let point: Point = std::array::from_fn(|k| chance.between(part.low[k], part.high[k]));
        let Some(expected) = has_material(part, point) else {
            continue;
        };
        let way = part.frame.direction_in_file([0.0613, 0.0289, 0.9977]);
        let ray = Ray::toward(part.frame.place_in_file(point), way, 10_000.0);
        let above = shape.cast_all(&ray, &mut scratch).unwrap().len();
        assert_eq!(above % 2 == 1, expected, "at {point:?} of {:#?}", part.rows);
        asked += 1;
        empty += usize::from(!expected);
    }
    assert!(asked > 200, "{asked} places, {empty} of them empty");
}

/// The report of facets as a file would have them.
pub fn report(facets: &[Corners]) -> Report {
    recognise(&Shape::of(&single(facets)).unwrap(), &Options::default()).unwrap()
}

/// A certain report of one part, whose rows are those that are known.
pub fn hold(facets: &[Corners], all: &[Known]) -> Part {
    hold_posed(facets, all, &Pose::STILL)
}

/// The same of the part in a pose.
pub fn hold_posed(facets: &[Corners], all: &[Known], pose: &Pose) -> Part {
    let facets = mapped(facets, |point| pose.place(point), pose.mirrors);
    let part = hold_report(report(&facets), all, pose, NEAR);
    explains(&single(&facets), &part, all.len() as u64);
    part
}

/// A certain report of one part in a pose, whose rows are those that are known, to within a length.
pub fn hold_report(mut report: Report, all: &[Known], pose: &Pose, near: f64) -> Part {
    let listed = table(&report, &Listing::default());
    assert!(report.is_certain(), "{pose:?} {listed}");
    assert_eq!(report.parts.len(), 1);
    let part = report.parts.pop().unwrap();
    for known in all {
        let count = part
            .rows
            .iter()
            .filter(|row| agrees(&part, row, known, pose, near))
            .count();
        assert_eq!(count, 1, "{known:?} in {pose:?} {listed}");
    }
    assert_eq!(part.rows.len(), all.len(), "{listed}");
    part
}

/// Lying still, and in some poses of chance, mirrored ones too.
pub fn hold_anywhere(facets: &[Corners], all: &[Known], seed: u64) {
    hold(facets, all);
    let mut chance = Chance(seed);
    for mirrors in [false, true, false, true] {
        let pose = Pose::of_chance(&mut chance, mirrors);
        hold_posed(facets, all, &pose);
    }
}
