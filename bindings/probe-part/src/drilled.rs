//! Bores and countersinks: the round surfaces that are seen from within, along their axes.
use crate::geometry::{along, dot, scale, unit, Vector};
use crate::islands::middle_of;
use crate::model::{Kind, Outline};
use crate::rims::{plane, rims, turned, Beyond, Rim};
use crate::rounds::Round;
use crate::work::{probes_beside, Draft, DraftEnd, Edge, Probe, Work};

/// Probes start so far before an outer face, in millimetres.
const BEFORE: f64 = 1.0;

/// Probes start so far before the entry of a row that lies within another.
const BEFORE_WITHIN: f64 = 0.2;

/// How far a probe may be off a surface, in millimetres.
pub const NEAR: f64 = 0.01;

/// How far the triangles of a round wall may lie within it, as a share of its radius: sides of 45 degrees.
const BULGE: f64 = 0.08;

/// The surface beside an end is looked at so far from it, in millimetres, and at no more places than this.
const BESIDE: f64 = 0.02;
const SEEN_FROM: usize = 6;

/// A floor across an axis leans by less: 0.1 degrees.
const LEAN: f64 = 2e-6;

/// Adds the bores and countersinks of all concave round surfaces.
pub fn add_bores(work: &mut Work<'_>) {
    let all: Vec<(u32, Vec<Rim>)> = (0..work.rounds.all.len() as u32)
        .filter(|&n| {
            work.rounds.all[n as usize].is_concave
                && !work.rounds.all[n as usize].regions.is_empty()
        })
        .map(|n| (n, rims(work, n)))
        .collect();
    for (number, rims) in &all {
        if !is_tip(work, *number, rims) {
            add_bore(work, *number, rims, &all);
        }
    }
}

/// Whether a surface is a drill's tip: a cone to a point, below another round surface.
fn is_tip(work: &Work<'_>, number: u32, rims: &[Rim]) -> bool {
    let round = &work.rounds.all[number as usize];
    matches!(rims, [rim] if !round.is_cylinder() && matches!(rim.beyond, Beyond::Round(_)))
}

/// How well an end serves as the entry: less is better; none where it cannot be one.
fn entry_order(work: &Work<'_>, number: u32, rim: &Rim) -> Option<f64> {
    let round = &work.rounds.all[number as usize];
    let middle = (round.low + round.high) / 2.0;
    let outwards = scale(round.axis.direction, (rim.mean - middle).signum());
    // a cone is entered at its wide end
    if !round.is_cylinder() && round.radius_at(rim.mean) < round.radius_at(middle) {
        return None;
    }
    match rim.beyond {
        Beyond::Face(face) => Some(f64::from(face)),
        Beyond::Partly(face) => Some(f64::from(face) + 50.0),
        // what opens in the floor of another row is entered from there; what opens in a wall, only where it has no other end
        Beyond::Level(region) => {
            let order = work.order_of(work.normal(region));
            let is_floor = is_seen_beside(work, round, rim, outwards);
            Some(if is_floor {
                order - 20.0
            } else {
                order + 200.0
            })
        }
        Beyond::Floor(_) => None,
        Beyond::Round(other) => {
            let other = &work.rounds.all[other as usize];
            let coaxial = dot(other.axis.direction, round.axis.direction).abs() > 1.0 - 1e-6;
            let further = if rim.mean > middle { 1.0 } else { -1.0 };
            let way = further * dot(other.axis.direction, round.axis.direction).signum();
            let wider = other.slope * way > 0.0 || (!round.is_cylinder() && other.is_cylinder());
            if coaxial && wider {
                Some(work.order_of(outwards) - 10.0)
            } else if coaxial {
                None
            } else {
                Some(100.0)
            }
        }
        Beyond::Mixed => None,
    }
}

/// Whether the surface beside an end is seen from far outside, in a direction: a floor is, and the wall of a pocket is not.
fn is_seen_beside(work: &Work<'_>, round: &Round, rim: &Rim, outwards: Vector) -> bool {
    let step = rim.edges.len().div_ceil(SEEN_FROM).max(1);
    rim.edges.iter().step_by(step).all(|edge| {
        // beyond the circle, so that no side of another bore about the same axis lies further out
        let aside = unit(round.axis.radial(edge.from));
        let height = round.axis.height(edge.from);
        let beside = along(
            round.axis.at(height),
            aside,
            BESIDE + round.radius_at(height),
        );
        (work.sight)(along(beside, outwards, BESIDE), outwards)
    })
}

/// A bore that is measured: its surface, its ends, and where it lies.
struct Drilled<'a> {
    round: Round,
    entry: &'a Rim,
    last: Option<&'a Rim>,
    /// Where its axis meets its entry.
    centre: Vector,
    /// The direction into the part.
    axis: Vector,
    /// From its entry to its other end.
    depth: f64,
    /// The height of its entry along the round surface's axis.
    from: f64,
    /// The height of its other end.
    to: f64,
}

fn add_bore(work: &mut Work<'_>, number: u32, rims: &[Rim], all: &[(u32, Vec<Rim>)]) {
    let Some(bore) = measured(work, number, rims) else {
        return;
    };
    let mut regions = bore.round.regions.clone();
    let (end, floor) = ending(work, &bore, all, &mut regions);
    let draft = draft(work, &bore, end, floor);
    work.add(draft, regions);
}

/// The bore of a round surface, from the end that serves best as its entry.
fn measured<'a>(work: &Work<'_>, number: u32, rims: &'a [Rim]) -> Option<Drilled<'a>> {
    let round = work.rounds.all[number as usize].clone();
    let order = |rim: &&Rim| entry_order(work, number, rim);
    let entry = rims
        .iter()
        .filter(|rim| order(rim).is_some())
        .min_by(|a, b| order(a).unwrap_or(9e9).total_cmp(&order(b).unwrap_or(9e9)))?;
    let last = rims.iter().find(|rim| !std::ptr::eq(*rim, entry));
    let height = |rim: &Rim| {
        let met = plane(work, rim).and_then(|(normal, offset)| round.axis.meets(normal, offset));
        met.or_else(|| meets_round(work, &round, rim))
            .unwrap_or(rim.mean)
    };
    let from = height(entry);
    let to = match last {
        Some(rim) => height(rim),
        // a cone to a point
        None if !round.is_cylinder() => -round.radius / round.slope,
        None => return None,
    };
    Some(Drilled {
        axis: scale(round.axis.direction, (to - from).signum()),
        centre: round.axis.at(from),
        depth: (to - from).abs(),
        from,
        to,
        round,
        entry,
        last,
    })
}

/// The row of a bore that ends so, and whose axis meets a surface between two depths.
fn draft(work: &Work<'_>, bore: &Drilled<'_>, end: DraftEnd, floor: [f64; 2]) -> Draft {
    let Drilled {
        round, entry, last, ..
    } = bore;
    let (face, entry_depth) = match entry.beyond {
        Beyond::Face(face) | Beyond::Partly(face) => (Some(face), 0.0),
        _ => match work.face_reached(bore.axis, bore.centre) {
            Some((face, below)) => (Some(face), below),
            None => (None, 0.0),
        },
    };
    let within = match entry.beyond {
        Beyond::Level(_) | Beyond::Round(_) => entry.edges.first().map(|edge| edge.across),
        _ => None,
    };
    // where an end lies in no plane, what it takes away is known between the end's heights
    let spread = |rim: &Rim, height: f64| match plane(work, rim) {
        Some(_) => 0.0,
        None => rim.high - rim.low + (height - rim.mean).abs(),
    };
    let spread = spread(entry, bore.from) + last.map_or(0.0, |rim| spread(rim, bore.to));
    let is_countersink = !round.is_cylinder();
    Draft {
        kind: if is_countersink {
            Kind::Countersink
        } else {
            Kind::Bore
        },
        face,
        outline: Outline::Circle {
            diameter: 2.0 * round.radius_at(bore.from),
            sides: round.sides,
        },
        centre: bore.centre,
        axis: bore.axis,
        entry_depth,
        depth: bore.depth,
        end,
        cone: is_countersink.then(|| 2.0 * round.slope.abs().atan().to_degrees()),
        within,
        open: Vec::new(),
        loops: vec![entry.edges.iter().map(|edge| edge.from).collect()],
        volume: volume(bore, end, spread),
        probes: probes(work, bore, floor),
    }
}

/// Probes down the axis of a bore, and beside its outline where that lies in a plane.
fn probes(work: &Work<'_>, bore: &Drilled<'_>, floor: [f64; 2]) -> Vec<Probe> {
    let Drilled { entry, axis, .. } = *bore;
    let is_outside = matches!(entry.beyond, Beyond::Face(_) | Beyond::Partly(_));
    let before = if is_outside { BEFORE } else { BEFORE_WITHIN };
    // where the floor has a hole, or what stands on it, the axis does not meet it
    let down = match bore.last.map(|rim| rim.beyond) {
        Some(Beyond::Floor(floor)) if work.regions.all[floor as usize].loops.len() > 1 => {
            along(middle_of(work, floor), axis, -bore.depth - before)
        }
        _ => along(bore.centre, axis, -before),
    };
    let mut probes = vec![Probe {
        what: "down its axis",
        from: down,
        way: axis,
        expected: [floor[0] - NEAR + before, floor[1] + NEAR + before],
    }];
    if let Some(entry_plane) = plane(work, entry) {
        probes.extend(outline_probes(work, bore, floor, entry_plane, before));
    }
    probes
}

/// Probes just inside and just outside the outline of a bore, which lies in a plane.
fn outline_probes(
    work: &Work<'_>,
    bore: &Drilled<'_>,
    floor: [f64; 2],
    entry_plane: (Vector, f64),
    before: f64,
) -> Vec<Probe> {
    let Drilled {
        round, entry, last, ..
    } = bore;
    // where an end lies aslant, depths differ from side to side
    let aslant = [Some(*entry), *last].map(|rim| rim.map_or(0.0, |rim| (rim.high - rim.low) / 2.0));
    let aslant = NEAR + aslant[0] + aslant[1];
    let inside = if round.is_cylinder() {
        [bore.depth.min(floor[0]) - aslant, floor[1] + aslant]
    } else {
        [0.0, floor[1] + NEAR]
    };
    // sides that are not straight strips bulge inwards between their corners
    let is_plain = round.regions.len() == round.sides;
    let bulge = if is_plain {
        0.0
    } else {
        BULGE * round.radius_at(bore.from)
    };
    // beside another row's surface the plane of the entry is not met
    let on_plane = |point: Vector| (dot(point, entry_plane.0) - entry_plane.1).abs() <= NEAR;
    let edges: Vec<Edge> = turned(&entry.edges, bore.axis)
        .into_iter()
        .filter(|edge| on_plane(edge.from) && on_plane(edge.to))
        .filter(|edge| work.regions.all[edge.across as usize].offset - entry_plane.1 <= NEAR)
        .collect();
    probes_beside(&edges, bore.axis, entry_plane, inside, before, bulge)
}

/// The height at which the axis meets the cylinder that an end opens into, or the round outer face that it opens in.
fn meets_round(work: &Work<'_>, round: &Round, rim: &Rim) -> Option<f64> {
    let (other, radius) = match rim.beyond {
        Beyond::Round(other) => {
            let other = &work.rounds.all[other as usize];
            other.is_cylinder().then_some((other.axis, other.radius))?
        }
        Beyond::Face(face) | Beyond::Partly(face) => work.outer.cylinders[face as usize]?,
        _ => return None,
    };
    // the distance from the other axis is a square of the height: a·h² + 2·b·h + c
    let across = |way: Vector| {
        let along_axis = dot(way, other.direction);
        crate::geometry::subtract(way, scale(other.direction, along_axis))
    };
    let (way, from) = (across(round.axis.direction), other.radial(round.axis.point));
    let (a, b) = (dot(way, way), dot(way, from));
    let root = b * b - a * (dot(from, from) - radius * radius);
    if a < 1e-9 || root < 0.0 {
        return None;
    }
    let heights = [-1.0, 1.0].map(|sign| (-b + sign * root.sqrt()) / a);
    let off = |height: f64| (height - rim.mean).abs();
    Some(if off(heights[0]) < off(heights[1]) {
        heights[0]
    } else {
        heights[1]
    })
}

/// How a bore ends, and between which depths its axis meets a surface.
fn ending(
    work: &Work<'_>,
    bore: &Drilled<'_>,
    all: &[(u32, Vec<Rim>)],
    regions: &mut Vec<u32>,
) -> (DraftEnd, [f64; 2]) {
    let (round, depth) = (&bore.round, bore.depth);
    let Some(rim) = bore.last else {
        let angle = 2.0 * round.slope.abs().atan().to_degrees();
        return (DraftEnd::Tip(angle, depth), [depth; 2]);
    };
    let open = [depth - (rim.high - rim.low), f64::INFINITY];
    match rim.beyond {
        Beyond::Face(_) | Beyond::Partly(_) => (DraftEnd::Through, open),
        Beyond::Level(region) => (DraftEnd::Into(region), open),
        Beyond::Floor(region) => {
            regions.push(region);
            // a floor that lies aslant is no floor that a drill leaves
            let across = dot(work.normal(region), round.axis.direction).abs();
            if across > 1.0 - LEAN {
                (DraftEnd::Floor, [depth; 2])
            } else {
                (DraftEnd::Unknown, [depth; 2])
            }
        }
        Beyond::Round(other) => {
            let tip = all
                .iter()
                .find(|(number, rims)| *number == other && is_tip(work, other, rims));
            let cone = &work.rounds.all[other as usize];
            match tip {
                Some(_) => {
                    regions.extend(&cone.regions);
                    let rise = round.radius / cone.slope.abs();
                    let angle = 2.0 * cone.slope.abs().atan().to_degrees();
                    (DraftEnd::Tip(angle, depth + rise), [depth + rise; 2])
                }
                None => (DraftEnd::Into(cone.regions[0]), open),
            }
        }
        Beyond::Mixed => (DraftEnd::Unknown, open),
    }
}

/// The volume between two ends, which may lie slanted.
fn volume(bore: &Drilled<'_>, end: DraftEnd, spread: f64) -> [f64; 2] {
    let Drilled {
        round,
        entry,
        last,
        depth,
        ..
    } = bore;
    let depth = *depth;
    let tip = match end {
        DraftEnd::Tip(_, to) if round.is_cylinder() => to - depth,
        _ => 0.0,
    };
    let circle = |radius: f64| std::f64::consts::PI * radius * radius;
    if round.is_cylinder() {
        let areas = [entry.area, last.map_or(entry.area, |rim| rim.area)];
        let [least, most] = [areas[0].min(areas[1]), areas[0].max(areas[1])];
        // how far the mesh may lie off the curve: by the area between the circle and its sides
        let deflection = (circle(round.radius) - least).max(0.0);
        // straight sides are as wide at both ends; others lie somewhere between the polygon and the circle
        let is_straight = round.regions.len() == round.sides;
        let slack = if is_straight { 0.0 } else { deflection };
        // the triangles of a tip have corners between its rim and its point, on the cone
        let tips = [least - deflection, most + deflection].map(|area| area * tip / 3.0);
        [
            (least - slack) * (depth - spread) + tips[0],
            (most + slack) * (depth + spread) + tips[1],
        ]
    } else {
        let narrow = last.map_or(0.0, |rim| rim.area);
        let both = (entry.area + narrow + (entry.area * narrow).sqrt()) * depth / 3.0;
        let slack = (circle(round.radius_at(entry.mean)) - entry.area).max(0.0) * depth;
        [both - slack, both + slack]
    }
}
