//! The part's own frame: z across its largest flat face, x along its longest side.
use crate::circles::{Circle, LEAST_SIDES};
use crate::geometry::{box_of, cross, dot, length, scale, subtract, unit, Sheet, Vector};
use crate::model::Frame;
use crate::planes::{Region, Regions};
use crate::rounds::off_round;
use crate::topology::Shell;

/// Directions nearer than this are one: 0.06 degrees.
const SAME_WAY: f64 = 1e-3;

/// At most so many directions of edges are told apart.
const MOST_WAYS: usize = 1024;

/// A direction nearer than this to one of the file's axes is that axis.
const ON_AXIS: f64 = 2e-6;

/// The own frame of a shell. It is the file's own where that has z across the largest flat face and x along the longest
/// side; else its zero lies in the least corner of the box around the part.
pub fn own_frame(shell: &Shell, regions: &Regions) -> Frame {
    let Some(normal) = largest_plane(regions) else {
        return Frame::AS_DRAWN;
    };
    let up = snapped(upright(normal));
    if is_round(shell, regions, up) {
        return with_axes(shell, unit(level(x_or_y(up), up)), up);
    }
    let side = longest_direction(shell, regions, up);
    let across = unit(cross(up, side));
    let wide = |way: Vector| {
        let heights = shell.vertices.iter().map(|&point| dot(point, way));
        let (low, high) = heights
            .fold((f64::INFINITY, f64::NEG_INFINITY), |(low, high), height| {
                (low.min(height), high.max(height))
            });
        high - low
    };
    let (one, other) = (wide(side), wide(across));
    let first = if (one - other).abs() <= 1e-6 * one.max(other) {
        // a square: the side that lies nearer to the file's x
        if side[0].abs() >= across[0].abs() {
            side
        } else {
            across
        }
    } else if one > other {
        side
    } else {
        across
    };
    with_axes(shell, first, up)
}

/// The frame with x along a direction, and z along another one across it.
fn with_axes(shell: &Shell, first: Vector, up: Vector) -> Frame {
    let first = snapped(upright(first));
    let axes = [first, snapped(unit(cross(up, first))), up];
    let turned = Frame {
        origin: [0.0; 3],
        axes,
    };
    if turned.is_as_drawn() {
        return turned;
    }
    let [low, _] = box_of(shell.vertices.iter().map(|&point| turned.direction(point)));
    Frame {
        origin: turned.direction_in_file(low),
        axes,
    }
}

/// The file's x, or its y where that lies along `up`.
fn x_or_y(up: Vector) -> Vector {
    if up[0].abs() < 0.9 {
        [1.0, 0.0, 0.0]
    } else {
        [0.0, 1.0, 0.0]
    }
}

/// A direction without what of it lies along another one.
fn level(way: Vector, up: Vector) -> Vector {
    subtract(way, scale(up, dot(way, up)))
}

/// Whether the largest face across a direction is round: no side of it says how it lies, and which way its corners make it
/// wider says nothing.
fn is_round(shell: &Shell, regions: &Regions, up: Vector) -> bool {
    let across = |region: &&Region| dot(region.normal, up).abs() > 1.0 - 1e-6;
    let largest = regions.all.iter().filter(across);
    let Some(largest) = largest.max_by(|a, b| a.area.total_cmp(&b.area)) else {
        return false;
    };
    let sheet = Sheet::of(largest.normal);
    let flat = |&vertex: &u32| sheet.flat(shell.vertices[vertex as usize]);
    largest.loops.first().is_some_and(|around| {
        let corners: Vec<[f64; 2]> = around.corners.iter().map(flat).collect();
        Circle::of_polygon(&corners, off_round(shell)).is_some()
    })
}

/// The normal of the plane that has the most surface.
fn largest_plane(regions: &Regions) -> Option<Vector> {
    let mut planes: Vec<(Vector, f64, f64)> = Vec::new();
    let mut order: Vec<&Region> = regions.all.iter().collect();
    order.sort_by(|a, b| b.area.total_cmp(&a.area));
    // what is small beside the largest does not decide
    let least = order.first()?.area / 64.0;
    for region in order.into_iter().take_while(|region| region.area >= least) {
        let same = planes.iter_mut().find(|(normal, offset, _)| {
            dot(*normal, region.normal) > 1.0 - 1e-8 && (*offset - region.offset).abs() < 0.01
        });
        match same {
            Some(plane) => plane.2 += region.area,
            None => planes.push((region.normal, region.offset, region.area)),
        }
    }
    // of planes of nearly the same area the one that leans least from the file's z, then from its y
    let most = planes.iter().map(|plane| plane.2).fold(0.0, f64::max);
    planes
        .into_iter()
        .filter(|plane| plane.2 >= most * (1.0 - 1e-6))
        .max_by(|a, b| {
            let lean = |normal: Vector| {
                (normal[2].abs() * 1e6).round() + (normal[1].abs() * 1e3).round() / 1e6
            };
            lean(a.0).total_cmp(&lean(b.0))
        })
        .map(|plane| plane.0)
}

/// The direction across `up` that the straight edges of level faces run along most.
fn longest_direction(shell: &Shell, regions: &Regions, up: Vector) -> Vector {
    let mut ways: Vec<(Vector, f64)> = Vec::new();
    for region in &regions.all {
        if dot(region.normal, up).abs() < 1.0 - 1e-6 {
            continue;
        }
        let Some(around) = region.loops.first() else {
            continue;
        };
        let corners: Vec<Vector> = around
            .corners
            .iter()
            .map(|&v| shell.vertices[v as usize])
            .collect();
        for place in 0..corners.len() {
            let edge = subtract(corners[(place + 1) % corners.len()], corners[place]);
            let long = length(edge);
            if long <= 0.0 {
                continue;
            }
            let way = upright(unit(edge));
            // of a direction the longest edge tells it best
            let same = |known: &(Vector, f64)| length(cross(known.0, way)) < SAME_WAY;
            match ways.iter().position(same) {
                Some(known) => ways[known].1 += long,
                None if ways.len() < MOST_WAYS => ways.push((way, long)),
                None => {}
            }
        }
    }
    let total: f64 = ways.iter().map(|way| way.1).sum();
    let best = ways.iter().max_by(|a, b| a.1.total_cmp(&b.1));
    let side = match best {
        // no side of a round outline says how it lies
        Some(way) if way.1 * LEAST_SIDES as f64 > total => way.0,
        _ => x_or_y(up),
    };
    unit(level(side, up))
}

/// The direction or its opposite, whichever has its largest part above 0.
fn upright(way: Vector) -> Vector {
    let most = (0..3).max_by(|&a, &b| way[a].abs().total_cmp(&way[b].abs()));
    scale(way, way[most.unwrap_or(0)].signum())
}

/// The file's axis, where the direction is one.
fn snapped(way: Vector) -> Vector {
    let on = (0..3).find(|&axis| (0..3).all(|other| other == axis || way[other].abs() < ON_AXIS));
    match on {
        Some(axis) => {
            let mut exact = [0.0; 3];
            exact[axis] = way[axis].signum();
            exact
        }
        None => way,
    }
}
