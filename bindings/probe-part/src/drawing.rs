//! The parts of a file. An STL file is one part without a name. A STEP file has a named part for each solid, and knows the
//! surface that each triangle belongs to: a round surface then has the drawing's own axis, radius and slope.
use crate::files::{pictures, FacePicture};
use crate::geometry::{dot, length, scale, subtract, Axis};
use crate::model::{Frame, Report, Unit};
use crate::planes::Regions;
use crate::recognise::{recognise, Options};
use crate::rounds::{off_round, Round, Rounds};
use crate::shape::Shape;
use crate::step::{self, Surface};
use crate::topology::Shell;
use probe_rays::Refusal;
use std::collections::HashSet;
use std::path::Path;

/// The parts of a file.
pub struct Drawing {
    /// The unit of the file's numbers; the shapes are in millimetres.
    pub unit: Unit,
    /// Each part with its name, which is empty where the file has none.
    pub parts: Vec<(String, Shape)>,
}

impl Drawing {
    /// The parts of a file. The unit is that of an STL file; a STEP file has its own.
    pub fn load(file: &str, unit: Unit) -> Result<Drawing, String> {
        if !step::is_step(file)? {
            let shape = Shape::load_in(file, unit)?;
            let parts = vec![(String::new(), shape)];
            return Ok(Drawing { unit, parts });
        }
        let fault = |why| format!("{file}: {why}");
        let assembly = step::read(Path::new(file)).map_err(fault)?;
        let unit = unit_named(&assembly.unit).map_err(fault)?;
        let names = distinct(assembly.solids.iter().map(|solid| solid.name.as_str()));
        let mut parts = Vec::new();
        for (name, solid) in names.into_iter().zip(assembly.solids) {
            parts.push((name, Shape::of_solid(solid).map_err(fault)?));
        }
        Ok(Drawing { unit, parts })
    }

    /// What is recognised in its parts, each by itself.
    pub fn recognise(&self, options: &Options) -> Result<Report, Refusal> {
        let mut whole = Report {
            unit: self.unit,
            shift: None,
            parts: Vec::new(),
            doubts: Vec::new(),
        };
        for (name, shape) in &self.parts {
            let options = Options {
                unit: self.unit,
                ..*options
            };
            let mut report = recognise(shape, &options)?;
            for part in &mut report.parts {
                part.name.clone_from(name);
            }
            whole.shift = whole.shift.or(report.shift);
            whole.parts.extend(report.parts);
            whole.doubts.extend(report.doubts);
        }
        Ok(whole)
    }

    /// The pictures of every part's faces, in the report's order.
    pub fn pictures(&self, report: &Report, name: &str) -> Result<Vec<Vec<FacePicture>>, Refusal> {
        let shapes: Vec<&Shape> = self.parts.iter().map(|(_, shape)| shape).collect();
        pictures(&shapes, report, name)
    }
}

/// The unit that OpenCASCADE names so.
fn unit_named(name: &str) -> Result<Unit, String> {
    match name.to_ascii_lowercase().as_str() {
        "millimetre" => Ok(Unit::Millimetre),
        "centimetre" => Ok(Unit::Centimetre),
        "metre" => Ok(Unit::Metre),
        "inch" => Ok(Unit::Inch),
        _ => Err(format!(
            "its unit of length is {name}: millimetres, centimetres, metres and inches are known"
        )),
    }
}

/// Names that a file can have, each once: what a file name cannot have is a dash, and the second of a name has a number.
fn distinct<'a>(names: impl Iterator<Item = &'a str>) -> Vec<String> {
    let plain = |letter: char| {
        if letter.is_alphanumeric() || " ._-".contains(letter) {
            letter
        } else {
            '-'
        }
    };
    let mut taken: HashSet<String> = HashSet::new();
    let mut distinct = Vec::new();
    for (place, name) in names.enumerate() {
        let name: String = name.chars().map(plain).collect();
        let name = match name.trim_matches([' ', '.']) {
            "" => format!("solid {}", place + 1),
            name => name.to_string(),
        };
        let numbered = |number: usize| match number {
            1 => name.clone(),
            _ => format!("{name} {number}"),
        };
        let free = (1..).map(numbered).find(|name| !taken.contains(name));
        let name = free.unwrap_or(name);
        taken.insert(name.clone());
        distinct.push(name);
    }
    distinct
}

/// Gives each round surface the axis, radius and slope of the drawing, where all its triangles belong to cylinders or cones
/// that the drawing has there.
pub fn as_drawn(
    rounds: &mut Rounds,
    shape: &Shape,
    shell: &Shell,
    regions: &Regions,
    frame: &Frame,
) {
    if !shape.has_surfaces() {
        return;
    }
    let tolerance = off_round(shell);
    for round in &mut rounds.all {
        let triangles = round
            .regions
            .iter()
            .flat_map(|&region| &regions.all[region as usize].triangles);
        let mut drawn: Option<Round> = None;
        let is_one = triangles
            .map(|&triangle| shape.near_surface(shell.numbers[triangle as usize]))
            .all(|surface| {
                let exact = exactly(round, surface, frame);
                let fits = exact
                    .as_ref()
                    .is_some_and(|exact| is_near(round, exact, tolerance));
                drawn = exact;
                fits
            });
        if let (true, Some(drawn)) = (is_one, drawn) {
            *round = drawn;
        }
    }
}

/// A round surface with the numbers of a surface of the drawing; its heights count from the same place.
fn exactly(round: &Round, surface: Surface, frame: &Frame) -> Option<Round> {
    let (point, direction, radius, slope) = match surface {
        Surface::Cylinder {
            point,
            direction,
            radius,
        } => (point, direction, radius, 0.0),
        Surface::Cone {
            point,
            direction,
            radius,
            angle,
        } => (point, direction, radius, angle.tan()),
        Surface::Plane { .. } | Surface::Other => return None,
    };
    let axis = Axis {
        point: frame.place(point),
        direction: frame.direction(direction),
    };
    let same_way = dot(axis.direction, round.axis.direction).signum();
    let height = axis.height(round.axis.point);
    Some(Round {
        axis: Axis {
            point: axis.at(height),
            direction: scale(axis.direction, same_way),
        },
        radius: radius + slope * height,
        slope: slope * same_way,
        ..round.clone()
    })
}

/// Whether two round surfaces are the same within a tolerance, at both ends.
fn is_near(one: &Round, other: &Round, tolerance: f64) -> bool {
    one.is_cylinder() == other.is_cylinder()
        && [one.low, one.high].iter().all(|&height| {
            let apart = length(subtract(one.axis.at(height), other.axis.at(height)));
            let wider = (one.radius_at(height) - other.radius_at(height)).abs();
            apart <= tolerance && wider <= tolerance
        })
}

#[cfg(test)]
mod tests {
    use super::*;

    /// Each name is one that a file can have, and stands once.
    #[test]
    fn names_are_distinct() {
        let names = distinct(["side", "side", "", "a/b", "side 2", " . "].into_iter());
        let wanted = ["side", "side 2", "solid 3", "a-b", "side 2 2", "solid 6"];
        assert_eq!(names, wanted);
    }
}
