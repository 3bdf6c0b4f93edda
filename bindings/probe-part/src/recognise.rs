//! From a part's triangles to a report: shells, flat regions, round surfaces, outer faces, rows, and their check by casts.
use crate::assemble::{left_over, rows};
use crate::bosses;
use crate::confirm::confirm;
use crate::corner::moved_by;
use crate::crossed::join_crossed;
use crate::drawing::as_drawn;
use crate::drilled::add_bores;
use crate::drills::{drill_rows, thin_webs};
use crate::features::Features;
use crate::frames::own_frame;
use crate::geometry::{add, box_of, length, scale, subtract, Sheet, Vector};
use crate::model::{Doubt, End, Frame, Outline, Part, Report, Row, Unit};
use crate::outer::outer;
use crate::outline::nearly;
use crate::outlines::outlines;
use crate::planes::Regions;
use crate::pockets::add_pockets;
use crate::rounds::Rounds;
use crate::shape::Shape;
use crate::topology::{moved, shells, Shell, NONE, SINGLE};
use crate::work::Work;
use probe_rays::{Cast, Ray, Refusal, Scratch};

/// What is asked of the recognition.
#[derive(Clone, Copy, Debug, PartialEq)]
pub struct Options {
    /// The unit that the file was in, for the report: the shape is in millimetres.
    pub unit: Unit,
    /// Whether the file's own frame is kept.
    pub as_drawn: bool,
    /// Whether several shells are expected.
    pub several: bool,
    /// Less behind a blind bore is a doubt, in millimetres; of 0, which is the default, nothing is.
    pub web: f64,
}

impl Default for Options {
    fn default() -> Options {
        Options {
            unit: Unit::Millimetre,
            as_drawn: false,
            several: false,
            web: 0.0,
        }
    }
}

/// No board is longer or shorter, in millimetres.
const LENGTHS: [f64; 2] = [20.0, 6000.0];

/// No board is thicker or thinner.
const THICKNESSES: [f64; 2] = [2.5, 300.0];

/// Recognises the bores, pockets and so on of a part, in millimetres, and confirms them by casts. A cast that is refused is
/// an error.
///
/// ```
/// use probe_part::model::{End, Kind, Outline};
/// use probe_part::recognise::{recognise, Options};
/// use probe_part::shape::Shape;
///
/// let shape = Shape::load(concat!(env!("CARGO_MANIFEST_DIR"), "/../../examples/panel.stl"))?;
/// let report = recognise(&shape, &Options::default()).map_err(|refusal| refusal.to_string())?;
/// assert!(report.is_certain());
/// let [cup, bore] = report.parts[0].rows.as_slice() else { panic!() };
/// assert_eq!((cup.kind, cup.end, cup.depth), (Kind::Bore, End::Floor, 13.0));
/// assert!(matches!(cup.outline, Outline::Circle { sides: 8, .. }));
/// assert_eq!(bore.end, End::Through);
/// # Ok::<(), String>(())
/// ```
pub fn recognise(shape: &Shape, options: &Options) -> Result<Report, Refusal> {
    let shells = shells(shape.near_vertices(), shape.triangles());
    let boxes: Vec<[Vector; 2]> = shells
        .iter()
        .map(|shell| box_of(shell.vertices.iter().copied()))
        .collect();
    let mut parts = Vec::new();
    for (number, shell) in shells.iter().enumerate() {
        let within = |other: usize| {
            other != number
                && (0..3).all(|axis| {
                    boxes[other][0][axis] < boxes[number][0][axis]
                        && boxes[number][1][axis] < boxes[other][1][axis]
                })
        };
        let is_hollow = shell.was_inside_out && (0..shells.len()).any(within);
        parts.push(best_part(shape, shell, options, is_hollow)?);
    }
    let mut doubts = Vec::new();
    if parts.len() > 1 && !options.several {
        doubts.push(Doubt::SeveralShells(parts.len()));
    }
    let by = shape.shift();
    let shift = by.unwrap_or_default();
    parts.iter_mut().for_each(|part| move_back(part, shift));
    Ok(Report {
        unit: options.unit,
        shift: by,
        parts,
        doubts,
    })
}

/// A part as if its coordinates were exact; where that leaves a doubt and the file's numbers are rounded, with the tolerances
/// that follow from their step.
fn best_part(
    shape: &Shape,
    drawn: &Shell,
    options: &Options,
    is_hollow: bool,
) -> Result<Part, Refusal> {
    let rounding = shape.step() / 2.0;
    let with = |rounding: f64| Shell {
        rounding,
        ..drawn.clone()
    };
    // single precision is coarser where the part lies far from zero
    let far = shape.shift().unwrap_or_default().into_iter();
    let single = drawn.rounding + SINGLE * far.fold(0.0_f64, |most, part| most.max(part.abs()));
    let exact = part(shape, &with(single), options, is_hollow)?;
    if exact.doubts.is_empty() || rounding <= single {
        return Ok(exact);
    }
    let rounded = with(rounding);
    let mut part = part(shape, &rounded, options, is_hollow)?;
    part.step = Some(shape.step());
    Ok(part)
}

fn part(shape: &Shape, drawn: &Shell, options: &Options, is_hollow: bool) -> Result<Part, Refusal> {
    let mut regions = Regions::grow(drawn);
    let frame = if options.as_drawn {
        Frame::AS_DRAWN
    } else {
        own_frame(drawn, &regions)
    };
    let turned;
    let shell = if frame.is_as_drawn() {
        drawn
    } else {
        turned = moved(
            drawn,
            |point| frame.place(point),
            |way| frame.direction(way),
        );
        regions.turn(&turned, &frame);
        &turned
    };
    let mut rounds = Rounds::find(shell, &regions);
    as_drawn(&mut rounds, shape, shell, &regions, &frame);
    let bosses = bosses::find(shell, &regions, &rounds);
    let standing_out = bosses::regions_of(&bosses, &rounds, regions.all.len());
    let outer = outer(shell, &regions, &standing_out);
    let [low, high] = box_of(shell.vertices.iter().copied());
    let wide = length(subtract(high, low));
    let sight = |from: Vector, way: Vector| {
        let ray = Ray::toward(
            frame.place_in_file(from),
            frame.direction_in_file(way),
            wide,
        );
        shape.near_cast(&ray, &mut Scratch::new()) == Cast::None
    };
    let mut work = Work {
        shell,
        regions: &regions,
        rounds: &rounds,
        outer: &outer,
        owner: vec![NONE; regions.all.len()],
        drafts: Vec::new(),
        sight: &sight,
    };
    bosses::add_bosses(&mut work, &bosses);
    add_bores(&mut work);
    add_pockets(&mut work);
    join_crossed(&mut work);
    let checks = confirm(shape, &frame, &work.drafts, wide, shell.rounding)?;
    let features = Features::of(&work);
    let mut rows = rows(&work, &features, checks);
    drill_rows(shape, &frame, &mut rows, options.web)?;
    let left_over = left_over(&work, &features);
    let mut faces = outer.faces.clone();
    for (face, outline) in faces.iter_mut().zip(outlines(&work)) {
        face.outline = outline;
    }
    let mut part = Part {
        name: String::new(),
        triangles: shell.triangles.len(),
        area: shell.areas.iter().sum(),
        step: None,
        frame,
        low,
        high,
        faces,
        rows,
        left_over,
        doubts: Vec::new(),
    };
    part.doubts = doubts(&part, &work, &features, is_hollow);
    part.doubts.extend(thin_webs(&part, options.web));
    Ok(part)
}

/// A part that was recognised where it is cast at, back in the file's frame.
fn move_back(part: &mut Part, shift: Vector) {
    if part.frame.is_as_drawn() {
        moved_by(part, shift);
    } else {
        part.frame.origin = add(part.frame.origin, shift);
    }
}

/// Why the list of a part may be incomplete or wrong.
fn doubts(part: &Part, work: &Work<'_>, features: &Features, is_hollow: bool) -> Vec<Doubt> {
    let faults = work.shell.faults;
    let mut doubts = Vec::new();
    let mut tell = |count: usize, doubt: fn(usize) -> Doubt| {
        if count > 0 {
            doubts.push(doubt(count));
        }
    };
    tell(faults.open, Doubt::OpenEdges);
    tell(faults.turned, Doubt::TurnedEdges);
    tell(faults.crowded, Doubt::CrowdedEdges);
    tell(
        part.left_over.iter().map(|rest| rest.triangles).sum(),
        Doubt::LeftOver,
    );
    tell(
        part.rows.iter().filter(|row| !row.is_confirmed()).count(),
        Doubt::NotConfirmed,
    );
    tell(
        part.rows
            .iter()
            .filter(|row| row.end == End::Unknown)
            .count(),
        Doubt::UnknownEnds,
    );
    let rows = part.rows.iter().enumerate();
    doubts.extend(rows.filter_map(|(place, row)| Some(Doubt::Nearly(place, nearly_of(row)?))));
    let difference = features.difference(work);
    if difference > 0.0 && part.left_over.is_empty() {
        doubts.push(Doubt::Volume(difference));
    }
    if is_hollow {
        doubts.push(Doubt::Hollow);
    }
    if part.faces.iter().all(|face| face.is_round) {
        doubts.push(Doubt::NoFlatFace);
    }
    let mut sides = part.size();
    sides.sort_by(f64::total_cmp);
    let outside = |side: f64, [least, most]: [f64; 2]| side < least || side > most;
    if outside(sides[2], LENGTHS) || outside(sides[0], THICKNESSES) {
        doubts.push(Doubt::OddSize);
    }
    doubts
}

/// The outline that a row nearly has, where it is listed as another.
fn nearly_of(row: &Row) -> Option<Outline> {
    let Outline::Other { .. } = row.outline else {
        return None;
    };
    let sheet = Sheet::of(scale(row.axis, -1.0));
    let corners = row.loops.first()?;
    let flat: Vec<[f64; 2]> = corners.iter().map(|&corner| sheet.flat(corner)).collect();
    nearly(&flat)
}
