//! A boring list against a part: whether each row's drill is clear, whether wall and floor are where the row says, what is left
//! behind it, and whether every bore of the part is in a row. Clear and touched are the proved call's answers.
use crate::boring_list::{Bored, BoringList};
use crate::drills::{fitting, in_file, is_drilled, touch_words, Drill, SLACK, WIDEST};
use crate::geometry::{along, dot, length, scale, subtract, Vector};
use crate::model::{End, Kind, Part, Row};
use crate::shape::Shape;
use crate::words::fixed;
use probe_rays::{Refusal, Scratch};

/// How far a row's axis, diameter and floor may be from the part's, in millimetres.
const OFF: f64 = 0.05;

/// How far two directions may be from one, as the sine of the angle.
const LEAN: f64 = 1e-4;

/// What the check of a list says, a line for each row and each bore in no row; and whether all fits.
#[derive(Clone, Debug, PartialEq)]
pub struct Checked {
    /// For people; what does not fit begins with '!'.
    pub lines: Vec<String>,
    /// Whether every row fits the part, and every bore of the part is in a row.
    pub fits: bool,
}

/// A list's row and the part's bore that it is, if there is one; turned where the list drills a bore that goes through from
/// its other end.
struct Matched<'a> {
    bored: &'a Bored,
    bore: Option<(usize, &'a Row)>,
}

/// How far a point is from a row's axis.
fn off_axis(row: &Row, point: Vector) -> f64 {
    let from = subtract(point, row.centre);
    length(subtract(from, scale(row.axis, dot(from, row.axis))))
}

/// How deep along a row's axis a list's bore ends.
fn end_of(row: &Row, bored: &Bored) -> f64 {
    let end = along(bored.centre, bored.axis, bored.depth.unwrap_or(0.0));
    dot(subtract(end, row.centre), row.axis)
}

/// Whether a list's bore lies on a row's axis, in its direction or, where it goes through, against it, with its diameter.
fn lies_on(row: &Row, bored: &Bored) -> bool {
    let cosine = dot(row.axis, bored.axis);
    let along = cosine > 0.0 || row.end == End::Through;
    let leans = (1.0 - cosine * cosine).max(0.0).sqrt();
    fitting(row).is_some_and(|(diameter, _)| (diameter - bored.diameter).abs() <= OFF)
        && along
        && leans <= LEAN
        && off_axis(row, bored.centre) <= OFF
}

/// The part's bore that a list's row is: of several on its axis the one whose floor is nearest.
fn matched<'a>(part: &'a Part, bored: &'a Bored) -> Matched<'a> {
    let rows = part.rows.iter().enumerate();
    let on_axis = rows.filter(|(place, row)| is_drilled(&part.rows, *place) && lies_on(row, bored));
    let off = |row: &Row| match (bored.depth, row.end) {
        (None, End::Through) => 0.0,
        _ => (end_of(row, bored) - row.depth).abs(),
    };
    let bore = on_axis.min_by(|a, b| off(a.1).total_cmp(&off(b.1)));
    Matched { bored, bore }
}

/// The check of a list against a part, in the part's frame; less than `web` behind a blind bore does not fit. A drill that is
/// refused is an error.
pub fn check(shape: &Shape, part: &Part, list: &BoringList, web: f64) -> Result<Checked, Refusal> {
    let all: Vec<Matched> = list
        .bores
        .iter()
        .map(|bored| matched(part, bored))
        .collect();
    let mut scratch = Scratch::new();
    let mut lines = Vec::new();
    let mut fits = true;
    for one in &all {
        let (good, words) = of_row(shape, part, one, web, &mut scratch)?;
        fits &= good;
        lines.push(marked(good, format!("{}: {words}", row_words(one.bored))));
    }
    let named = |place: usize| {
        all.iter()
            .any(|one| one.bore.is_some_and(|(own, _)| own == place))
    };
    for (place, row) in part.rows.iter().enumerate() {
        if row.kind == Kind::Bore && !named(place) {
            fits = false;
            lines.push(marked(
                false,
                format!("{} is in no row", bore_words(part, place)),
            ));
        }
    }
    Ok(Checked { lines, fits })
}

fn marked(good: bool, words: String) -> String {
    if good {
        words
    } else {
        format!("! {words}")
    }
}

fn place_words(point: Vector) -> String {
    format!("({})", point.map(|part| fixed(part, 2)).join(", "))
}

fn row_words(bored: &Bored) -> String {
    let depth = match bored.depth {
        Some(depth) => format!("{} deep", fixed(depth, 2)),
        None => "through".into(),
    };
    let (diameter, place) = (fixed(bored.diameter, 2), place_words(bored.centre));
    format!("line {}, {diameter} at {place}, {depth}", bored.line)
}

fn bore_words(part: &Part, place: usize) -> String {
    let row = &part.rows[place];
    let face = row.face.map_or("no face", |face| &part.faces[face].name);
    let diameter = fitting(row).map_or(0.0, |(diameter, _)| diameter);
    format!(
        "bore {} of the part ({face}, {} at {})",
        place + 1,
        fixed(diameter, 2),
        place_words(row.centre)
    )
}

/// Whether a row fits, and what is to be said of it.
fn of_row(
    shape: &Shape,
    part: &Part,
    one: &Matched<'_>,
    web: f64,
    scratch: &mut Scratch,
) -> Result<(bool, String), Refusal> {
    let bored = one.bored;
    let Some((place, row)) = one.bore else {
        let drill = drill_of(part, bored, bored.diameter / 2.0 - SLACK / 2.0, bored.depth);
        let does = match drill.first_touch(shape, scratch)? {
            Some(touch) => format!("its drill {}", touch_words(&touch)),
            None => "its drill is clear".into(),
        };
        return Ok((false, format!("no bore of this diameter is there; {does}")));
    };
    let faults = faults(shape, part, bored, row, scratch)?;
    let thin = row.web.is_some_and(|left| left < web);
    let mut words = if faults.is_empty() {
        vec!["clear, wall and end fit".to_string()]
    } else {
        faults.clone()
    };
    words.push(format!("bore {} of the part", place + 1));
    if let Some(left) = row.web {
        words.push(format!("web {}", fixed(left, 2)));
    }
    Ok((faults.is_empty() && !thin, words.join(", ")))
}

/// A drill along a list's bore, of a radius, or the widest that the call admits, and so deep; without a depth so deep as the part
/// is large.
fn drill_of(part: &Part, bored: &Bored, radius: f64, depth: Option<f64>) -> Drill {
    let depth = depth.unwrap_or_else(|| length(part.size()));
    in_file(
        &part.frame,
        bored.centre,
        bored.axis,
        depth.max(0.0),
        radius.min(WIDEST),
    )
}

/// What does not fit of a row that lies on a bore of the part: its drill, the wall, the end.
fn faults(
    shape: &Shape,
    part: &Part,
    bored: &Bored,
    row: &Row,
    scratch: &mut Scratch,
) -> Result<Vec<String>, Refusal> {
    let mut faults = Vec::new();
    let Some((diameter, inner)) = fitting(row) else {
        return Ok(faults);
    };
    let narrow = inner - SLACK / 2.0 - (diameter - bored.diameter).max(0.0) / 2.0;
    let through = matches!(row.end, End::Through | End::OpensInto(_));
    let own_end = end_of(row, bored);
    // how deep the part's bore is, from the list's entry
    let depth = match dot(row.axis, bored.axis) > 0.0 {
        true => dot(
            subtract(along(row.centre, row.axis, row.depth), bored.centre),
            bored.axis,
        ),
        false => dot(subtract(row.centre, bored.centre), bored.axis),
    };
    let asked = bored.depth.unwrap_or(depth);
    let to = if through { asked } else { asked - OFF };
    let drill = drill_of(part, bored, narrow, Some(to));
    if let Some(touch) = drill.first_touch(shape, scratch)? {
        faults.push(format!("its drill {}", touch_words(&touch)));
    }
    let wide = drill_of(part, bored, bored.diameter / 2.0 + OFF, Some(depth - SLACK));
    let asks = wide.radius < WIDEST;
    if asks && shape.drill(&wide.ray, wide.radius, scratch)?.is_none() {
        faults.push("no wall is there".into());
    }
    match (bored.depth, through) {
        (None, false) => faults.push(format!("the part's bore ends at {}", fixed(depth, 2))),
        (Some(asked), true) if asked < depth - OFF => {
            faults.push(format!("the part's bore goes on to {}", fixed(depth, 2)));
        }
        (Some(asked), false) => {
            let on = drill_of(part, bored, narrow, Some(asked + OFF));
            let no_floor = shape.drill(&on.ray, on.radius, scratch)?.is_none();
            if faults.is_empty() && (no_floor || (own_end - row.depth).abs() > 2.0 * OFF) {
                faults.push(format!("the part's bore ends at {}", fixed(depth, 2)));
            }
        }
        _ => {}
    }
    Ok(faults)
}
