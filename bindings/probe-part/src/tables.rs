//! The list of a part's rows as a table for people.
use crate::geometry::{dot, scale, Vector};
use crate::model::{Check, Doubt, End, Frame, Kind, LeftOver, Outline, Part, Report, Row, Unit};
use crate::words::fixed;

/// A circle of fewer sides is said to have them: its diameter is that through their corners.
const FEW_SIDES: usize = 16;

/// A bore that leans by more is said to, in degrees.
const LEANS: f64 = 0.05;

/// What is listed, and how.
#[derive(Clone, Debug, Default)]
pub struct Listing {
    /// The part's name in a list for programs; its number where it is empty.
    pub name: String,
    /// The names of the faces whose rows are listed; all where there are none.
    pub faces: Vec<String>,
    /// Whether coordinates count from the part's least corner.
    pub from_corner: bool,
}

impl Listing {
    /// Whether a row is listed.
    pub fn has(&self, part: &Part, row: &Row) -> bool {
        let name = row.face.map(|face| &part.faces[face].name);
        self.faces.is_empty() || name.is_some_and(|name| self.faces.contains(name))
    }

    /// Where coordinates count from.
    pub fn origin(&self, part: &Part) -> Vector {
        if self.from_corner {
            part.low
        } else {
            [0.0; 3]
        }
    }
}

/// A kind in one word.
pub fn kind_word(kind: Kind) -> &'static str {
    match kind {
        Kind::Bore => "bore",
        Kind::Countersink => "countersink",
        Kind::Pocket => "pocket",
        Kind::Groove => "groove",
        Kind::Rabbet => "rabbet",
        Kind::Notch => "notch",
        Kind::Island => "island",
        Kind::Boss => "boss",
    }
}

/// An outline in one word.
pub fn outline_word(outline: &Outline) -> &'static str {
    match outline {
        Outline::Circle { .. } => "circle",
        Outline::Ring { .. } => "ring",
        Outline::Rectangle { .. } => "rectangle",
        Outline::Rounded { .. } => "rounded",
        Outline::Slot { .. } => "slot",
        Outline::Arc { .. } => "arc",
        Outline::Other { .. } => "other",
    }
}

/// The size of an outline, such as '8.00' or '120.00 x 60.00 R 5.00'.
pub fn size_words(outline: &Outline) -> String {
    let sides = |size: &[f64; 2]| format!("{} x {}", fixed(size[0], 2), fixed(size[1], 2));
    match outline {
        Outline::Circle { diameter, .. } => fixed(*diameter, 2),
        Outline::Ring { outer, inner } => format!("{} / {}", fixed(*outer, 2), fixed(*inner, 2)),
        Outline::Rectangle { size, .. } | Outline::Slot { size, .. } | Outline::Other { size } => {
            sides(size)
        }
        Outline::Rounded { size, radius, .. } => format!("{} R {}", sides(size), fixed(*radius, 2)),
        Outline::Arc { width, radius, .. } => {
            format!("{} R {}", fixed(*width, 2), fixed(*radius, 2))
        }
    }
}

/// The depth in words: that of the row itself, 'through', or from a cylinder's end to a tip.
pub fn depth_words(row: &Row) -> String {
    match row.end {
        End::Through => "through".into(),
        End::Tip { depth, .. } if depth > row.depth + 0.005 => {
            format!("{} to {}", fixed(row.depth, 2), fixed(depth, 2))
        }
        _ => fixed(row.depth, 2),
    }
}

/// What else is to be said of a row.
pub fn notes(part: &Part, row: &Row) -> String {
    let mut notes = Vec::new();
    if let Check::Differs(why) = &row.check {
        notes.push(format!("NOT CONFIRMED: {why}"));
    }
    if let Some(within) = row.within {
        notes.push(format!("within {}", within + 1));
    }
    match row.end {
        End::OpensInto(other) => notes.push(format!("opens into {}", other + 1)),
        End::Tip { angle, .. } if row.cone.is_none() => {
            notes.push(format!("tip of {} degrees", fixed(angle, 2)));
        }
        End::Unknown => notes.push("ITS END IS NOT UNDERSTOOD".into()),
        End::Floor | End::Through | End::Tip { .. } => {}
    }
    if !row.open.is_empty() {
        let names: Vec<&str> = row
            .open
            .iter()
            .map(|&face| part.faces[face].name.as_str())
            .collect();
        notes.push(format!("runs out at {}", names.join(", ")));
    }
    match &row.outline {
        Outline::Circle { sides, .. } if *sides < FEW_SIDES => {
            notes.push(format!("of {sides} sides"))
        }
        Outline::Rectangle { angle, .. }
        | Outline::Rounded { angle, .. }
        | Outline::Slot { angle, .. }
            if *angle != 0.0 =>
        {
            notes.push(format!("turned by {} degrees", fixed(*angle, 2)));
        }
        Outline::Arc { sweep, .. } => notes.push(format!("over {} degrees", fixed(*sweep, 2))),
        Outline::Other { .. } => notes.push("its bounding box".into()),
        _ => {}
    }
    if let Some(cone) = row.cone_measures() {
        let [angle, end] = [cone.angle, cone.end_diameter].map(|number| fixed(number, 2));
        notes.push(format!("cone of {angle} degrees to {end}"));
    }
    if let Some(lean) = lean(part, row) {
        notes.push(format!("leans by {} degrees", fixed(lean, 2)));
    }
    if matches!(row.kind, Kind::Island | Kind::Boss) {
        notes.push("stands out".into());
    }
    notes.join(", ")
}

/// By how many degrees a row leans from the normal of its face, if it does; of a round face that is not told.
pub fn lean(part: &Part, row: &Row) -> Option<f64> {
    let face = &part.faces[row.face?];
    if face.is_round {
        return None;
    }
    let cosine = dot(face.normal, scale(row.axis, -1.0)).clamp(-1.0, 1.0);
    let lean = cosine.acos().to_degrees();
    (lean > LEANS).then_some(lean)
}

/// The name of a part: the file's, with a number where the file holds several.
pub fn part_name(report: &Report, name: &str, number: usize) -> String {
    let own = &report.parts[number].name;
    let alike = |part: &&Part| part.name == *own;
    if report.parts.len() == 1 {
        name.into()
    } else if own.is_empty() || report.parts.iter().filter(alike).count() > 1 {
        format!("{name}-{}", number + 1)
    } else {
        format!("{name}-{own}")
    }
}

/// Why a list may be incomplete, in words.
pub fn doubt_words(doubt: &Doubt) -> String {
    match doubt {
        Doubt::OpenEdges(count) => format!("{count} open edges: the mesh has gaps"),
        Doubt::TurnedEdges(count) => format!("{count} edges whose triangles face different ways"),
        Doubt::CrowdedEdges(count) => format!("{count} edges shared by more than two triangles"),
        Doubt::Hollow => "a cavity inside another part".into(),
        Doubt::LeftOver(count) => format!("{count} triangles are not understood"),
        Doubt::NotConfirmed(count) => format!("{count} rows are not confirmed by the casts"),
        Doubt::ThinWeb(count, least) => format!(
            "{count} rows leave little behind their floor, {} mm at the least (--web says how much is enough)",
            fixed(*least, 2)
        ),
        Doubt::UnknownEnds(count) => format!("{count} rows end at surface that is not understood"),
        Doubt::Volume(volume) => format!(
            "the volume of the rows does not match the mesh: {} mm3 differ",
            fixed(*volume, 1)
        ),
        Doubt::SeveralShells(count) => {
            format!("{count} separate parts, but one was expected (--shells allows several)")
        }
        Doubt::OddSize => {
            "no board has this size: is the unit right (--unit mm, cm, m, in)?".into()
        }
        Doubt::NoFlatFace => "no flat outer face".into(),
        Doubt::Nearly(row, outline) => format!(
            "row {} is nearly a {}, but its corners do not lie on one ({})",
            row + 1,
            match outline {
                Outline::Rounded { .. } => "rectangle with round corners",
                Outline::Arc { .. } => "bent slot",
                other => outline_word(other),
            },
            size_words(outline)
        ),
    }
}

/// What is left over, in words.
pub fn left_over_words(rest: &LeftOver, origin: Vector) -> String {
    let corner = |point: Vector| {
        let parts: [String; 3] = std::array::from_fn(|axis| fixed(point[axis] - origin[axis], 2));
        format!("({})", parts.join(", "))
    };
    format!(
        "not understood: {} triangles, {} mm2, from {} to {}",
        rest.triangles,
        fixed(rest.area, 2),
        corner(rest.low),
        corner(rest.high)
    )
}

/// The report for people: for each part its size, its rows, what is left over and every doubt, marked by '!'.
pub fn table(report: &Report, listing: &Listing) -> String {
    let mut text = report.shift.map_or_else(String::new, shift_words);
    for (number, part) in report.parts.iter().enumerate() {
        if number > 0 {
            text.push('\n');
        }
        if report.parts.len() > 1 {
            text += &format!("part {} of {}", number + 1, report.parts.len());
            text += &match part.name.as_str() {
                "" => ": ".to_string(),
                name => format!(", {name}: "),
            };
        }
        let sides = part.size().map(|side| fixed(side, 2));
        text += &format!("{} mm, {} triangles", sides.join(" x "), part.triangles);
        if report.unit != Unit::Millimetre {
            text += &format!(", from a file in {}", report.unit.name());
        }
        text.push('\n');
        text += &frame_words(&part.frame);
        if let Some(step) = part.step {
            text += &format!("the file's coordinates are rounded to {step:.4} mm\n");
        }
        text += &rows_table(part, listing);
        let origin = listing.origin(part);
        for rest in &part.left_over {
            text += &format!("! {}\n", left_over_words(rest, origin));
        }
        for doubt in &part.doubts {
            text += &format!("! {}\n", doubt_words(doubt));
        }
    }
    for doubt in &report.doubts {
        text += &format!("! {}\n", doubt_words(doubt));
    }
    text += if report.is_certain() {
        "complete: all of the surface is accounted for, and every row is confirmed\n"
    } else {
        "! THE LIST MAY BE INCOMPLETE OR WRONG\n"
    };
    text
}

/// By what a file that lies far from zero was shifted.
pub fn shift_words(by: Vector) -> String {
    format!(
        "for the casts shifted by ({}) mm, since it lies beyond 8,000 mm; positions are the file's\n",
        by.map(|part| fixed(-part, 0)).join(", ")
    )
}

/// The frame, where it is not the file's own.
fn frame_words(frame: &Frame) -> String {
    if frame.is_as_drawn() {
        return String::new();
    }
    let vector = |parts: Vector, places: usize| {
        format!("({})", parts.map(|part| fixed(part, places)).join(", "))
    };
    let [x, y, z] = frame.axes.map(|axis| vector(axis, 6));
    format!(
        "own frame: zero at {} of the file, x along {x}, y along {y}, z along {z}\n",
        vector(frame.origin, 3)
    )
}

fn rows_table(part: &Part, listing: &Listing) -> String {
    let heads = [
        "no", "face", "kind", "outline", "size", "entry", "depth", "x", "y", "z", "",
    ];
    let mut rows: Vec<[String; 11]> = vec![heads.map(String::from)];
    let origin = listing.origin(part);
    for (place, row) in part.rows.iter().enumerate() {
        if !listing.has(part, row) {
            continue;
        }
        let [x, y, z] = std::array::from_fn(|axis| fixed(row.centre[axis] - origin[axis], 2));
        rows.push([
            (place + 1).to_string(),
            row.face
                .map_or("-".into(), |face| part.faces[face].name.clone()),
            kind_word(row.kind).into(),
            outline_word(&row.outline).into(),
            size_words(&row.outline),
            fixed(row.entry_depth, 2),
            depth_words(row),
            x,
            y,
            z,
            notes(part, row),
        ]);
    }
    if rows.len() == 1 {
        return "no bores or pockets\n".into();
    }
    let widths: [usize; 11] =
        std::array::from_fn(|column| rows.iter().map(|row| row[column].len()).max().unwrap_or(0));
    let mut text = String::new();
    for row in &rows {
        let cells: Vec<String> = row
            .iter()
            .enumerate()
            .map(|(column, cell)| match column {
                0 | 4..=9 => format!("{cell:>width$}", width = widths[column]),
                _ => format!("{cell:<width$}", width = widths[column]),
            })
            .collect();
        text += cells.join("  ").trim_end();
        text.push('\n');
    }
    text
}
