//! A report as JSON (RFC 8259): every field of the model, lengths in millimetres, numbers and names as the list has them.
use crate::model::{Check, Cone, Doubt, End, Face, Frame, LeftOver, Outline, Part, Report, Row};
use crate::tables::{doubt_words, kind_word, notes, outline_word, Listing};

/// The report of a file of this name.
pub fn json(report: &Report, listing: &Listing, file: &str) -> String {
    let parts = report.parts.iter().map(|part| of_part(part, listing));
    let text = object([
        ("file", words(file)),
        (
            "program",
            words(concat!("probe-part ", env!("CARGO_PKG_VERSION"))),
        ),
        ("unit_of_file", words(report.unit.name())),
        (
            "shift_for_casts",
            report
                .shift
                .map_or_else(null, |by| vector(&by.map(|part| -part))),
        ),
        ("complete", report.is_certain().to_string()),
        ("doubts", list(report.doubts.iter().map(of_doubt))),
        ("parts", list(parts)),
    ]);
    text + "\n"
}

fn of_part(part: &Part, listing: &Listing) -> String {
    let size = part.size();
    let rows = part.rows.iter().enumerate();
    let rows = rows.filter(|(_, row)| listing.has(part, row));
    object([
        ("name", words(&part.name)),
        ("size", vector(&size)),
        (
            "thickness",
            number(size.into_iter().fold(f64::INFINITY, f64::min)),
        ),
        ("triangles", part.triangles.to_string()),
        ("area", number(part.area)),
        ("step", part.step.map_or_else(null, number)),
        ("frame", of_frame(&part.frame)),
        ("low", vector(&part.low)),
        ("high", vector(&part.high)),
        ("complete", part.doubts.is_empty().to_string()),
        ("doubts", list(part.doubts.iter().map(of_doubt))),
        ("left_over", list(part.left_over.iter().map(of_left_over))),
        ("faces", list(part.faces.iter().map(of_face))),
        (
            "rows",
            list(rows.map(|(place, row)| of_row(part, place, row))),
        ),
    ])
}

fn of_frame(frame: &Frame) -> String {
    object([
        ("origin", vector(&frame.origin)),
        ("axes", list(frame.axes.iter().map(|axis| vector(axis)))),
    ])
}

fn of_face(face: &Face) -> String {
    object([
        ("name", words(&face.name)),
        ("normal", vector(&face.normal)),
        ("point", vector(&face.point)),
        ("radius", face.radius.map_or_else(null, number)),
        ("area", number(face.area)),
        ("triangles", face.triangles.to_string()),
        ("outline", polygons(&face.outline)),
    ])
}

fn of_row(part: &Part, place: usize, row: &Row) -> String {
    let face_name = |&face: &usize| words(&part.faces[face].name);
    let differs = match &row.check {
        Check::Confirmed => null(),
        Check::Differs(why) => words(why),
    };
    object([
        ("number", (place + 1).to_string()),
        ("feature", (row.feature + 1).to_string()),
        ("face", row.face.as_ref().map_or_else(null, face_name)),
        ("kind", words(kind_word(row.kind))),
        ("outline", of_outline(&row.outline)),
        ("centre", vector(&row.centre)),
        ("axis", vector(&row.axis)),
        ("entry_depth", number(row.entry_depth)),
        ("depth", number(row.depth)),
        ("end", of_end(row.end)),
        ("cone", row.cone_measures().map_or_else(null, of_cone)),
        ("web", row.web.map_or_else(null, number)),
        (
            "within",
            row.within
                .map_or_else(null, |within| (within + 1).to_string()),
        ),
        ("open", list(row.open.iter().map(face_name))),
        ("confirmed", row.is_confirmed().to_string()),
        ("differs", differs),
        ("note", words(&notes(part, row))),
        ("triangles", row.triangles.to_string()),
        ("area", number(row.area)),
        ("loops", polygons(&row.loops)),
    ])
}

fn polygons(all: &[Vec<[f64; 3]>]) -> String {
    let polygon = |corners: &Vec<[f64; 3]>| list(corners.iter().map(|point| vector(point)));
    list(all.iter().map(polygon))
}

fn of_outline(outline: &Outline) -> String {
    let mut fields = vec![("kind", words(outline_word(outline)))];
    match outline {
        Outline::Circle { diameter, sides } => {
            fields.extend([
                ("diameter", number(*diameter)),
                ("sides", sides.to_string()),
            ]);
        }
        Outline::Ring { outer, inner } => {
            fields.extend([("outer", number(*outer)), ("inner", number(*inner))]);
        }
        Outline::Rectangle { size, angle } | Outline::Slot { size, angle } => {
            fields.extend([("size", vector(size)), ("angle", number(*angle))]);
        }
        Outline::Rounded {
            size,
            radius,
            angle,
        } => {
            fields.extend([
                ("size", vector(size)),
                ("radius", number(*radius)),
                ("angle", number(*angle)),
            ]);
        }
        Outline::Arc {
            width,
            radius,
            sweep,
        } => {
            fields.extend([
                ("width", number(*width)),
                ("radius", number(*radius)),
                ("sweep", number(*sweep)),
            ]);
        }
        Outline::Other { size } => fields.push(("size", vector(size))),
    }
    object(fields)
}

fn of_end(end: End) -> String {
    match end {
        End::Floor => object([("kind", words("floor"))]),
        End::Tip { angle, depth } => object([
            ("kind", words("tip")),
            ("angle", number(angle)),
            ("depth", number(depth)),
        ]),
        End::Through => object([("kind", words("through"))]),
        End::OpensInto(row) => object([
            ("kind", words("opens into")),
            ("row", (row + 1).to_string()),
        ]),
        End::Unknown => object([("kind", words("unknown"))]),
    }
}

fn of_cone(cone: Cone) -> String {
    object([
        ("angle", number(cone.angle)),
        ("entry_diameter", number(cone.entry_diameter)),
        ("end_diameter", number(cone.end_diameter)),
    ])
}

fn of_left_over(rest: &LeftOver) -> String {
    object([
        ("triangles", rest.triangles.to_string()),
        ("area", number(rest.area)),
        ("low", vector(&rest.low)),
        ("high", vector(&rest.high)),
    ])
}

fn of_doubt(doubt: &Doubt) -> String {
    words(&doubt_words(doubt))
}

fn null() -> String {
    "null".into()
}

/// A number in as few digits as tell it; JSON has none that is not finite.
fn number(value: f64) -> String {
    if value.is_finite() {
        format!("{}", value + 0.0)
    } else {
        null()
    }
}

fn vector(parts: &[f64]) -> String {
    list(parts.iter().map(|&part| number(part)))
}

fn list(items: impl IntoIterator<Item = String>) -> String {
    let items: Vec<String> = items.into_iter().collect();
    format!("[{}]", items.join(", "))
}

fn object<'a>(fields: impl IntoIterator<Item = (&'a str, String)>) -> String {
    let fields = fields.into_iter();
    let fields: Vec<String> = fields
        .map(|(name, value)| format!("\"{name}\": {value}"))
        .collect();
    format!("{{{}}}", fields.join(", "))
}

/// A text in quotes.
pub fn words(text: &str) -> String {
    let mut quoted = String::from("\"");
    for letter in text.chars() {
        match letter {
            '"' => quoted += "\\\"",
            '\\' => quoted += "\\\\",
            control if control < ' ' => quoted += &format!("\\u{:04x}", control as u32),
            other => quoted.push(other),
        }
    }
    quoted.push('"');
    quoted
}
