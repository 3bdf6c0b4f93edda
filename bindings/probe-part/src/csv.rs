//! The list of a part's rows for programs: commas.
use crate::geometry::Vector;
use crate::model::{End, Outline, Part, Report, Row};
use crate::tables::{
    doubt_words, kind_word, left_over_words, notes, outline_word, part_name, Listing,
};
use crate::words::fixed;

/// The columns of the list for programs.
pub const COLUMNS: &str = "part,number,feature,face,kind,outline,width,height,radius,angle,sides,entry_depth,depth,tip_depth,\
    end,x,y,z,axis_x,axis_y,axis_z,within,open,confirmed,note,size_x,size_y,size_z,thickness";

/// The report for programs: commas, a head line, numbers with three places; a line `left over` for surface that is not
/// understood, and a line `doubt` for each doubt.
pub fn csv(report: &Report, listing: &Listing) -> String {
    let mut text = format!("{COLUMNS}\n");
    let mut line = |cells: Vec<String>| {
        text += &cells.join(",");
        text.push('\n');
    };
    let remark = |part: String, kind: &str, words: String| -> Vec<String> {
        let cell = |column: &str| match column {
            "part" => part.clone(),
            "kind" => kind.into(),
            "note" => quoted(&words),
            _ => String::new(),
        };
        COLUMNS.split(',').map(cell).collect()
    };
    for (number, part) in report.parts.iter().enumerate() {
        let name = match listing.name.as_str() {
            "" if part.name.is_empty() => (number + 1).to_string(),
            "" => quoted(&part.name),
            name => quoted(&part_name(report, name, number)),
        };
        let origin = listing.origin(part);
        for (place, row) in part.rows.iter().enumerate() {
            if listing.has(part, row) {
                line(row_cells(&name, place, part, row, origin));
            }
        }
        for rest in &part.left_over {
            line(remark(
                name.clone(),
                "left over",
                left_over_words(rest, origin),
            ));
        }
        for doubt in &part.doubts {
            line(remark(name.clone(), "doubt", doubt_words(doubt)));
        }
    }
    for doubt in &report.doubts {
        line(remark(String::new(), "doubt", doubt_words(doubt)));
    }
    text
}

fn row_cells(name: &str, place: usize, part: &Part, row: &Row, origin: Vector) -> Vec<String> {
    let number = |value: f64| fixed(value, 3);
    let none = String::new;
    let (size, radius, angle, sides) = match &row.outline {
        Outline::Circle { diameter, sides } => ([*diameter; 2], None, None, Some(*sides)),
        Outline::Ring { outer, inner } => ([*outer, *inner], None, None, None),
        Outline::Rectangle { size, angle } | Outline::Slot { size, angle } => {
            (*size, None, Some(*angle), None)
        }
        Outline::Rounded {
            size,
            radius,
            angle,
        } => (*size, Some(*radius), Some(*angle), None),
        Outline::Arc {
            width,
            radius,
            sweep,
        } => ([*width; 2], Some(*radius), Some(*sweep), None),
        Outline::Other { size } => (*size, None, None, None),
    };
    let open: Vec<&str> = row
        .open
        .iter()
        .map(|&face| part.faces[face].name.as_str())
        .collect();
    let mut cells = vec![
        name.to_string(),
        (place + 1).to_string(),
        (row.feature + 1).to_string(),
        row.face
            .map_or_else(none, |face| part.faces[face].name.clone()),
        kind_word(row.kind).into(),
        outline_word(&row.outline).into(),
        number(size[0]),
        number(size[1]),
        radius.map_or_else(none, number),
        angle.map_or_else(none, number),
        sides.map_or_else(none, |sides| sides.to_string()),
        number(row.entry_depth),
        number(row.depth),
        match row.end {
            End::Tip { depth, .. } => number(depth),
            _ => none(),
        },
        match row.end {
            End::Floor => "floor".into(),
            End::Tip { .. } => "tip".into(),
            End::Through => "through".into(),
            End::OpensInto(other) => format!("opens into {}", other + 1),
            End::Unknown => "unknown".into(),
        },
    ];
    cells.extend((0..3).map(|axis| number(row.centre[axis] - origin[axis])));
    cells.extend(row.axis.map(|part| fixed(part, 6)));
    cells.push(
        row.within
            .map_or_else(none, |within| (within + 1).to_string()),
    );
    cells.push(open.join(" "));
    cells.push(if row.is_confirmed() { "yes" } else { "no" }.into());
    cells.push(quoted(&notes(part, row)));
    let size = part.size();
    cells.extend(size.map(number));
    cells.push(number(size.into_iter().fold(f64::INFINITY, f64::min)));
    cells
}

/// Words as a field of a list of commas.
pub fn quoted(words: &str) -> String {
    if words.contains([',', '"', '\n']) {
        format!("\"{}\"", words.replace('"', "\"\""))
    } else {
        words.into()
    }
}
