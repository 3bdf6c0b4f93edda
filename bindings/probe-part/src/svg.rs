//! A face's depths as an SVG picture, with its rows numbered.
use crate::base64::base64;
use crate::geometry::Vector;
use crate::model::{Check, End, Kind, LeftOver, Outline, Row};
use crate::pictures::{DepthMap, OPEN};
use crate::tables::{depth_words, outline_word, size_words};
use crate::words::fixed;
use std::fmt::Write;

/// What is drawn over a face's depths.
#[derive(Clone, Debug, Default)]
pub struct Overlay<'a> {
    /// The words above; none where they are empty.
    pub title: String,
    /// The rows with their numbers in the list, from 1.
    pub rows: Vec<(usize, &'a Row)>,
    /// What is not understood, marked in red.
    pub left_over: Vec<&'a LeftOver>,
    /// Whether the rows stand below in words.
    pub listed: bool,
}

/// What is marked.
const RED: &str = "#d00000";

/// The picture. Its unit is a millimetre of the part.
pub fn svg(map: &DepthMap<'_>, overlay: &Overlay<'_>) -> String {
    let rows = overlay.rows.as_slice();
    let sheet = Sheet::new(map, overlay);
    let mut out = String::new();
    let mut line = |text: String| {
        out += &text;
        out.push('\n');
    };
    let [left, top] = [sheet.left, sheet.top];
    let [width, height] = sheet.size;
    let letter = sheet.letter;
    head(&mut line, &sheet, &overlay.title);
    line(depths(map, &sheet));
    outlines(&mut line, map, &sheet, rows);
    not_understood(&mut line, map, &sheet, &overlay.left_over);
    numbers(&mut line, map, &sheet, rows);
    let scale_at = [left + width + 2.0 * letter, top];
    scale(&mut line, map, scale_at, height.max(12.0 * letter), letter);
    ticks(&mut line, map, [left, top], [width, height], letter);
    if overlay.listed {
        list(&mut line, map, &sheet, rows);
    }
    line("</svg>".into());
    out
}

/// Where things stand on the sheet. Letters, lines and margins grow with the part.
struct Sheet {
    letter: f64,
    left: f64,
    top: f64,
    size: [f64; 2],
    /// The list's columns, and the lines of each.
    columns: usize,
    lines: usize,
}

impl Sheet {
    fn new(map: &DepthMap<'_>, overlay: &Overlay<'_>) -> Sheet {
        let (counts, step) = (map.counts(), map.raster.grid.step());
        let size: [f64; 2] = std::array::from_fn(|side| counts[side] as f64 * step[side]);
        // a page shows it smaller
        let share = if overlay.listed { 60.0 } else { 44.0 };
        let letter = (size[0].max(size[1]) / share).max(2.0);
        let rows = if overlay.listed {
            overlay.rows.len()
        } else {
            0
        };
        let columns = ((size[0] / (36.0 * letter)) as usize).max(1);
        Sheet {
            letter,
            left: 4.0 * letter,
            top: 4.0 * letter,
            size,
            columns,
            lines: rows.div_ceil(columns),
        }
    }

    /// The beginning of a group that counts from the part's upper left corner.
    fn group(&self, more: &str) -> String {
        format!(
            "<g transform=\"translate({:.2} {:.2})\" {more}>",
            self.left, self.top
        )
    }
}

fn head(line: &mut impl FnMut(String), sheet: &Sheet, title: &str) {
    let letter = sheet.letter;
    let width = fixed(sheet.left + sheet.size[0] + 9.0 * letter, 2);
    let listed = sheet.lines as f64 * 1.4 * letter;
    let scale = sheet.size[1].max(12.0 * letter) + 3.0 * letter;
    let below = (sheet.size[1] + 4.0 * letter + listed).max(scale);
    let height = fixed(sheet.top + below, 2);
    let size =
        format!("width=\"{width}mm\" height=\"{height}mm\" viewBox=\"0 0 {width} {height}\"");
    let font = format!("font-family=\"sans-serif\" font-size=\"{letter:.2}\"");
    line(format!(
        "<svg xmlns=\"http://www.w3.org/2000/svg\" {size} {font}>"
    ));
    if !title.is_empty() {
        line(format!("<title>{}</title>", escaped(title)));
    }
    line("<rect width=\"100%\" height=\"100%\" fill=\"#fafafa\"/>".into());
    line(text([sheet.left, 2.2 * letter], &escaped(title)));
}

fn text([x, y]: [f64; 2], words: &str) -> String {
    format!("<text x=\"{x:.2}\" y=\"{y:.2}\">{words}</text>")
}

/// The depths: a picture of a pixel for each probe.
fn depths(map: &DepthMap<'_>, sheet: &Sheet) -> String {
    let [width, height] = sheet.size.map(|side| fixed(side, 3));
    format!(
        "<image x=\"{:.2}\" y=\"{:.2}\" width=\"{width}\" height=\"{height}\" preserveAspectRatio=\"none\" \
         style=\"image-rendering:pixelated\" href=\"data:image/png;base64,{}\"/>",
        sheet.left,
        sheet.top,
        base64(&map.pixels().to_png())
    )
}

/// Whether a row is to be looked at: it is not confirmed, or its end is not understood.
fn is_marked(row: &Row) -> bool {
    row.check != Check::Confirmed || row.end == End::Unknown
}

/// The boxes around what is left over, in red.
fn not_understood(
    line: &mut impl FnMut(String),
    map: &DepthMap<'_>,
    sheet: &Sheet,
    left_over: &[&LeftOver],
) {
    let stroke = format!(
        "stroke=\"{RED}\" stroke-width=\"{:.3}\"",
        sheet.letter / 4.0
    );
    line(sheet.group(&format!("fill=\"{RED}\" fill-opacity=\"0.25\" {stroke}")));
    for rest in left_over {
        let ends = [seen(map, rest.low), seen(map, rest.high)];
        let low: [f64; 2] = std::array::from_fn(|side| ends[0][side].min(ends[1][side]));
        let wide: [f64; 2] = std::array::from_fn(|side| (ends[0][side] - ends[1][side]).abs());
        let margin = sheet.letter / 3.0;
        let [x, y] = low.map(|part| fixed(part - margin, 3));
        let [width, height] = wide.map(|part| fixed(part + 2.0 * margin, 3));
        line(format!(
            "<rect x=\"{x}\" y=\"{y}\" width=\"{width}\" height=\"{height}\"/>"
        ));
    }
    line("</g>".into());
}

fn outlines(
    line: &mut impl FnMut(String),
    map: &DepthMap<'_>,
    sheet: &Sheet,
    rows: &[(usize, &Row)],
) {
    let [width, height] = sheet.size.map(|side| fixed(side, 3));
    let stroke = format!(
        "stroke=\"#282828\" stroke-width=\"{:.3}\"",
        sheet.letter / 12.0
    );
    line(sheet.group(&format!("fill=\"none\" {stroke}")));
    line(format!("<rect width=\"{width}\" height=\"{height}\"/>"));
    for (_, row) in rows {
        let outline = drawn(map, row);
        line(if is_marked(row) {
            format!(
                "<g stroke=\"{RED}\" stroke-width=\"{:.3}\">{outline}</g>",
                sheet.letter / 4.0
            )
        } else {
            outline
        });
    }
    line("</g>".into());
}

/// The numbers of the rows.
fn numbers(
    line: &mut impl FnMut(String),
    map: &DepthMap<'_>,
    sheet: &Sheet,
    rows: &[(usize, &Row)],
) {
    let letter = sheet.letter;
    let halo = format!(
        "stroke=\"#ffffff\" stroke-width=\"{:.3}\" paint-order=\"stroke\"",
        letter / 5.0
    );
    line(sheet.group(&format!(
        "text-anchor=\"middle\" font-weight=\"bold\" fill=\"#182848\" {halo}"
    )));
    for (number, row) in rows {
        let [x, y] = seen(map, row.centre);
        let [width, height] = extent(map, row);
        // below what is too small to be written into; what lies within another, or on a narrow face, to its right
        let is_strip = sheet.size[1] < 5.0 * letter;
        let place = if row.within.is_some() || is_strip {
            [x + width / 2.0 + letter, y + letter / 3.0]
        } else if height < 2.0 * letter || holds_another(rows, *number) {
            [x, y + height / 2.0 + letter]
        } else {
            [x, y + letter / 3.0]
        };
        line(text(place, &number.to_string()));
    }
    line("</g>".into());
}

/// What the numbers stand for, in columns below.
fn list(line: &mut impl FnMut(String), map: &DepthMap<'_>, sheet: &Sheet, rows: &[(usize, &Row)]) {
    for (place, (number, listed)) in rows.iter().enumerate() {
        let at = map.face.along().map(|axis| {
            let name = ["x", "y", "z"][axis];
            format!("{name} {}", fixed(listed.centre[axis], 2))
        });
        let words = format!("{number}: {}, {}", words(listed), at.join(", "));
        let [column, row] = [place / sheet.lines, place % sheet.lines].map(|count| count as f64);
        let x = sheet.left + column * sheet.size[0] / sheet.columns as f64;
        let y = sheet.top + sheet.size[1] + (5.0 + 1.4 * row) * sheet.letter;
        line(text([x, y], &escaped(&words)));
    }
}

/// Whether another row lies within the one of a number.
fn holds_another(rows: &[(usize, &Row)], number: usize) -> bool {
    rows.iter()
        .any(|(_, other)| other.within == Some(number - 1))
}

/// A row in words, such as 'circle 8.00, depth 12.00'.
fn words(row: &Row) -> String {
    let depth = match (row.end, row.kind) {
        (End::Through, _) => depth_words(row),
        (_, Kind::Island | Kind::Boss) => format!("stands out {}", depth_words(row)),
        _ => format!("depth {}", depth_words(row)),
    };
    format!(
        "{} {}, {depth}",
        outline_word(&row.outline),
        size_words(&row.outline)
    )
}

/// A place of the face, from the left and from the top.
fn seen(map: &DepthMap<'_>, place: Vector) -> [f64; 2] {
    let grid = &map.raster.grid;
    let [first, second] = map.face.along();
    let [columns, rows] = grid.counts();
    let [step_x, step_y] = grid.step();
    let corner = grid.place(0);
    let x = place[first] - (corner[0] - step_x / 2.0);
    let y = place[second] - (corner[1] - step_y / 2.0);
    let x = if map.face.is_mirrored() {
        columns as f64 * step_x - x
    } else {
        x
    };
    [x, rows as f64 * step_y - y]
}

/// How wide and high a row's outline is.
fn extent(map: &DepthMap<'_>, row: &Row) -> [f64; 2] {
    let points = row.loops.iter().flatten().map(|&point| seen(map, point));
    let points: Vec<[f64; 2]> = points.collect();
    let wide = |side: usize| {
        let low = points
            .iter()
            .map(|point| point[side])
            .fold(f64::INFINITY, f64::min);
        let high = points
            .iter()
            .map(|point| point[side])
            .fold(f64::NEG_INFINITY, f64::max);
        (high - low).max(0.0)
    };
    [wide(0), wide(1)]
}

/// The outline of a row: circles, or the polygons around it.
fn drawn(map: &DepthMap<'_>, row: &Row) -> String {
    let [x, y] = seen(map, row.centre).map(|part| fixed(part, 3));
    let circle = |diameter: f64| {
        format!(
            "<circle cx=\"{x}\" cy=\"{y}\" r=\"{}\"/>",
            fixed(diameter / 2.0, 3)
        )
    };
    match &row.outline {
        Outline::Circle { diameter, .. } => circle(*diameter),
        Outline::Ring { outer, inner } => circle(*outer) + &circle(*inner),
        _ => row
            .loops
            .iter()
            .take(1)
            .map(|around| polygon(map, around))
            .collect(),
    }
}

fn polygon(map: &DepthMap<'_>, around: &[Vector]) -> String {
    let point = |&point: &Vector| seen(map, point).map(|part| fixed(part, 3)).join(",");
    let points: Vec<String> = around.iter().map(point).collect();
    format!("<polygon points=\"{}\"/>", points.join(" "))
}

/// The colours and their depths.
fn scale(
    line: &mut impl FnMut(String),
    map: &DepthMap<'_>,
    [x, y]: [f64; 2],
    height: f64,
    letter: f64,
) {
    let bands = 60;
    line(format!("<g transform=\"translate({x:.2} {y:.2})\">"));
    for band in 0..bands {
        let depth = map.deepest * band as f64 / (bands - 1) as f64;
        line(format!(
            "<rect y=\"{:.3}\" width=\"{:.3}\" height=\"{:.3}\" fill=\"{}\"/>",
            height * band as f64 / bands as f64,
            letter,
            height / bands as f64 * 1.05,
            hex(map.colour(depth))
        ));
    }
    for mark in map.marks() {
        let places = usize::from(mark.fract() != 0.0);
        line(format!(
            "<text x=\"{:.2}\" y=\"{:.2}\">{}</text>",
            1.5 * letter,
            height * mark / map.deepest + letter / 3.0,
            fixed(mark, places)
        ));
    }
    line(format!("<text x=\"0\" y=\"{:.2}\">mm deep</text>", -letter));
    line(format!(
        "<rect y=\"{:.2}\" width=\"{letter:.2}\" height=\"{letter:.2}\" fill=\"{}\" stroke=\"#282828\" stroke-width=\"{:.3}\"/>",
        height + letter,
        hex(OPEN),
        letter / 12.0
    ));
    line(format!(
        "<text x=\"{:.2}\" y=\"{:.2}\">through</text>",
        1.5 * letter,
        height + 1.9 * letter
    ));
    line("</g>".into());
}

/// The coordinates along two sides.
fn ticks(
    line: &mut impl FnMut(String),
    map: &DepthMap<'_>,
    [left, top]: [f64; 2],
    [width, height]: [f64; 2],
    letter: f64,
) {
    let axes = map.face.along().map(|axis| ["x", "y", "z"][axis]);
    let grid = &map.raster.grid;
    let corner = grid.place(0);
    let low: [f64; 2] = std::array::from_fn(|side| corner[side] - grid.step()[side] / 2.0);
    for (side, extent) in [width, height].into_iter().enumerate() {
        let step = [1.0, 2.0, 5.0, 10.0, 20.0, 50.0, 100.0, 200.0, 500.0, 1000.0]
            .into_iter()
            .find(|step| extent / step <= 12.0 && *step >= 2.0 * letter)
            .unwrap_or(2000.0);
        let mut mark = (low[side] / step).ceil() * step;
        while mark <= low[side] + extent + 1e-9 {
            let at = mark - low[side];
            let (x, y, anchor) = if side == 0 {
                let x = if map.face.is_mirrored() {
                    extent - at
                } else {
                    at
                };
                (left + x, top + height + 1.3 * letter, "middle")
            } else {
                (left - letter / 2.0, top + height - at + letter / 3.0, "end")
            };
            let text = fixed(mark, 0);
            line(format!(
                "<text x=\"{x:.2}\" y=\"{y:.2}\" text-anchor=\"{anchor}\">{text}</text>"
            ));
            mark += step;
        }
    }
    line(format!(
        "<text x=\"{:.2}\" y=\"{:.2}\" text-anchor=\"middle\">{} to the {}, {} upwards, mm</text>",
        left + width / 2.0,
        top + height + 2.8 * letter,
        axes[0],
        if map.face.is_mirrored() {
            "left"
        } else {
            "right"
        },
        axes[1]
    ));
}

fn hex([red, green, blue]: [u8; 3]) -> String {
    let mut text = String::from("#");
    for part in [red, green, blue] {
        // a string takes whatever is written
        let _ = write!(text, "{part:02x}");
    }
    text
}

/// Words as a page takes them.
pub fn escaped(text: &str) -> String {
    text.replace('&', "&amp;")
        .replace('<', "&lt;")
        .replace('>', "&gt;")
        .replace('"', "&quot;")
}
