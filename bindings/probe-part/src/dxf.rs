//! A face as a DXF drawing (R12, AC1009), in millimetres: a layer for each kind, diameter and depth.
use crate::model::{End, Outline, Part, Row};
use crate::plans::{left_over_of, rows_of, Plan};
use crate::tables::{kind_word, lean};
use std::collections::BTreeMap;

/// The layer of the face's outline: of a round face, of the box around the part.
pub const PART: &str = "PART";
/// The layer of the numbers in the list.
pub const NUMBERS: &str = "NUMBERS";
/// The layer of what is left over.
pub const NOT_UNDERSTOOD: &str = "NOT_UNDERSTOOD";

const WHITE: u8 = 7;
const RED: u8 = 1;

/// The drawing of a face, as somebody sees it who looks at it, from the lower left corner of the box around the part.
pub fn dxf(part: &Part, face: usize) -> String {
    let plan = Plan::of(part, &part.faces[face]);
    let mut drawing = Drawing::default();
    for outline in &part.faces[face].outline {
        let corners: Vec<[f64; 2]> = outline.iter().map(|&corner| plan.place(corner)).collect();
        drawing.polygon(PART, WHITE, &corners);
    }
    if part.faces[face].outline.is_empty() {
        drawing.polygon(PART, WHITE, &rectangle([0.0, 0.0], plan.size));
    }
    for (number, row) in rows_of(part, face) {
        let colour = if row.is_confirmed() && row.end != End::Unknown {
            WHITE
        } else {
            RED
        };
        drawing.row(&plan, part, row, colour);
        drawing.number(plan.place(row.centre), number);
    }
    for rest in left_over_of(part, face) {
        let [low, high] = plan.box_of(rest);
        drawing.polygon(NOT_UNDERSTOOD, RED, &rectangle(low, high));
    }
    drawing.file(plan.size)
}

/// The layer of a row, such as `BORE-D8_5-Z12`, `BORE-D8-THROUGH` or, where its entry lies 5 below the face, `BORE-D8-Z7-E5`.
pub fn layer(row: &Row) -> String {
    let mut name = kind_word(row.kind).to_uppercase();
    match row.outline {
        Outline::Circle { diameter, .. } => name += &format!("-D{}", short(diameter)),
        Outline::Ring { outer, inner } => {
            name += &format!("-D{}-D{}", short(outer), short(inner));
        }
        _ => {}
    }
    name += &match row.end {
        End::Through => "-THROUGH".into(),
        _ => format!("-Z{}", short(row.depth)),
    };
    if row.entry_depth > 0.005 {
        name += &format!("-E{}", short(row.entry_depth));
    }
    name
}

/// A number of at most two places as a layer's name takes it: the point is an underline.
fn short(number: f64) -> String {
    let text = format!("{number:.2}");
    let text = text.trim_end_matches('0').trim_end_matches('.');
    text.replace('.', "_")
}

fn rectangle(low: [f64; 2], high: [f64; 2]) -> [[f64; 2]; 4] {
    [low, [high[0], low[1]], high, [low[0], high[1]]]
}

/// The layers with their colours, and the entities.
#[derive(Default)]
struct Drawing {
    layers: BTreeMap<String, u8>,
    entities: String,
}

/// A group: a code, and its value.
fn group(text: &mut String, code: u32, value: &str) {
    *text += &format!("{code:>3}\n{value}\n");
}

fn groups(text: &mut String, all: &[(u32, &str)]) {
    all.iter()
        .for_each(|(code, value)| group(text, *code, value));
}

fn point(text: &mut String, [x, y]: [f64; 2]) {
    group(text, 10, &format!("{x:.6}"));
    group(text, 20, &format!("{y:.6}"));
    group(text, 30, "0.0");
}

impl Drawing {
    fn begin(&mut self, entity: &str, layer: &str, colour: u8) {
        let known = self.layers.entry(layer.into()).or_insert(colour);
        if colour == RED {
            *known = RED;
        }
        group(&mut self.entities, 0, entity);
        group(&mut self.entities, 8, layer);
    }

    fn circle(&mut self, layer: &str, colour: u8, centre: [f64; 2], diameter: f64) {
        self.begin("CIRCLE", layer, colour);
        point(&mut self.entities, centre);
        group(&mut self.entities, 40, &format!("{:.6}", diameter / 2.0));
    }

    fn polygon(&mut self, layer: &str, colour: u8, corners: &[[f64; 2]]) {
        self.begin("POLYLINE", layer, colour);
        group(&mut self.entities, 66, "1");
        point(&mut self.entities, [0.0; 2]);
        group(&mut self.entities, 70, "1");
        for &corner in corners {
            self.begin("VERTEX", layer, colour);
            point(&mut self.entities, corner);
        }
        self.begin("SEQEND", layer, colour);
    }

    fn number(&mut self, place: [f64; 2], number: usize) {
        self.begin("TEXT", NUMBERS, WHITE);
        point(&mut self.entities, place);
        group(&mut self.entities, 40, "3.0");
        group(&mut self.entities, 1, &number.to_string());
    }

    /// Circles straight into the face, and the polygons of all else.
    fn row(&mut self, plan: &Plan, part: &Part, row: &Row, colour: u8) {
        let layer = layer(row);
        let centre = plan.place(row.centre);
        let is_flat = row.face.is_some_and(|face| !part.faces[face].is_round);
        let is_straight = is_flat && lean(part, row).is_none();
        match row.outline {
            Outline::Circle { diameter, .. } if is_straight => {
                self.circle(&layer, colour, centre, diameter);
            }
            Outline::Ring { outer, inner } if is_straight => {
                self.circle(&layer, colour, centre, outer);
                self.circle(&layer, colour, centre, inner);
            }
            _ => {
                for around in &row.loops {
                    let corners: Vec<[f64; 2]> = around.iter().map(|&p| plan.place(p)).collect();
                    self.polygon(&layer, colour, &corners);
                }
            }
        }
    }

    /// The text of the file: a header with the drawing's extent, the tables, and the entities.
    fn file(&self, [width, height]: [f64; 2]) -> String {
        let mut text = String::new();
        groups(&mut text, &[(0, "SECTION"), (2, "HEADER")]);
        groups(&mut text, &[(9, "$ACADVER"), (1, "AC1009")]);
        for (name, corner) in [("$EXTMIN", [0.0, 0.0]), ("$EXTMAX", [width, height])] {
            group(&mut text, 9, name);
            point(&mut text, corner);
        }
        groups(&mut text, &[(0, "ENDSEC")]);
        self.tables(&mut text);
        groups(&mut text, &[(0, "SECTION"), (2, "ENTITIES")]);
        text += &self.entities;
        groups(&mut text, &[(0, "ENDSEC"), (0, "EOF")]);
        text
    }

    /// The one line type, and the layers with their colours.
    fn tables(&self, text: &mut String) {
        groups(text, &[(0, "SECTION"), (2, "TABLES")]);
        groups(text, &[(0, "TABLE"), (2, "LTYPE"), (70, "1")]);
        groups(text, &[(0, "LTYPE"), (2, "CONTINUOUS"), (70, "0")]);
        groups(
            text,
            &[(3, "Solid line"), (72, "65"), (73, "0"), (40, "0.0")],
        );
        groups(text, &[(0, "ENDTAB"), (0, "TABLE"), (2, "LAYER")]);
        group(text, 70, &self.layers.len().to_string());
        for (name, colour) in &self.layers {
            groups(text, &[(0, "LAYER"), (2, name), (70, "0")]);
            groups(text, &[(62, &colour.to_string()), (6, "CONTINUOUS")]);
        }
        groups(text, &[(0, "ENDTAB"), (0, "ENDSEC")]);
    }
}
