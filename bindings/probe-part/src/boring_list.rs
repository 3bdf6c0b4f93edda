//! A boring list from anywhere: commas, semicolons or tabs, with a head line. It has the columns of `bores --csv`, or `x`, `y`, `z`,
//! `axis`, `diameter` and `depth`.
use crate::geometry::{unit, Vector};

/// A bore that a list asks for.
#[derive(Clone, Copy, Debug, PartialEq)]
pub struct Bored {
    /// The line of the list, from 1.
    pub line: usize,
    /// The middle of its entry.
    pub centre: Vector,
    /// The unit direction into the part.
    pub axis: Vector,
    /// Its diameter.
    pub diameter: f64,
    /// How deep it is; none where it goes through.
    pub depth: Option<f64>,
}

/// What a list asks for.
#[derive(Clone, Debug, Default, PartialEq)]
pub struct BoringList {
    /// Its bores, in their order.
    pub bores: Vec<Bored>,
    /// How many lines are of another kind, such as a groove's.
    pub others: usize,
}

const NEEDED: [&str; 6] = ["x", "y", "z", "axis", "diameter", "depth"];

/// The faces that an axis may be named by, and the direction into the part from each.
const INTO: [(&str, Vector); 12] = [
    ("top", [0.0, 0.0, -1.0]),
    ("bottom", [0.0, 0.0, 1.0]),
    ("front", [0.0, 1.0, 0.0]),
    ("back", [0.0, -1.0, 0.0]),
    ("left", [1.0, 0.0, 0.0]),
    ("right", [-1.0, 0.0, 0.0]),
    ("x", [1.0, 0.0, 0.0]),
    ("-x", [-1.0, 0.0, 0.0]),
    ("y", [0.0, 1.0, 0.0]),
    ("-y", [0.0, -1.0, 0.0]),
    ("z", [0.0, 0.0, 1.0]),
    ("-z", [0.0, 0.0, -1.0]),
];

/// The fields of a line; a quoted one may hold separators, and a quote twice.
fn fields(line: &str, separator: char) -> Vec<String> {
    let mut fields = vec![String::new()];
    let mut quoted = false;
    let mut letters = line.chars().peekable();
    while let Some(letter) = letters.next() {
        let field = fields.last_mut().expect("one at least");
        match letter {
            '"' if quoted && letters.peek() == Some(&'"') => {
                letters.next();
                field.push('"');
            }
            '"' => quoted = !quoted,
            other if other == separator && !quoted => fields.push(String::new()),
            other => field.push(other),
        }
    }
    fields
        .iter()
        .map(|field| field.trim().to_string())
        .collect()
}

/// A line of a list, by its columns' names.
struct Line<'a> {
    number: usize,
    names: &'a [String],
    fields: Vec<String>,
}

impl Line<'_> {
    fn word(&self, name: &str) -> &str {
        let place = self.names.iter().position(|own| own == name);
        place
            .and_then(|place| self.fields.get(place))
            .map_or("", String::as_str)
    }

    fn wrong(&self, why: &str) -> String {
        format!("line {}: {why}", self.number)
    }

    fn number(&self, name: &str) -> Result<f64, String> {
        let word = self.word(name);
        match word.parse::<f64>() {
            Ok(number) if number.is_finite() => Ok(number),
            _ => Err(self.wrong(&format!("{name} is {word:?}, which is not a number"))),
        }
    }

    fn axis(&self) -> Result<Vector, String> {
        let word = self.word("axis").to_lowercase();
        let named = word.trim_start_matches('+');
        if let Some((_, way)) = INTO.iter().find(|(name, _)| *name == named) {
            return Ok(*way);
        }
        let parts: Vec<f64> = word
            .split_whitespace()
            .filter_map(|part| part.parse().ok())
            .collect();
        match <[f64; 3]>::try_from(parts) {
            Ok(way) if unit(way) != [0.0; 3] => Ok(unit(way)),
            _ => Err(self.wrong(&format!(
                "axis is {word:?}: use -z, +x and so on, a face's name, or three numbers"
            ))),
        }
    }

    fn depth(&self) -> Result<Option<f64>, String> {
        if self.word("end") == "through" || matches!(self.word("depth"), "" | "through") {
            return Ok(None);
        }
        self.number("depth").map(Some)
    }

    fn bored(&self, own: bool) -> Result<Bored, String> {
        let axis = if own {
            let [x, y, z] = ["axis_x", "axis_y", "axis_z"].map(|name| self.number(name));
            unit([x?, y?, z?])
        } else {
            self.axis()?
        };
        let [x, y, z] = ["x", "y", "z"].map(|name| self.number(name));
        let bored = Bored {
            line: self.number,
            centre: [x?, y?, z?],
            axis,
            diameter: self.number(if own { "width" } else { "diameter" })?,
            depth: self.depth()?,
        };
        let above = |length: f64| length > 0.0;
        if !above(bored.diameter) || !bored.depth.map_or(true, above) || axis == [0.0; 3] {
            return Err(
                self.wrong("diameter and depth are to be above 0, and the axis a direction")
            );
        }
        Ok(bored)
    }
}

/// Reads a list. What is wrong is said with its line.
pub fn read(text: &str) -> Result<BoringList, String> {
    let mut lines = text
        .lines()
        .enumerate()
        .filter(|(_, line)| !line.trim().is_empty());
    let (_, head) = lines.next().ok_or("the list is empty")?;
    let separator = [';', '\t', ',']
        .into_iter()
        .find(|&letter| head.contains(letter))
        .ok_or("the first line names no columns")?;
    let head = head.trim_start_matches('\u{feff}').to_lowercase();
    let names = fields(&head, separator);
    let own = names.iter().any(|name| name == "axis_x");
    let missing = NEEDED
        .iter()
        .find(|name| !own && !names.iter().any(|own| own == *name));
    if let Some(missing) = missing {
        return Err(format!(
            "no column {missing}: a list has x, y, z, axis, diameter, depth, or the columns of bores --csv"
        ));
    }
    let mut list = BoringList::default();
    for (place, line) in lines {
        let line = Line {
            number: place + 1,
            names: &names,
            fields: fields(line, separator),
        };
        let round = line.word("kind") == "pocket" && line.word("outline") == "circle";
        if !own || line.word("kind") == "bore" || round {
            list.bores.push(line.bored(own)?);
        } else {
            list.others += 1;
        }
    }
    Ok(list)
}
