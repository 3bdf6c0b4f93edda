//! A reader of DXF R12 drawings of circles, closed polylines and texts. It panics at anything else, and at what a reader of
//! R12 needs and does not find: sections in their order, declared layers and line types, polylines that end.
use std::collections::BTreeMap;

pub type Place = [f64; 2];

/// A drawing: the colour of each layer, the corners of its extent, and what stands in it.
#[derive(Debug)]
pub struct Drawing {
    pub layers: BTreeMap<String, u8>,
    pub extent: [Place; 2],
    pub circles: Vec<(String, Place, f64)>,
    pub polylines: Vec<(String, Vec<Place>)>,
    pub texts: Vec<(String, Place, String)>,
}

/// A table's entry or an entity: its name, and its groups.
#[derive(Debug)]
struct Record {
    name: String,
    groups: Vec<(u32, String)>,
}

impl Record {
    fn text(&self, code: u32) -> &str {
        let mut found = self.groups.iter().filter(|group| group.0 == code);
        let value = &found
            .next()
            .unwrap_or_else(|| panic!("no {code}: {self:?}"))
            .1;
        assert!(found.next().is_none(), "{code} twice: {self:?}");
        value
    }

    fn number(&self, code: u32) -> f64 {
        self.text(code).trim().parse().unwrap()
    }

    fn place(&self) -> Place {
        assert_eq!(self.number(30), 0.0, "{self:?}");
        [self.number(10), self.number(20)]
    }

    /// The layer, which is to be declared.
    fn layer(&self, layers: &BTreeMap<String, u8>) -> String {
        let layer = self.text(8);
        assert!(layers.contains_key(layer), "{layer} is not declared");
        layer.into()
    }
}

/// The records of groups: each begins with a group of code 0.
fn records(groups: &[(u32, String)]) -> Vec<Record> {
    let mut all: Vec<Record> = Vec::new();
    for (code, value) in groups {
        match (code, all.last_mut()) {
            (0, _) => all.push(Record {
                name: value.clone(),
                groups: Vec::new(),
            }),
            (_, Some(record)) => record.groups.push((*code, value.clone())),
            _ => panic!("{code} {value} stands before the first record"),
        }
    }
    all
}

/// The groups between two of code 0 and these values; what was read is taken away.
fn between(groups: &mut &[(u32, String)], first: &str, last: &str) -> Vec<(u32, String)> {
    assert_eq!(groups[0], (0, first.into()));
    let end = groups.iter().position(|group| *group == (0, last.into()));
    let end = end.unwrap_or_else(|| panic!("no {last}"));
    let within = groups[1..end].to_vec();
    *groups = &groups[end + 1..];
    within
}

/// A section's groups, without its name.
fn section(groups: &mut &[(u32, String)], name: &str) -> Vec<(u32, String)> {
    let mut within = between(groups, "SECTION", "ENDSEC");
    assert_eq!(within.remove(0), (2, name.into()));
    within
}

/// A table's records; it says how many there are.
fn table(groups: &mut &[(u32, String)], name: &str) -> Vec<Record> {
    let within = between(groups, "TABLE", "ENDTAB");
    assert_eq!(within[0], (2, name.into()));
    let all = records(&within[2..]);
    assert_eq!(within[1], (70, all.len().to_string()));
    assert!(all.iter().all(|record| record.name == name));
    all
}

/// The layers with their colours, and the groups of the entities.
fn layers(groups: &[(u32, String)]) -> BTreeMap<String, u8> {
    let mut rest = groups;
    let types = table(&mut rest, "LTYPE");
    let types: Vec<&str> = types.iter().map(|record| record.text(2)).collect();
    let layers = table(&mut rest, "LAYER");
    assert!(rest.is_empty(), "{rest:?}");
    let letter =
        |byte: u8| byte.is_ascii_uppercase() || byte.is_ascii_digit() || b"$-_".contains(&byte);
    layers
        .iter()
        .map(|layer| {
            let name = layer.text(2);
            assert!(name.len() <= 31 && name.bytes().all(letter), "{name}");
            assert!(types.contains(&layer.text(6)), "{layer:?}");
            (name.into(), layer.text(62).parse().unwrap())
        })
        .collect()
}

/// The extent that the header tells, of a drawing of the version R12.
fn extent(header: &[(u32, String)]) -> [Place; 2] {
    let at = |name: &str| {
        let place = header.iter().position(|group| *group == (9, name.into()));
        place.unwrap_or_else(|| panic!("no {name}")) + 1
    };
    assert_eq!(header[at("$ACADVER")], (1, "AC1009".into()));
    ["$EXTMIN", "$EXTMAX"].map(|name| {
        let place = |code: u32, n: usize| {
            assert_eq!(header[at(name) + n].0, code);
            header[at(name) + n].1.parse::<f64>().unwrap()
        };
        [place(10, 0), place(20, 1)]
    })
}

impl Drawing {
    /// Reads a drawing.
    pub fn read(text: &str) -> Drawing {
        assert!(text.is_ascii());
        let mut lines = text.lines();
        let mut groups: Vec<(u32, String)> = Vec::new();
        while let Some(code) = lines.next() {
            let value = lines.next().unwrap_or_else(|| panic!("no value of {code}"));
            groups.push((code.trim().parse().unwrap(), value.into()));
        }
        let mut rest = groups.as_slice();
        let header = section(&mut rest, "HEADER");
        let tables = section(&mut rest, "TABLES");
        let entities = section(&mut rest, "ENTITIES");
        assert_eq!(rest, [(0, "EOF".into())]);
        let mut drawing = Drawing {
            layers: layers(&tables),
            extent: extent(&header),
            circles: Vec::new(),
            polylines: Vec::new(),
            texts: Vec::new(),
        };
        let mut entities = records(&entities).into_iter();
        while let Some(entity) = entities.next() {
            drawing.add(&entity, &mut entities);
        }
        drawing
    }

    /// Adds an entity; a polyline takes its vertices from those that follow.
    fn add(&mut self, entity: &Record, rest: &mut impl Iterator<Item = Record>) {
        let layer = entity.layer(&self.layers);
        match entity.name.as_str() {
            "CIRCLE" => {
                let radius = entity.number(40);
                assert!(radius > 0.0);
                self.circles.push((layer, entity.place(), radius));
            }
            "TEXT" => {
                assert!(entity.number(40) > 0.0);
                self.texts
                    .push((layer, entity.place(), entity.text(1).into()));
            }
            "POLYLINE" => {
                // closed, with vertices to follow
                assert_eq!((entity.text(66), entity.text(70)), ("1", "1"));
                assert_eq!(entity.place(), [0.0; 2]);
                let mut corners = Vec::new();
                loop {
                    let next = rest.next().expect("a polyline that does not end");
                    assert_eq!(next.layer(&self.layers), layer);
                    match next.name.as_str() {
                        "VERTEX" => corners.push(next.place()),
                        "SEQEND" => break,
                        other => panic!("{other} in a polyline"),
                    }
                }
                assert!(corners.len() >= 3);
                self.polylines.push((layer, corners));
            }
            other => panic!("{other}"),
        }
    }

    /// The polylines of a layer.
    pub fn of_layer(&self, layer: &str) -> Vec<&[Place]> {
        let here = self.polylines.iter().filter(|line| line.0 == layer);
        here.map(|line| line.1.as_slice()).collect()
    }
}

/// Whether two polygons have the same corners in the same order, from some corner on, to the left or to the right around.
pub fn is_same(read: &[Place], wanted: &[Place]) -> bool {
    let count = wanted.len();
    let near = |a: Place, b: Place| (a[0] - b[0]).hypot(a[1] - b[1]) < 1e-3;
    read.len() == count
        && (0..count).any(|start| {
            let left = (0..count).all(|n| near(read[n], wanted[(start + n) % count]));
            let right = (0..count).all(|n| near(read[n], wanted[(start + count - n) % count]));
            left || right
        })
}
