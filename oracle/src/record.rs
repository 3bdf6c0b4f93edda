//! Records and lines of the program `probe` (document 01, 'Printed result').

use crate::{
    answer::{self, Answer, Constructed, Ray},
    plain,
};

pub const LONGEST: usize = 8_192;

#[derive(Clone, Debug, PartialEq)]
pub enum Shape {
    Plane {
        normal: [f64; 3],
        distance: f64,
    },
    Triangle {
        corners: [[f64; 3]; 3],
    },
    Mesh {
        vertices: Vec<f64>,
        indices: Vec<u32>,
    },
    HeightField {
        rows: u32,
        columns: u32,
        spacing: [f64; 2],
        heights: Vec<f64>,
    },
    LevelSet {
        sides: [u32; 3],
        origin: [f64; 3],
        spacing: [f64; 3],
        values: Vec<f64>,
    },
}

#[derive(Clone, Debug, PartialEq)]
pub struct Record {
    /// 2 carries the near distance, 1 means 0; 3 is 2 with every float as an f32.
    pub version: u8,
    pub ray: Ray,
    pub shape: Shape,
}

/// What stands next in a stream of records.
pub enum Next<'a> {
    End,
    Bad,
    Record(Record, &'a [u8]),
}

/// Takes fields from the front of a record; none if it is cut short.
struct Fields<'a> {
    rest: &'a [u8],
    /// Every float is an f32.
    short: bool,
}

impl Fields<'_> {
    fn bytes<const N: usize>(&mut self) -> Option<[u8; N]> {
        let (head, rest) = self.rest.split_first_chunk::<N>()?;
        self.rest = rest;
        Some(*head)
    }

    fn word(&mut self) -> Option<u32> {
        self.bytes().map(u32::from_be_bytes)
    }

    fn float(&mut self) -> Option<f64> {
        match self.short {
            true => self.bytes().map(|four| f64::from(f32::from_be_bytes(four))),
            false => self.bytes().map(f64::from_be_bytes),
        }
    }

    fn array<const N: usize>(&mut self) -> Option<[f64; N]> {
        let mut array = [0.0; N];
        for place in &mut array {
            *place = self.float()?;
        }
        Some(array)
    }

    /// `count` floats.
    fn floats(&mut self, count: u128) -> Option<Vec<f64>> {
        self.list(count, if self.short { 4 } else { 8 }, Fields::float)
    }

    /// `count` values of `size` bytes, which must not pass the end of the record.
    fn list<T>(
        &mut self,
        count: u128,
        size: u128,
        take: fn(&mut Self) -> Option<T>,
    ) -> Option<Vec<T>> {
        if count.checked_mul(size)? > self.rest.len() as u128 {
            return None;
        }
        (0..count).map(|_| take(self)).collect()
    }
}

impl Record {
    /// The record in a body without its length bytes; none if it is malformed.
    pub fn parse(body: &[u8]) -> Option<Self> {
        let mut fields = Fields {
            rest: body,
            short: false,
        };
        let [version, kind] = fields.bytes()?;
        if !(1..=3).contains(&version) {
            return None;
        }
        fields.short = version == 3;
        let ray = Ray {
            origin: fields.array()?,
            direction: fields.array()?,
            maximum: fields.float()?,
            near: if version == 1 { 0.0 } else { fields.float()? },
        };
        let shape = parse_shape(kind, &mut fields)?;
        let whole = fields.rest.is_empty();
        let record = Self {
            version,
            ray,
            shape,
        };
        (whole && record.fits()).then_some(record)
    }

    /// The record with its length bytes.
    pub fn write(&self) -> Vec<u8> {
        let mut body = Body {
            bytes: vec![self.version, self.shape.kind()],
            short: self.version == 3,
        };
        let ray = &self.ray;
        body.floats(&ray.origin);
        body.floats(&ray.direction);
        body.floats(&[ray.maximum]);
        if self.version > 1 {
            body.floats(&[ray.near]);
        }
        self.shape.write(&mut body);
        let mut record = (body.bytes.len() as u32).to_be_bytes().to_vec();
        record.append(&mut body.bytes);
        record
    }

    /// A record is at most 8,192 bytes long, and one of version 3 is so in version 2.
    pub fn fits(&self) -> bool {
        let long = self.version.min(2);
        let mut wide = self.clone();
        wide.version = long;
        wide.write().len() <= LONGEST + 4
    }

    /// Why a request of document 02 leaves the record out of runs against the Rust, if one does.
    pub fn left_out(&self) -> Option<&'static str> {
        match (&self.shape, self.answer()) {
            (Shape::LevelSet { .. }, Answer::Refused(5)) => {
                Some("the Rust refuses a distance grid with 5 (M-103)")
            }
            _ => plain::beside_the_rust(|| plain::answer(self)).1,
        }
    }

    /// The Rust's answer.
    pub fn answer(&self) -> Answer {
        let ray = &self.ray;
        match &self.shape {
            Shape::Plane { normal, distance } => answer::plane(ray, *normal, *distance),
            Shape::Triangle { corners } => answer::triangle(ray, *corners),
            Shape::Mesh { vertices, indices } => answer::mesh(ray, vertices, indices),
            Shape::HeightField {
                rows,
                columns,
                spacing,
                heights,
            } => answer::height_field(ray, *rows, *columns, *spacing, heights),
            Shape::LevelSet {
                sides,
                origin,
                spacing,
                values,
            } => answer::level_set(ray, *sides, *origin, *spacing, values),
        }
    }

    /// All floats of the record, for damage and for shrinking.
    pub fn floats_mut(&mut self) -> Vec<&mut f64> {
        let ray = &mut self.ray;
        let mut all: Vec<&mut f64> = ray.origin.iter_mut().collect();
        all.extend(&mut ray.direction);
        all.push(&mut ray.maximum);
        if self.version > 1 {
            all.push(&mut ray.near);
        }
        all.extend(self.shape.floats_mut());
        all
    }
}

impl Shape {
    pub fn kind(&self) -> u8 {
        match self {
            Shape::Plane { .. } => 1,
            Shape::Triangle { .. } => 2,
            Shape::Mesh { .. } => 3,
            Shape::HeightField { .. } => 4,
            Shape::LevelSet { .. } => 5,
        }
    }

    /// What the Rust's own constructor makes of the shape.
    pub fn constructed(&self) -> Constructed {
        match self {
            Shape::Plane { normal, distance } => answer::plane_constructed(*normal, *distance),
            Shape::Triangle { corners } => answer::triangle_constructed(*corners),
            Shape::Mesh { vertices, indices } => answer::mesh_constructed(vertices, indices),
            Shape::HeightField {
                rows,
                columns,
                spacing,
                heights,
            } => answer::height_field_constructed(*rows, *columns, *spacing, heights),
            Shape::LevelSet {
                sides,
                origin,
                spacing,
                values,
            } => answer::level_set_constructed(*sides, *origin, *spacing, values),
        }
    }

    pub fn floats_mut(&mut self) -> Vec<&mut f64> {
        match self {
            Shape::Plane { normal, distance } => {
                normal.iter_mut().chain(std::iter::once(distance)).collect()
            }
            Shape::Triangle { corners } => corners.iter_mut().flatten().collect(),
            Shape::Mesh { vertices, .. } => vertices.iter_mut().collect(),
            Shape::HeightField {
                spacing, heights, ..
            } => spacing.iter_mut().chain(heights).collect(),
            Shape::LevelSet {
                origin,
                spacing,
                values,
                ..
            } => origin.iter_mut().chain(spacing).chain(values).collect(),
        }
    }

    fn write(&self, body: &mut Body) {
        match self {
            Shape::Plane { normal, distance } => {
                body.floats(normal);
                body.floats(&[*distance]);
            }
            Shape::Triangle { corners } => body.floats(corners.as_flattened()),
            Shape::Mesh { vertices, indices } => {
                let counts = [vertices.len() as u32 / 3, indices.len() as u32 / 3];
                body.words(&counts);
                body.floats(vertices);
                body.words(indices);
            }
            Shape::HeightField {
                rows,
                columns,
                spacing,
                heights,
            } => {
                body.words(&[*rows, *columns]);
                body.floats(spacing);
                body.floats(heights);
            }
            Shape::LevelSet {
                sides,
                origin,
                spacing,
                values,
            } => {
                body.words(sides);
                body.floats(origin);
                body.floats(spacing);
                body.floats(values);
            }
        }
    }
}

fn parse_shape(kind: u8, fields: &mut Fields) -> Option<Shape> {
    match kind {
        1 => Some(Shape::Plane {
            normal: fields.array()?,
            distance: fields.float()?,
        }),
        2 => Some(Shape::Triangle {
            corners: [fields.array()?, fields.array()?, fields.array()?],
        }),
        3 => {
            let counts = [fields.word()?, fields.word()?].map(u128::from);
            Some(Shape::Mesh {
                vertices: fields.floats(3 * counts[0])?,
                indices: fields.list(3 * counts[1], 4, Fields::word)?,
            })
        }
        4 => {
            let [rows, columns] = [fields.word()?, fields.word()?];
            Some(Shape::HeightField {
                rows,
                columns,
                spacing: fields.array()?,
                heights: fields.floats(product(&[rows, columns]))?,
            })
        }
        5 => {
            let sides = [fields.word()?, fields.word()?, fields.word()?];
            Some(Shape::LevelSet {
                sides,
                origin: fields.array()?,
                spacing: fields.array()?,
                values: fields.floats(product(&sides))?,
            })
        }
        _ => None,
    }
}

/// Exact: three u32 stay below 2^96.
fn product(sides: &[u32]) -> u128 {
    sides.iter().map(|&side| u128::from(side)).product()
}

/// A body as it is written.
struct Body {
    bytes: Vec<u8>,
    /// Every float is an f32.
    short: bool,
}

impl Body {
    fn floats(&mut self, floats: &[f64]) {
        for float in floats {
            match self.short {
                true => self.bytes.extend((*float as f32).to_be_bytes()),
                false => self.bytes.extend(float.to_be_bytes()),
            }
        }
    }

    fn words(&mut self, words: &[u32]) {
        words
            .iter()
            .for_each(|w| self.bytes.extend(w.to_be_bytes()));
    }
}

/// Takes the next record from the front of a stream.
pub fn next(stream: &[u8]) -> Next<'_> {
    if stream.is_empty() {
        return Next::End;
    }
    let Some((length, rest)) = stream.split_first_chunk::<4>() else {
        return Next::Bad;
    };
    let length = u32::from_be_bytes(*length) as usize;
    if length > LONGEST || length > rest.len() {
        return Next::Bad;
    }
    let (body, rest) = rest.split_at(length);
    match Record::parse(body) {
        Some(record) => Next::Record(record, rest),
        None => Next::Bad,
    }
}

/// All records of a well-formed stream; none if one is malformed.
pub fn read_all(mut stream: &[u8]) -> Option<Vec<Record>> {
    let mut records = Vec::new();
    loop {
        match next(stream) {
            Next::End => return Some(records),
            Next::Bad => return None,
            Next::Record(record, rest) => {
                records.push(record);
                stream = rest;
            }
        }
    }
}

/// NaN as 7ff8000000000000, else the bits.
pub fn bits(value: f64) -> String {
    let bits = if value.is_nan() {
        0x7ff8_0000_0000_0000
    } else {
        value.to_bits()
    };
    format!("{bits:016x}")
}

pub fn line(number: u64, answer: &Answer) -> String {
    match answer {
        Answer::None => format!("{number} none"),
        Answer::Refused(refusal) => format!("{number} refused {refusal}"),
        Answer::Hit {
            normal: [x, y, z],
            distance,
            index,
        } => {
            let mut line = format!("{number} hit");
            for value in [x, y, z, distance] {
                line.push(' ');
                line.push_str(&bits(*value));
            }
            if let Some(index) = index {
                line.push_str(&format!(" {index}"));
            }
            line
        }
    }
}

/// The whole output of `probe` for a stream, by the Rust's answers.
pub fn probe(stream: &[u8], out: impl FnMut(&str, Option<&Record>)) {
    probe_by(Record::answer, stream, out);
}

/// The whole output of `probe` for a stream.
pub fn probe_by(
    answer: impl Fn(&Record) -> Answer,
    mut stream: &[u8],
    mut out: impl FnMut(&str, Option<&Record>),
) {
    for number in 1.. {
        match next(stream) {
            Next::End => return,
            Next::Bad => {
                out(&format!("{number} bad"), None);
                return;
            }
            Next::Record(record, rest) => {
                out(&line(number, &answer(&record)), Some(&record));
                stream = rest;
            }
        }
    }
}
