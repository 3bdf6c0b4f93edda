//! STL files, binary and ASCII.
//!
//! A file has no unit; most programs write millimetres. The triangles are in the file's order.
//!
//! ```
//! use probe_rays::{stl, Mesh};
//!
//! let text = "solid one
//! facet normal 0 0 1
//!  outer loop
//!   vertex 0 0 0
//!   vertex 4 0 0
//!   vertex 0 4 0
//!  endloop
//! endfacet
//! endsolid one
//! ";
//! let facets = stl::facets(text.as_bytes())?;
//! let (vertices, triangles) = stl::merged(&facets);
//! assert_eq!((vertices.len(), triangles.len()), (3, 1));
//! let mesh = Mesh::build(vertices, triangles)?;
//! # Ok::<(), Box<dyn std::error::Error>>(())
//! ```
use std::collections::HashMap;
use std::error::Error;
use std::fmt;

/// The three corners of a facet.
pub type Corners = [[f64; 3]; 3];

/// Why a file is not accepted, in words.
#[derive(Clone, Debug, PartialEq, Eq)]
pub struct StlError(String);

impl fmt::Display for StlError {
    fn fmt(&self, out: &mut fmt::Formatter<'_>) -> fmt::Result {
        out.write_str(&self.0)
    }
}

impl Error for StlError {}

/// The facets of a file. All their coordinates are finite.
pub fn facets(bytes: &[u8]) -> Result<Vec<Corners>, StlError> {
    read(bytes).map_err(StlError)
}

/// No binary file has more facets: a larger count means another kind of file. Letters of text read as larger counts.
const MOST_FACETS: usize = 100_000_000;

/// A binary file may begin with 'solid', so the length decides: 84 bytes and 50 a facet. In an ASCII file the four bytes of
/// the count are letters, so that no length fits this count, and no byte is 0. A UTF-8 byte order mark before the text is
/// ignored.
fn read(bytes: &[u8]) -> Result<Vec<Corners>, String> {
    let count = bytes.get(80..84).map(|four| number(four) as usize);
    if count.is_some_and(|count| bytes.len() == 84 + 50 * count) {
        return binary(&bytes[84..]);
    }
    let text = bytes.strip_prefix(b"\xef\xbb\xbf").unwrap_or(bytes);
    let is_solid = text
        .trim_ascii_start()
        .get(..5)
        .is_some_and(|word| word.eq_ignore_ascii_case(b"solid"));
    if is_solid && !text.contains(&0) {
        return ascii(&String::from_utf8_lossy(text));
    }
    Err(match count {
        Some(count) if count <= MOST_FACETS && bytes.len() < 84 + 50 * count => format!(
            "cut short: a binary file of {count} facets has {} bytes, not {}",
            84 + 50 * count,
            bytes.len()
        ),
        Some(count) if is_solid => format!(
            "not an STL file: it begins with 'solid' but is not text, and a binary file of {count} facets has {} bytes, not {}",
            84 + 50 * count,
            bytes.len()
        ),
        Some(count) => format!(
            "not an STL file: it does not begin with 'solid', and a binary file of {count} facets has {} bytes, not {}",
            84 + 50 * count,
            bytes.len()
        ),
        None if is_solid => format!("cut short: a binary file has 84 bytes before its facets, and this file has {}", bytes.len()),
        None => format!("not an STL file: {} bytes that do not begin with 'solid'", bytes.len()),
    })
}

/// Four bytes, little-endian.
fn number(four: &[u8]) -> u32 {
    u32::from_le_bytes([four[0], four[1], four[2], four[3]])
}

/// The facets of a binary file: 50 bytes each, the corners after the 12 of the normal.
fn binary(bytes: &[u8]) -> Result<Vec<Corners>, String> {
    let coordinate = |at: &[u8]| f64::from(f32::from_bits(number(at)));
    let facet = |(index, facet): (usize, &[u8])| {
        let corner = |n: usize| std::array::from_fn(|axis| coordinate(&facet[12 * n + 4 * axis..]));
        finite([corner(1), corner(2), corner(3)], || {
            format!("facet {index}")
        })
    };
    bytes.chunks_exact(50).enumerate().map(facet).collect()
}

/// The facets of an ASCII file, which may hold several solids. Their names, and the facets' normals, are ignored.
fn ascii(text: &str) -> Result<Vec<Corners>, String> {
    let mut facets = Vec::new();
    let mut corners: Vec<[f64; 3]> = Vec::new();
    let mut open = false;
    for (line, words) in text.lines().enumerate() {
        let place = || format!("line {}", line + 1);
        let mut words = words.split_whitespace();
        let Some(first) = words.next() else { continue };
        match first.to_ascii_lowercase().as_str() {
            "solid" => open = true,
            "endsolid" => open = false,
            "facet" => corners.clear(),
            "outer" | "endloop" => {}
            "vertex" => corners.push(
                vertex(words)
                    .ok_or_else(|| format!("{}: 'vertex' takes three numbers", place()))?,
            ),
            "endfacet" => {
                let corners = <Corners>::try_from(corners.as_slice())
                    .map_err(|_| format!("{}: a facet of {} vertices", place(), corners.len()))?;
                facets.push(finite(corners, place)?);
            }
            other => {
                let start: String = other.chars().take(20).collect();
                return Err(format!(
                    "{}: {start:?} is not a word of an STL file",
                    place()
                ));
            }
        }
    }
    if open {
        return Err("cut short: the last solid has no 'endsolid'".into());
    }
    Ok(facets)
}

/// Three numbers, and nothing after them.
fn vertex<'a>(mut words: impl Iterator<Item = &'a str>) -> Option<[f64; 3]> {
    let mut part = || words.next()?.parse().ok();
    let corner = [part()?, part()?, part()?];
    words.next().is_none().then_some(corner)
}

/// The corners, if every coordinate is finite.
fn finite(corners: Corners, place: impl Fn() -> String) -> Result<Corners, String> {
    if corners
        .as_flattened()
        .iter()
        .all(|number| number.is_finite())
    {
        Ok(corners)
    } else {
        Err(format!("{}: a coordinate is not finite", place()))
    }
}

/// The vertices and triangles of facets. Equal vertices are merged; they are in the order of their first use.
pub fn merged(facets: &[Corners]) -> (Vec<[f64; 3]>, Vec<[u32; 3]>) {
    let mut places = HashMap::new();
    let mut vertices = Vec::new();
    let mut index = |corner: [f64; 3]| {
        // adding zero makes -0 and 0 one vertex
        let key = corner.map(|part| (part + 0.0).to_bits());
        *places.entry(key).or_insert_with(|| {
            vertices.push(corner);
            vertices.len() as u32 - 1
        })
    };
    let triangles = facets.iter().map(|facet| facet.map(&mut index)).collect();
    (vertices, triangles)
}
