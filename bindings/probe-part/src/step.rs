//! STEP files, read by `probe-step` with OpenCASCADE: every solid with its name, its triangles in place, and the surface that
//! each triangle belongs to. docs/STEP.md has the format.
use crate::geometry::Vector;
use crate::kinds::STEP_ADVICE;
use std::fs::File;
use std::io::{ErrorKind, Read};
use std::path::{Path, PathBuf};
use std::process::{Command, Stdio};

/// The surface of a face, with the drawing's own numbers, in millimetres and radians.
#[derive(Clone, Copy, Debug, PartialEq)]
pub enum Surface {
    /// A plane: a point of it and its normal.
    Plane {
        /// A point of the plane.
        point: Vector,
        /// Its normal, of length 1.
        normal: Vector,
    },
    /// A cylinder.
    Cylinder {
        /// A point of its axis.
        point: Vector,
        /// The direction of its axis, of length 1.
        direction: Vector,
        /// Its radius.
        radius: f64,
    },
    /// A cone.
    Cone {
        /// A point of its axis.
        point: Vector,
        /// The direction of its axis, of length 1.
        direction: Vector,
        /// Its radius at that point.
        radius: f64,
        /// The angle between its axis and its side: above 0, the radius grows along the direction.
        angle: f64,
    },
    /// Any other surface.
    Other,
}

impl Surface {
    /// The surface with its place moved.
    pub fn moved(self, place: impl Fn(Vector) -> Vector) -> Surface {
        match self {
            Surface::Plane { point, normal } => Surface::Plane {
                point: place(point),
                normal,
            },
            Surface::Cylinder {
                point,
                direction,
                radius,
            } => Surface::Cylinder {
                point: place(point),
                direction,
                radius,
            },
            Surface::Cone {
                point,
                direction,
                radius,
                angle,
            } => Surface::Cone {
                point: place(point),
                direction,
                radius,
                angle,
            },
            Surface::Other => Surface::Other,
        }
    }
}

/// A solid of a STEP file.
#[derive(Clone, Debug, PartialEq)]
pub struct Solid {
    /// The name of its product; it may be empty, and others may have it too.
    pub name: String,
    /// The surfaces of its faces.
    pub surfaces: Vec<Surface>,
    /// Its vertices, in place.
    pub vertices: Vec<Vector>,
    /// Its triangles, each of three vertices.
    pub triangles: Vec<[u32; 3]>,
    /// The surface of each triangle.
    pub surface_of: Vec<u32>,
}

/// What a STEP file holds.
#[derive(Clone, Debug, PartialEq)]
pub struct Assembly {
    /// The file's own unit of length, as it names it. All numbers here are in millimetres.
    pub unit: String,
    /// Its solids, in the file's order.
    pub solids: Vec<Solid>,
}

impl Assembly {
    /// All solids as one.
    pub fn joined(self) -> Solid {
        let mut whole = Solid {
            name: String::new(),
            surfaces: Vec::new(),
            vertices: Vec::new(),
            triangles: Vec::new(),
            surface_of: Vec::new(),
        };
        for solid in self.solids {
            let [corners, surfaces] =
                [&whole.vertices.len(), &whole.surfaces.len()].map(|&count| count as u32);
            let moved = solid.triangles.iter();
            whole
                .triangles
                .extend(moved.map(|triangle| triangle.map(|corner| corner + corners)));
            let moved = solid.surface_of.iter();
            whole
                .surface_of
                .extend(moved.map(|surface| surface + surfaces));
            whole.vertices.extend(solid.vertices);
            whole.surfaces.extend(solid.surfaces);
        }
        whole
    }
}

/// The name of the program that reads STEP files.
const PROGRAM: &str = "probe-step";

/// The packages that it is built with on Debian.
const PACKAGES: &str = "libocct-data-exchange-dev libocct-ocaf-dev libocct-modeling-algorithms-dev";

/// The first bytes of a STEP file.
const STARTS: &[u8] = b"ISO-10303-21";

/// The bytes that some programs put before a text.
const BYTE_ORDER_MARK: &[u8] = b"\xef\xbb\xbf";

/// Whether a file is a STEP file, by its first bytes; a byte order mark and white space before them are passed over. What
/// cannot be read is said in words, with the file's name.
pub fn is_step(file: &str) -> Result<bool, String> {
    let fault = |why| format!("{file}: {why}");
    let mut start = Vec::new();
    let opened = File::open(file).map_err(fault)?;
    opened.take(256).read_to_end(&mut start).map_err(fault)?;
    let text = start.strip_prefix(BYTE_ORDER_MARK).unwrap_or(&start);
    Ok(text.trim_ascii_start().starts_with(STARTS))
}

/// The solids of a STEP file. What cannot be read is said in words.
pub fn read(file: &Path) -> Result<Assembly, String> {
    let ran = Command::new(program())
        .arg(file)
        .stdin(Stdio::null())
        .output()
        .map_err(|why| match why.kind() {
            ErrorKind::NotFound => format!(
                "this is a STEP file: it is read by {PROGRAM}, which is not installed; tools/install builds it where OpenCASCADE is (apt-get install {PACKAGES}); or {}",
                STEP_ADVICE.replace(":\n ", ":")
            ),
            _ => format!("{PROGRAM}: {why}"),
        })?;
    if !ran.status.success() {
        let said = String::from_utf8_lossy(&ran.stderr);
        let line = said.lines().last().unwrap_or("it ended without a word");
        let line = line.trim_start_matches("probe-step: ");
        return Err(format!(
            "{line}; gmsh may make an STL file of it (docs/STEP.md)"
        ));
    }
    let text = String::from_utf8_lossy(&ran.stdout);
    parse(&text).ok_or_else(|| format!("{PROGRAM} wrote something else than docs/STEP.md says"))
}

/// `probe-step` beside this program, where it is; else the one on the path.
fn program() -> PathBuf {
    let beside = std::env::current_exe()
        .ok()
        .and_then(|own| Some(own.parent()?.join(PROGRAM)))
        .filter(|path| path.is_file());
    beside.unwrap_or_else(|| PROGRAM.into())
}

/// What `probe-step` writes; none where it is cut short or says something else.
pub fn parse(text: &str) -> Option<Assembly> {
    let mut lines = text.lines();
    let unit = lines.next()?.strip_prefix("probe-step 1 ")?.to_string();
    let mut solids = Vec::new();
    loop {
        let line = lines.next()?;
        if line == "end" {
            return lines.next().is_none().then_some(Assembly { unit, solids });
        }
        solids.push(solid(line, &mut lines)?);
    }
}

fn solid<'a>(head: &str, lines: &mut impl Iterator<Item = &'a str>) -> Option<Solid> {
    let mut words = head.strip_prefix("solid ")?.splitn(4, ' ');
    let mut count = || words.next()?.parse::<usize>().ok();
    let [surfaces, vertices, triangles] = [count()?, count()?, count()?];
    let name = words.next().unwrap_or_default().trim().to_string();
    let surfaces = taken(lines, surfaces, surface)?;
    let vertices: Vec<Vector> = taken(lines, vertices, |line| numbers::<3>(line))?;
    let rows: Vec<[u32; 4]> = taken(lines, triangles, |line| {
        let mut words = line.split(' ');
        let mut next = || words.next()?.parse::<u32>().ok();
        let row = [next()?, next()?, next()?, next()?];
        let inside = row[..3].iter().all(|&n| (n as usize) < vertices.len());
        (inside && (row[3] as usize) < surfaces.len()).then_some(row)
    })?;
    Some(Solid {
        name,
        surfaces,
        vertices,
        triangles: rows.iter().map(|row| [row[0], row[1], row[2]]).collect(),
        surface_of: rows.iter().map(|row| row[3]).collect(),
    })
}

/// So many lines, each read.
fn taken<'a, T>(
    lines: &mut impl Iterator<Item = &'a str>,
    count: usize,
    read: impl Fn(&str) -> Option<T>,
) -> Option<Vec<T>> {
    (0..count).map(|_| read(lines.next()?)).collect()
}

/// So many finite numbers, and nothing after them.
fn numbers<const N: usize>(line: &str) -> Option<[f64; N]> {
    let read: Option<Vec<f64>> = line.split(' ').map(|word| word.parse().ok()).collect();
    let read: [f64; N] = read?.try_into().ok()?;
    read.iter().all(|number| number.is_finite()).then_some(read)
}

fn surface(line: &str) -> Option<Surface> {
    if line == "other" {
        return Some(Surface::Other);
    }
    let (kind, rest) = line.split_once(' ')?;
    match kind {
        "plane" => {
            let [x, y, z, u, v, w] = numbers(rest)?;
            Some(Surface::Plane {
                point: [x, y, z],
                normal: [u, v, w],
            })
        }
        "cylinder" => {
            let [x, y, z, u, v, w, radius] = numbers(rest)?;
            Some(Surface::Cylinder {
                point: [x, y, z],
                direction: [u, v, w],
                radius,
            })
        }
        "cone" => {
            let [x, y, z, u, v, w, radius, angle] = numbers(rest)?;
            Some(Surface::Cone {
                point: [x, y, z],
                direction: [u, v, w],
                radius,
                angle,
            })
        }
        _ => None,
    }
}

#[cfg(test)]
mod tests {
    use super::*;

    const TEXT: &str = "probe-step 1 INCH\nsolid 2 4 2 a side\nplane 0 0 0 0 0 1\n\
        cylinder 1 2 3 0 0 1 2.5\n0 0 0\n1 0 0\n0 1 0\n1 1 0\n0 1 2 0\n2 1 3 1\nend\n";

    /// Each number goes where the format says.
    #[test]
    fn reads_what_is_written() {
        let read = parse(TEXT).unwrap();
        assert_eq!(read.unit, "INCH");
        let [solid] = read.solids.as_slice() else {
            panic!("{read:?}")
        };
        assert_eq!(solid.name, "a side");
        assert_eq!(solid.vertices[3], [1.0, 1.0, 0.0]);
        assert_eq!(solid.triangles, [[0, 1, 2], [2, 1, 3]]);
        assert_eq!(solid.surface_of, [0, 1]);
        let cylinder = Surface::Cylinder {
            point: [1.0, 2.0, 3.0],
            direction: [0.0, 0.0, 1.0],
            radius: 2.5,
        };
        assert_eq!(solid.surfaces[1], cylinder);
    }

    /// A text that ends early at any line, has a line more, or names a vertex or surface that is not there, is none.
    #[test]
    fn refuses_what_is_cut_short() {
        let lines: Vec<&str> = TEXT.lines().collect();
        for count in 0..lines.len() {
            assert_eq!(parse(&lines[..count].join("\n")), None, "{count} lines");
        }
        for wrong in [
            TEXT.replace("2 1 3 1", "2 1 4 1"),
            TEXT.replace("2 1 3 1", "2 1 3 2"),
            TEXT.replace("1 1 0\n", "1 1 nan\n"),
            TEXT.replace("1 2.5", "1 2.5 0"),
            format!("{TEXT}end\n"),
        ] {
            assert_eq!(parse(&wrong), None, "{wrong}");
        }
    }
}
