//! Boards drawn as solids and cut by gmsh (OpenCASCADE): what must be found in them, whichever way `cut` of the test file reads
//! the drawing. The rows are written from the drawings' measures.
use crate::board::Chance;
use crate::cut;
use crate::known::explains;
use probe_part::model::{Doubt, End, Outline, Part};
use probe_part::tables::{kind_word, outline_word};
use std::path::Path;
use std::process::Command;

/// A board of 600 by 400 by 18, with a volume for each tool.
pub const BOARD: &str = "Box(1) = {0, 0, 0, 600, 400, 18};";

/// Runs gmsh without meshing; none where it is not installed.
pub fn gmsh(from: &Path, words: &[&str], to: &Path) -> Option<()> {
    let run = Command::new("gmsh")
        .arg(from)
        .args(["-0", "-v", "2"])
        .args(words)
        .arg(to)
        .output()
        .ok()?;
    let said = String::from_utf8_lossy(&run.stdout) + String::from_utf8_lossy(&run.stderr);
    assert!(run.status.success() && !said.contains("Error"), "{said}");
    Some(())
}

/// A row as its face, kind, outline, sizes, entry, depth and centre, in hundredths.
fn told(part: &Part, place: usize) -> String {
    let row = &part.rows[place];
    let sizes = match row.outline {
        Outline::Circle { diameter, .. } => vec![diameter],
        Outline::Ring { outer, inner } => vec![outer, inner],
        Outline::Rectangle { size, .. } | Outline::Slot { size, .. } | Outline::Other { size } => {
            size.to_vec()
        }
        Outline::Rounded { size, radius, .. } => vec![size[0], size[1], radius],
        Outline::Arc { width, radius, .. } => vec![width, radius],
    };
    let number = |value: f64| ((100.0 * value).round() / 100.0 + 0.0).to_string();
    let numbers = |all: &[f64]| all.iter().map(|&value| number(value)).collect::<Vec<_>>();
    let end = match row.end {
        End::Through => "through".into(),
        End::OpensInto(_) => format!("{} opens", number(row.depth)),
        End::Unknown => panic!("{row:?}"),
        End::Floor | End::Tip { .. } => number(row.depth),
    };
    let face = row.face.map_or("-", |face| &part.faces[face].name);
    format!(
        "{face} {} {} {} entry {} depth {end} at {}",
        kind_word(row.kind),
        outline_word(&row.outline),
        numbers(&sizes).join(" x "),
        number(row.entry_depth),
        numbers(&row.centre).join(" "),
    )
}

/// A certain list of these rows, in any order.
pub fn holds(name: &str, body: &str, tools: &[&str], rows: &[&str]) {
    let Some((facets, report)) = cut(name, body, tools) else {
        return;
    };
    assert!(report.is_certain(), "{name}: {report:#?}");
    let [part] = report.parts.as_slice() else {
        panic!("{name}: {} parts", report.parts.len())
    };
    let mut read: Vec<String> = (0..part.rows.len()).map(|n| told(part, n)).collect();
    let mut wanted: Vec<String> = rows.iter().map(|&row| row.into()).collect();
    read.sort();
    wanted.sort();
    assert_eq!(read, wanted, "{name}");
    if !part.faces.iter().any(|face| face.is_round) {
        explains(&facets, part, 1);
    }
}

/// A list that is in doubt because of what is not understood, and not because of the mesh.
fn doubts(name: &str, tools: &[&str]) {
    let Some((_, report)) = cut(name, BOARD, tools) else {
        return;
    };
    let [part] = report.parts.as_slice() else {
        panic!("{name}: {} parts", report.parts.len())
    };
    let not_understood = |doubt: &Doubt| {
        matches!(
            doubt,
            Doubt::LeftOver(_) | Doubt::UnknownEnds(_) | Doubt::Volume(_)
        )
    };
    assert!(!part.doubts.is_empty(), "{name}: {part:#?}");
    assert!(
        part.doubts.iter().all(not_understood),
        "{name}: {:?}",
        part.doubts
    );
}

/// A lock: a pocket in the edge, and bores from both faces of one axis that open into it.
#[test]
fn a_lock() {
    holds(
        "lock",
        "Box(1) = {0, 0, 0, 800, 400, 40};",
        &[
            "Box(2) = {-1, 180, 12, 101, 40, 16};",
            "Cylinder(3) = {50, 200, -1, 0, 0, 42, 10};",
        ],
        &[
            "left pocket rectangle 40 x 16 entry 0 depth 100 at 0 200 20",
            "top bore circle 20 entry 0 depth 12 opens at 50 200 40",
            "bottom bore circle 20 entry 0 depth 12 opens at 50 200 0",
        ],
    );
}

/// A frame whose stiles are bored through from both edges: each bore ends in the opening.
#[test]
fn a_frame() {
    holds(
        "frame",
        BOARD,
        &[
            "Box(2) = {100, 100, -1, 400, 200, 20};",
            "Cylinder(3) = {-1, 200, 9, 702, 0, 0, 3};",
        ],
        &[
            "top pocket rectangle 400 x 200 entry 0 depth through at 300 200 18",
            "left bore circle 6 entry 0 depth 100 opens at 0 200 9",
            "right bore circle 6 entry 0 depth 100 opens at 600 200 9",
        ],
    );
}

/// A recess within a recess, with bores in its floor: each depth counts from its own entry.
#[test]
fn recesses_within_recesses() {
    holds(
        "recess",
        BOARD,
        &[
            "Box(2) = {200, 100, 12, 200, 200, 7};",
            "Box(3) = {250, 150, 8, 100, 100, 11};",
            "Cylinder(4) = {300, 200, 3, 0, 0, 16, 20};",
            "Cylinder(5) = {300, 200, -1, 0, 0, 20, 5};",
        ],
        &[
            "top pocket rectangle 200 x 200 entry 0 depth 6 at 300 200 18",
            "top pocket rectangle 100 x 100 entry 6 depth 4 at 300 200 12",
            "top bore circle 40 entry 10 depth 5 at 300 200 8",
            "top bore circle 10 entry 15 depth through at 300 200 3",
        ],
    );
}

/// A cam joint whose dowel bore goes on beyond the cup.
#[test]
fn a_cam_joint_that_goes_on() {
    holds(
        "cam",
        BOARD,
        &[
            "Cylinder(2) = {34, 100, -1, 0, 0, 13.7, 7.5};",
            "Cylinder(3) = {-1, 100, 9, 61, 0, 0, 2.5};",
        ],
        &[
            "bottom bore circle 15 entry 0 depth 12.7 at 34 100 0",
            "left bore circle 5 entry 0 depth 26.5 opens at 0 100 9",
            "left bore circle 5 entry 41.5 depth 18.5 at 41.5 100 9",
        ],
    );
}

/// Bores at 45 and 30 degrees, as a drill leaves them: their floors lie across their axes.
#[test]
fn blind_bores_that_lean() {
    holds(
        "lean",
        BOARD,
        &[
            "Cylinder(2) = {140, 200, 28, 20, 0, -20, 4};",
            "Cylinder(3) = {300 - 10 * Tan(Pi / 6), 200, 28, 20 * Tan(Pi / 6), 0, -20, 4};",
        ],
        &[
            "top bore circle 8 entry 0 depth 14.14 at 150 200 18",
            "top bore circle 8 entry 0 depth 11.55 at 300 200 18",
        ],
    );
}

/// Mitred ends with bores across the mitre, one in the face and one in the edge.
#[test]
fn bores_in_mitres() {
    let body = "Point(1) = {0, 0, 0}; Point(2) = {600, 0, 0}; Point(3) = {582, 0, 18}; Point(4) = {18, 0, 18};\n\
        Line(1) = {1, 2}; Line(2) = {2, 3}; Line(3) = {3, 4}; Line(4) = {4, 1};\n\
        Curve Loop(1) = {1, 2, 3, 4}; Plane Surface(1) = {1};\n\
        Extrude{0, 400, 0}{ Surface{1}; }";
    let tools = [
        "Cylinder(2) = {100, 100, 6, 0, 0, 13, 4};",
        "Cylinder(3) = {4, 120, 14, 10, 0, -10, 3};",
        "Cylinder(4) = {596, 280, 14, -10, 0, -10, 4};",
        "Cylinder(5) = {300, -1, 9, 0, 31, 0, 4};",
    ];
    let Some((_, report)) = cut("mitre", body, &tools) else {
        return;
    };
    assert!(report.is_certain(), "{report:#?}");
    let part = &report.parts[0];
    let mut rows: Vec<String> = (0..part.rows.len()).map(|n| told(part, n)).collect();
    // which of the two slanted faces is the first is not said
    rows.iter_mut().for_each(|row| {
        *row = row
            .replace("slanted 1", "slanted")
            .replace("slanted 2", "slanted")
    });
    rows.sort();
    let wanted = [
        "front bore circle 8 entry 0 depth 30 at 300 0 9",
        "slanted bore circle 6 entry 0 depth 7.07 at 9 120 9",
        "slanted bore circle 8 entry 0 depth 7.07 at 591 280 9",
        "top bore circle 8 entry 0 depth 12 at 100 100 18",
    ];
    assert_eq!(rows, wanted);
}

/// A round top with a bore in its face and one in its edge, which counts from the circle.
#[test]
fn a_round_top() {
    holds(
        "disc",
        "Cylinder(1) = {0, 0, 0, 0, 0, 25, 300};",
        &[
            "Cylinder(2) = {0, 0, 12, 310, 0, 0, 4};",
            "Cylinder(3) = {100, 50, 10, 0, 0, 20, 5};",
        ],
        &[
            "top bore circle 10 entry 0 depth 15 at 100 50 25",
            "round 1 bore circle 8 entry 0 depth 300 at 300 0 12",
        ],
    );
}

/// Grooves of any profile, from side to side, are told from the side; a mortise in the edge is a slot.
#[test]
fn grooves_and_mortises() {
    holds(
        "tee",
        BOARD,
        &[
            "Box(2) = {-1, 100, 6, 602, 20, 6};",
            "Box(3) = {-1, 106, 10, 602, 8, 9};",
        ],
        &["right notch other 20 x 12 entry 0 depth through at 600 110 12"],
    );
    holds(
        "mortise",
        BOARD,
        &[
            "Box(2) = {-1, 100, 6.5, 26, 20, 5};",
            "Cylinder(3) = {-1, 100, 9, 26, 0, 0, 2.5};",
            "Cylinder(4) = {-1, 120, 9, 26, 0, 0, 2.5};",
        ],
        &["left pocket slot 25 x 5 entry 0 depth 25 at 0 110 9"],
    );
}

/// What docs/TOOL.md says is not recognised is in doubt.
#[test]
fn what_is_not_recognised() {
    doubts("ball", &["Sphere(2) = {300, 200, 22, 10};"]);
    doubts("torus", &["Torus(2) = {300, 200, 18, 50, 5};"]);
    doubts("biscuit", &["Cylinder(2) = {-40, 200, 7, 0, 0, 4, 50};"]);
    doubts(
        "crossing",
        &[
            "Cylinder(2) = {-1, 100, 9, 200, 0, 0, 4};",
            "Cylinder(3) = {100, -1, 9, 0, 200, 0, 4};",
        ],
    );
    doubts(
        "beside",
        &[
            "Cylinder(2) = {300, 100, 9, 0, 0, 10, 4};",
            "Cylinder(3) = {302, 100, -1, 0, 0, 11, 4};",
        ],
    );
    doubts(
        "cones",
        &[
            "Cone(2) = {300, 200, 12, 0, 0, 6, 5, 9};",
            "Cone(3) = {300, 200, 6, 0, 0, 6, 4, 5};",
        ],
    );
    doubts(
        "keyhole",
        &[
            "Cylinder(2) = {300, 200, 8, 0, 0, 11, 6};",
            "Box(3) = {297.5, 200, 8, 5, 30, 11};",
            "Box(4) = {294, 200, 8, 12, 30, 4};",
        ],
    );
    doubts(
        "fillet",
        &["Box(2) = {200, 100, 10, 100, 80, 12}; Fillet{2}{15, 16, 19, 20, 21, 22, 23, 24}{3}"],
    );
}

/// A bore, an edge bore, a pocket, a leaning bore or a pocket in the edge, as the volume of a number: anywhere, so that they
/// overlap, and run out at sides.
fn tool_of_chance(chance: &mut Chance, number: usize) -> String {
    let mut half = |low: f64, high: f64| (2.0 * chance.between(low, high)).round() / 2.0;
    let (x, y, wide, deep) = (
        half(5.0, 195.0),
        half(5.0, 115.0),
        half(3.0, 30.0),
        half(2.0, 30.0),
    );
    let (z, long, lean) = (half(6.0, 12.0), half(10.0, 100.0), half(2.0, 8.0));
    match chance.below(6) {
        0 => format!(
            "Cylinder({number}) = {{{x}, {y}, {}, 0, 0, 60, {}}};",
            18.0 - deep,
            wide / 2.0
        ),
        1 => format!(
            "Cylinder({number}) = {{{x}, {y}, -1, 0, 0, {}, {}}};",
            deep + 1.0,
            wide / 2.0
        ),
        2 => format!(
            "Cylinder({number}) = {{-1, {y}, {z}, {long}, 0, 0, {}}};",
            lean / 2.0
        ),
        3 => format!(
            "Box({number}) = {{{}, {}, {}, {long}, {wide}, 60}};",
            x - 15.0,
            y - 15.0,
            18.0 - deep
        ),
        4 => format!(
            "Cylinder({number}) = {{{x}, {y}, 23, {lean}, 0, -{}, {}}};",
            deep + 5.0,
            lean / 2.0
        ),
        _ => format!(
            "Box({number}) = {{-1, {y}, {}, {long}, {wide}, {lean}}};",
            z / 2.0
        ),
    }
}

/// Boards of chance whose rows overlap: of each list that is certain, the rows leave material exactly where the mesh has some.
#[test]
fn boards_of_chance_that_overlap() {
    let mut chance = Chance(41);
    let mut certain = 0;
    for number in 0..16 {
        let count = 3 + chance.below(3) as usize;
        let tools: Vec<String> = (2..count + 2)
            .map(|n| tool_of_chance(&mut chance, n))
            .collect();
        let words: Vec<&str> = tools.iter().map(String::as_str).collect();
        let name = format!("chance-{number}");
        let Some((facets, report)) = cut(&name, "Box(1) = {0, 0, 0, 200, 120, 18};", &words) else {
            return;
        };
        if report.is_certain() {
            certain += 1;
            explains(&facets, &report.parts[0], number);
        }
    }
    assert!((4..16).contains(&certain), "{certain} of 16 are certain");
}
