//! Boards drawn as solids and cut by gmsh, written as STEP and read by probe-step (OpenCASCADE). The rows are written from the
//! drawings' measures. Where gmsh or probe-step is not installed each test says that it is skipped.
mod board;
mod known;
mod solids;

use probe_part::drawing::Drawing;
use probe_part::model::{Doubt, Outline, Report, Unit};
use probe_part::recognise::Options;
use probe_part::tables::{part_name, table, Listing};
use probe_rays::stl::Corners;
use solids::{gmsh, holds, BOARD};
use std::{env, fs};

/// What a text for gmsh draws, written as STEP, changed as text, and read; none where gmsh or probe-step is not installed.
fn drawn(name: &str, text: &str, changed: impl Fn(String) -> String) -> Option<Drawing> {
    let folder = env::temp_dir().join(format!("probe-part-step-{name}-{}", std::process::id()));
    fs::create_dir_all(&folder).unwrap();
    let file = |name: &str| folder.join(name);
    fs::write(file("part.geo"), text).unwrap();
    let drawing = gmsh(&file("part.geo"), &["-o"], &file("part.step")).and_then(|()| {
        let step = fs::read_to_string(file("part.step")).unwrap();
        fs::write(file("part.step"), changed(step)).unwrap();
        match Drawing::load(file("part.step").to_str().unwrap(), Unit::Millimetre) {
            Err(why) if why.contains("not installed") => None,
            drawing => Some(drawing.unwrap()),
        }
    });
    fs::remove_dir_all(&folder).unwrap();
    if drawing.is_none() {
        println!("SKIPPED: {name}, since gmsh or probe-step is not installed (docs/STEP.md)");
    }
    drawing
}

/// The facets and the report of a body and what is cut from it, each a volume of its own from 2 on; none without gmsh.
fn cut(name: &str, body: &str, tools: &[&str]) -> Option<(Vec<Corners>, Report)> {
    let last = tools.len() + 1;
    let text = format!(
        "SetFactory(\"OpenCASCADE\");\n{body}\n{}\n\
        BooleanDifference(1000) = {{ Volume{{1}}; Delete; }}{{ Volume{{2:{last}}}; Delete; }};\n",
        tools.join("\n")
    );
    let drawing = drawn(name, &text, |step| step)?;
    let report = drawing.recognise(&Options::default()).unwrap();
    let [(_, shape)] = drawing.parts.as_slice() else {
        panic!("{name}: {} solids", drawing.parts.len())
    };
    let corner = |index: u32| shape.vertices()[index as usize];
    let facets = shape.triangles().iter().map(|each| each.map(corner));
    Some((facets.collect(), report))
}

/// A cabinet of four boards that touch, with a bore in the top one, named by the file: four parts, each by itself and in
/// place, where a mesh of the whole has the boards' common faces inside.
#[test]
fn boards_that_touch_are_parts_of_their_own() {
    let text = "SetFactory(\"OpenCASCADE\");\nBox(1) = {0, 0, 0, 600, 400, 18};\n\
        Box(2) = {0, 0, 18, 18, 400, 700};\nBox(3) = {582, 0, 18, 18, 400, 700};\n\
        Box(4) = {0, 0, 718, 600, 400, 18};\nCylinder(5) = {300, 200, 736, 0, 0, -12, 4.0007};\n\
        BooleanDifference(6) = { Volume{4}; Delete; }{ Volume{5}; Delete; };\n";
    let names = |step: String| {
        let name = |number: usize| format!("'Open CASCADE STEP translator 7.6 1.{number}'");
        step.replace(&name(1), "'floor'")
            .replace(&name(2), "'side'")
            .replace(&name(3), "'side'")
            .replace(&name(4), "'top/oak'")
    };
    let Some(drawing) = drawn("cabinet", text, names) else {
        return;
    };
    let report = drawing.recognise(&Options::default()).unwrap();
    assert!(report.is_certain(), "{report:#?}");
    let found: Vec<(&str, usize)> = report
        .parts
        .iter()
        .map(|part| (part.name.as_str(), part.rows.len()))
        .collect();
    assert_eq!(
        found,
        [("floor", 0), ("side", 0), ("side 2", 0), ("top-oak", 1)]
    );
    let lists = [
        part_name(&report, "cabinet", 2),
        part_name(&report, "cabinet", 3),
    ];
    assert_eq!(lists, ["cabinet-side 2", "cabinet-top-oak"]);
    let row = &report.parts[3].rows[0];
    let place = report.parts[3].frame.place_in_file(row.centre);
    let off = |from: f64, to: f64| (from - to).abs();
    assert!(
        off(place[0], 300.0) < 1e-9 && off(place[2], 736.0) < 1e-9,
        "{row:?}"
    );
    // the drawing's own diameter, to the last digits
    assert!(
        matches!(row.outline, Outline::Circle { diameter, .. } if off(diameter, 8.0014) < 1e-12),
        "{row:?}"
    );
}

/// A file in inches comes out in millimetres, and the report says which it was.
#[test]
fn a_file_in_inches() {
    let text = "SetFactory(\"OpenCASCADE\");\nBox(1) = {0, 0, 0, 24, 16, 0.75};\n";
    let inches = |step: String| {
        let unit = "( LENGTH_UNIT() NAMED_UNIT(*) SI_UNIT(.MILLI.,.METRE.) )";
        assert!(step.contains(unit), "{step}");
        let inch = "( CONVERSION_BASED_UNIT('INCH',#9001) LENGTH_UNIT() NAMED_UNIT(#9003) )";
        let more = "#9001 = LENGTH_MEASURE_WITH_UNIT(LENGTH_MEASURE(25.4),#9002);\n\
            #9002 = ( LENGTH_UNIT() NAMED_UNIT(*) SI_UNIT(.MILLI.,.METRE.) );\n\
            #9003 = DIMENSIONAL_EXPONENTS(1.,0.,0.,0.,0.,0.,0.);\n";
        step.replace(unit, inch)
            .replace("ENDSEC;\nEND-ISO", &format!("{more}ENDSEC;\nEND-ISO"))
    };
    let Some(drawing) = drawn("inches", text, inches) else {
        return;
    };
    let report = drawing.recognise(&Options::default()).unwrap();
    assert_eq!(report.unit, Unit::Inch);
    let size = report.parts[0].size();
    let wanted = [24.0 * 25.4, 16.0 * 25.4, 0.75 * 25.4];
    for (side, wanted) in size.iter().zip(wanted) {
        assert!((side - wanted).abs() < 1e-9, "{size:?}");
    }
    let listing = Listing::default();
    assert!(table(&report, &listing).contains(", from a file in in"));
}

/// Slots turned by anything, as a box and two cylinders: their ends' triangles have corners at no extreme.
#[test]
fn slots_in_any_direction() {
    let slots = [
        ([80.0, 100.0], [100.0, 25.0], 0.0_f64),
        ([260.0, 100.0], [50.0, 20.0], 17.0),
        ([440.0, 100.0], [30.0, 8.0], 90.0),
        ([80.0, 280.0], [63.3, 12.7], 140.0),
        ([260.0, 280.0], [26.0, 25.0], 33.0),
        ([440.0, 280.0], [40.0, 6.0], 5.0),
    ];
    let (mut tools, mut rows) = (Vec::new(), Vec::new());
    for ([x, y], [long, wide], degrees) in slots {
        let (half, turn) = ((long - wide) / 2.0, degrees.to_radians());
        let number = tools.len() + 2;
        tools.push(format!(
            "Box({number}) = {{{}, {}, 11, {}, {wide}, 30}}; \
             Rotate {{{{0, 0, 1}}, {{{x}, {y}, 0}}, {turn}}} {{ Volume{{{number}}}; }}",
            x - half,
            y - wide / 2.0,
            2.0 * half
        ));
        for sign in [-1.0, 1.0] {
            tools.push(format!(
                "Cylinder({}) = {{{}, {}, 11, 0, 0, 30, {}}};",
                tools.len() + 2,
                x + sign * half * turn.cos(),
                y + sign * half * turn.sin(),
                wide / 2.0
            ));
        }
        let size = if degrees == 90.0 {
            [wide, long]
        } else {
            [long, wide]
        };
        rows.push(format!(
            "top pocket slot {} x {} entry 0 depth 7 at {x} {y} 18",
            size[0], size[1]
        ));
    }
    let tools: Vec<&str> = tools.iter().map(String::as_str).collect();
    let rows: Vec<&str> = rows.iter().map(String::as_str).collect();
    holds("slots", BOARD, &tools, &rows);
}

/// Dowel bores with a tip of 118 degrees: OpenCASCADE's triangles of the cone have corners between its rim and its point.
#[test]
fn bores_with_tips() {
    let (mut tools, mut rows) = (Vec::new(), Vec::new());
    for (place, wide) in [3.0, 5.0, 8.0, 10.0, 15.0, 20.0].into_iter().enumerate() {
        let (x, radius) = (60.0 + 80.0 * place as f64, wide / 2.0);
        let tip = radius / 59.0_f64.to_radians().tan();
        let number = 2 * place + 2;
        tools.push(format!(
            "Cylinder({number}) = {{{x}, 100, 8, 0, 0, 30, {radius}}};"
        ));
        tools.push(format!(
            "Cone({}) = {{{x}, 100, {}, 0, 0, {tip}, 0, {radius}}};",
            number + 1,
            8.0 - tip
        ));
        rows.push(format!(
            "top bore circle {wide} entry 0 depth 10 at {x} 100 18"
        ));
    }
    let tools: Vec<&str> = tools.iter().map(String::as_str).collect();
    let rows: Vec<&str> = rows.iter().map(String::as_str).collect();
    holds("tips", BOARD, &tools, &rows);
}

/// Pocket screws: a bore of 9.5 that leans by 75 degrees from the top, and from its floor a pilot of 4 along the same axis, in
/// the middle of the board, and through its right edge. A tool reaches both from the top.
#[test]
fn a_pilot_is_reached_from_the_face_of_its_pocket() {
    let (sine, cosine) = 15.0_f64.to_radians().sin_cos();
    for (x, pilot, end) in [(300.0, 20.0, "20"), (580.0, 40.0, "through")] {
        let drill = |number: usize, from: f64, to: f64, radius: f64| {
            format!(
                "Cylinder({number}) = {{{}, 200, {}, {}, 0, {}, {radius}}};",
                x + from * cosine,
                12.0 - from * sine,
                (to - from) * cosine,
                (from - to) * sine
            )
        };
        let tools = [drill(2, -60.0, 0.0, 4.75), drill(3, -1.0, pilot, 2.0)];
        // up the axis from the floor, 6 mm below the top
        let along = 6.0 / sine;
        let number = |value: f64| ((100.0 * value).round() / 100.0).to_string();
        let pocket = format!(
            "top bore circle 9.5 entry 0 depth {} at {} 200 18",
            number(along),
            number(x - along * cosine)
        );
        let inner = format!("top bore circle 4 entry 6 depth {end} at {x} 200 12");
        let tools: Vec<&str> = tools.iter().map(String::as_str).collect();
        let name = format!("pilot-{end}");
        holds(&name, BOARD, &tools, &[pocket.as_str(), inner.as_str()]);
    }
}

/// A groove that bores of 20 cross, one deeper than the groove and one through, a pocket whose side a bore cuts, and a groove
/// that dowel bores from the front cross at its floor: each is one row. A pocket around a tongue of wood is no rectangle.
#[test]
fn grooves_that_bores_cross_are_one_row() {
    holds(
        "crossed",
        BOARD,
        &[
            "Box(2) = {-1, 100, 10, 602, 6, 10};",
            "Cylinder(3) = {200, 103, 5, 0, 0, 20, 10};",
            "Cylinder(4) = {400, 103, -1, 0, 0, 20, 10};",
            "Box(5) = {100, 250, 12, 80, 40, 10};",
            "Cylinder(6) = {140, 250, 6, 0, 0, 20, 8};",
        ],
        &[
            "top groove rectangle 600 x 6 entry 0 depth 8 at 300 103 18",
            "top bore circle 20 entry 0 depth 13 at 200 103 18",
            "bottom bore circle 20 entry 0 depth through at 400 103 0",
            "top pocket rectangle 80 x 40 entry 0 depth 6 at 140 270 18",
            "top bore circle 16 entry 0 depth 12 at 140 250 18",
        ],
    );
    holds(
        "dowels",
        BOARD,
        &[
            "Box(2) = {-1, 100, 10, 602, 6, 10};",
            "Cylinder(3) = {200, -1, 9, 0, 150, 0, 4};",
            "Cylinder(4) = {400, -1, 9, 0, 150, 0, 4};",
        ],
        &[
            "top groove rectangle 600 x 6 entry 0 depth 8 at 300 103 18",
            "front bore circle 8 entry 0 depth 149 at 200 0 9",
            "front bore circle 8 entry 0 depth 149 at 400 0 9",
        ],
    );
    holds(
        "tongue",
        BOARD,
        &[
            "Box(2) = {100, 100, 12, 80, 20, 10};",
            "Box(3) = {100, 120, 12, 30, 20, 10};",
            "Box(4) = {150, 120, 12, 30, 20, 10};",
            "Cylinder(5) = {140, 100, 6, 0, 0, 20, 8};",
        ],
        &[
            "top pocket other 80 x 40 entry 0 depth 6 at 140 120 18",
            "top bore circle 16 entry 0 depth 12 at 140 100 18",
        ],
    );
}

/// A bore whose outline is a spline through 16 points of a circle of 35: it is no circle, and nearly one.
#[test]
fn a_bore_along_a_spline_is_a_doubt() {
    let mut tool = String::new();
    for n in 0..16 {
        let (sine, cosine) = (std::f64::consts::TAU * f64::from(n) / 16.0).sin_cos();
        let [x, y] = [300.0 + 17.5 * cosine, 200.0 + 17.5 * sine];
        tool += &format!("Point({}) = {{{x}, {y}, 5, 1}}; ", 101 + n);
    }
    tool += "Spline(101) = {101:116, 101}; Curve Loop(101) = {101}; Plane Surface(101) = {101}; \
             Extrude{0, 0, 30}{ Surface{101}; }";
    let Some((_, report)) = cut("spline", BOARD, &[&tool]) else {
        return;
    };
    let [Doubt::Nearly(0, Outline::Circle { diameter, .. })] = report.parts[0].doubts[..] else {
        panic!("{report:#?}")
    };
    assert!((diameter - 35.0).abs() < 0.05, "{diameter}");
}
