//! Each face's DXF drawing is read back and held to the board's measures.
mod board;
mod drawing;

use board::{board as made, circle, extruded, moved, rectangle, Cut, Side, RABBET_AND_GROOVE};
use drawing::{is_same, Drawing, Place};
use probe_part::dxf::{dxf, layer, NOT_UNDERSTOOD, NUMBERS, PART};
use probe_part::model::{Check, End, Outline, Part, Row};
use probe_part::recognise::{recognise, Options};
use probe_part::shape::Shape;
use probe_rays::stl::Corners;
use std::process::Command;

/// The one part of some facets, in the file's frame.
fn part(facets: &[Corners]) -> Part {
    let options = Options {
        as_drawn: true,
        ..Options::default()
    };
    let mut report = recognise(&Shape::of(facets).unwrap(), &options).unwrap();
    assert_eq!(report.parts.len(), 1);
    report.parts.pop().unwrap()
}

/// The same of a certain list.
fn certain(facets: &[Corners]) -> Part {
    let part = part(facets);
    assert!(part.doubts.is_empty(), "{part:#?}");
    part
}

fn face(part: &Part, name: &str) -> Drawing {
    let place = part.faces.iter().position(|face| face.name == name);
    Drawing::read(&dxf(part, place.unwrap()))
}

/// Each polygon is the outline of the face, once, and nothing else is.
fn holds_outline(part: &Part, name: &str, wanted: &[&[Place]]) {
    let drawing = face(part, name);
    let read = drawing.of_layer(PART);
    assert_eq!(read.len(), wanted.len(), "{name}: {read:?}");
    for polygon in wanted {
        let same = read.iter().filter(|read| is_same(read, polygon)).count();
        assert_eq!(same, 1, "{name}: {polygon:?} in {read:?}");
    }
}

/// A rectangle from its lower left to its upper right corner.
fn field(low: Place, high: Place) -> [Place; 4] {
    [low, [high[0], low[1]], high, [low[0], high[1]]]
}

/// As it is seen from the other side of a board 600 wide.
fn from_behind(polygon: &[Place]) -> Vec<Place> {
    polygon.iter().map(|[x, y]| [600.0 - x, *y]).collect()
}

const L: [Place; 6] = [
    [0.0, 0.0],
    [600.0, 0.0],
    [600.0, 250.0],
    [400.0, 250.0],
    [400.0, 400.0],
    [0.0, 400.0],
];

/// The outline of an L-shaped board is an L, wherever the board lies in the file; its shorter sides are as long as they are.
#[test]
fn an_l_shaped_board() {
    let facets = moved(&extruded(&L, &[], 18.0), [31.0, -17.0, 5.0]);
    let part = certain(&facets);
    holds_outline(&part, "top", &[&L]);
    holds_outline(&part, "bottom", &[&from_behind(&L)]);
    holds_outline(&part, "front", &[&field([0.0, 0.0], [600.0, 18.0])]);
    // from behind, what is cut out of the corner stands to the left
    holds_outline(&part, "back", &[&field([200.0, 0.0], [600.0, 18.0])]);
    holds_outline(&part, "right", &[&field([0.0, 0.0], [250.0, 18.0])]);
    let drawing = face(&part, "top");
    assert_eq!(drawing.extent, [[0.0, 0.0], [600.0, 400.0]]);
    // the corner that is cut out is a row of its own
    assert_eq!(drawing.of_layer("NOTCH-THROUGH").len(), 1);
}

/// A notch is part of the outline, and parts the face that it is open at.
#[test]
fn a_board_with_a_notch() {
    let outline: [Place; 8] = [
        [0.0, 0.0],
        [200.0, 0.0],
        [200.0, 30.0],
        [250.0, 30.0],
        [250.0, 0.0],
        [600.0, 0.0],
        [600.0, 400.0],
        [0.0, 400.0],
    ];
    let part = certain(&extruded(&outline, &[], 18.0));
    holds_outline(&part, "top", &[&outline]);
    holds_outline(&part, "bottom", &[&from_behind(&outline)]);
    let pieces = [
        field([0.0, 0.0], [200.0, 18.0]),
        field([250.0, 0.0], [600.0, 18.0]),
    ];
    holds_outline(&part, "front", &[&pieces[0], &pieces[1]]);
    let notch = face(&part, "top");
    let notch = notch.of_layer("NOTCH-THROUGH");
    assert!(is_same(notch[0], &field([200.0, 0.0], [250.0, 30.0])));
}

/// The outline goes around a rabbet and a groove, which are closed polylines of their own; the ends show the profile.
#[test]
fn a_board_with_a_rabbet_and_a_groove() {
    // the profile's x is the board's y, so that the extrusion runs along x
    let facets = board::mapped(
        &extruded(&RABBET_AND_GROOVE, &[], 600.0),
        |[y, z, x]| [x, y, z],
        false,
    );
    let part = certain(&facets);
    let whole = field([0.0, 0.0], [600.0, 400.0]);
    holds_outline(&part, "top", &[&whole]);
    holds_outline(&part, "bottom", &[&whole]);
    holds_outline(&part, "right", &[&RABBET_AND_GROOVE]);
    let mirrored = RABBET_AND_GROOVE.map(|[y, z]| [400.0 - y, z]);
    holds_outline(&part, "left", &[&mirrored]);
    let top = face(&part, "top");
    let rabbet = field([0.0, 385.0], [600.0, 400.0]);
    assert!(is_same(top.of_layer("RABBET-Z8")[0], &rabbet));
    let groove = field([0.0, 100.0], [600.0, 106.0]);
    assert!(is_same(top.of_layer("GROOVE-Z8")[0], &groove));
}

/// Openings and islands leave the outline as it is: they are rows, each with its own circle or closed polyline.
#[test]
fn openings_and_islands() {
    let mut ring = Cut::new(
        Side::Top,
        rectangle([200.0, 200.0], [200.0, 200.0]),
        [200.0, 200.0],
        8.0,
    );
    ring.islands
        .push((rectangle([200.0, 200.0], [160.0, 160.0]), 0.0));
    let window = Cut::new(
        Side::Top,
        rectangle([450.0, 200.0], [100.0, 60.0]),
        [450.0, 200.0],
        f64::INFINITY,
    );
    let bore = Cut::bore(Side::Left, [50.0, 9.0], 8.0, 30.0);
    let part = certain(&made([600.0, 400.0, 18.0], &[ring, window, bore]));
    let whole = field([0.0, 0.0], [600.0, 400.0]);
    holds_outline(&part, "top", &[&whole]);
    holds_outline(&part, "bottom", &[&whole]);
    holds_outline(&part, "left", &[&field([0.0, 0.0], [400.0, 18.0])]);
    let top = face(&part, "top");
    let window = field([400.0, 170.0], [500.0, 230.0]);
    assert!(is_same(top.of_layer("POCKET-THROUGH")[0], &window));
    let (around, within) = (
        field([100.0, 100.0], [300.0, 300.0]),
        field([120.0, 120.0], [280.0, 280.0]),
    );
    let [outer, inner] = top.of_layer("POCKET-Z8")[..] else {
        panic!("{top:?}")
    };
    assert!(is_same(outer, &around) && is_same(inner, &within));
    assert!(is_same(top.of_layer("ISLAND-Z8")[0], &within));
}

/// A board that lies aslant in the file has the outline of the board that lies still.
#[test]
fn an_outline_in_the_parts_own_frame() {
    let (sine, cosine) = 0.5_f64.sin_cos();
    let turned = board::mapped(
        &extruded(&L, &[], 18.0),
        |[x, y, z]| [cosine * x - sine * y + 100.0, z, -sine * x - cosine * y],
        false,
    );
    let shape = Shape::of(&turned).unwrap();
    let report = recognise(&shape, &Options::default()).unwrap();
    assert!(report.is_certain(), "{report:#?}");
    // which corner of the board is its least one depends on the frame that it gets
    let [mut x, mut y] = [[false, true]; 2].map(|all| all.into_iter());
    let top = face(&report.parts[0], "top");
    let read = top.of_layer(PART)[0];
    let flipped = |along: bool, up: bool| -> Vec<Place> {
        let flip = |on: bool, value: f64, size: f64| if on { size - value } else { value };
        L.iter()
            .map(|[x, y]| [flip(along, *x, 600.0), flip(up, *y, 400.0)])
            .collect()
    };
    let is_one = x.any(|along| y.clone().any(|up| is_same(read, &flipped(along, up))));
    assert!(is_one && y.next().is_some(), "{read:?}");
}

/// What is not understood is a red box beside the outline; a row that is not confirmed makes its layer red.
#[test]
fn what_is_doubtful_is_red() {
    let outline = |less: f64| rectangle([300.0, 200.0], [120.0 - less, 60.0 - less]);
    let mut slanted = Cut::new(Side::Top, outline(0.0), [300.0, 200.0], 10.0);
    slanted.floor = Some(outline(4.0));
    let bore = Cut::bore(Side::Top, [100.0, 100.0], 8.0, 10.0);
    let mut part = part(&made([600.0, 400.0, 18.0], &[slanted, bore]));
    let top = face(&part, "top");
    let rest = field([240.0, 170.0], [360.0, 230.0]);
    assert!(is_same(top.of_layer(NOT_UNDERSTOOD)[0], &rest));
    holds_outline(&part, "top", &[&field([0.0, 0.0], [600.0, 400.0])]);
    let colours = |drawing: &Drawing| {
        [PART, NOT_UNDERSTOOD, "BORE-D8-Z10"].map(|layer| drawing.layers[layer])
    };
    assert_eq!(colours(&top), [7, 1, 7]);
    part.rows[0].check = Check::Differs("a probe".into());
    assert_eq!(colours(&face(&part, "top")), [7, 1, 1]);
}

fn drilled() -> Part {
    certain(&board::drilled())
}

/// Bores are circles where somebody sees them who looks at the face, on the layer of their diameter and depth, with the
/// list's numbers.
#[test]
fn circles_on_layers() {
    let part = drilled();
    // from below and from the left, what is drawn to the right is the lesser x and y
    type Circles<'a> = &'a [(&'a str, Place, f64)];
    let wanted: [(&str, Circles<'_>); 3] = [
        (
            "top",
            &[
                ("BORE-D20-Z5", [60.0, 70.0], 10.0),
                ("BORE-D8-Z7-E5", [60.0, 70.0], 4.0),
                ("BORE-D8_5-Z12_25", [100.0, 200.0], 4.25),
            ],
        ),
        ("bottom", &[("BORE-D15-Z12_7", [310.0, 40.0], 7.5)]),
        ("left", &[("BORE-D8-Z30", [250.0, 9.5], 4.0)]),
    ];
    for (name, circles) in wanted {
        let drawing = face(&part, name);
        assert_eq!(drawing.circles.len(), circles.len(), "{drawing:?}");
        for ((layer, place, radius), known) in drawing.circles.iter().zip(circles) {
            assert_eq!(layer, known.0);
            let off = [
                place[0] - known.1[0],
                place[1] - known.1[1],
                radius - known.2,
            ];
            assert!(off.iter().all(|off| off.abs() < 1e-3), "{name}: {off:?}");
        }
        let numbers = drawing.texts.iter().map(|text| text.2.clone());
        let place = part.faces.iter().position(|face| face.name == name);
        let rows = (1..=part.rows.len()).filter(|n| part.rows[n - 1].face == place);
        assert_eq!(
            numbers.collect::<Vec<_>>(),
            rows.map(|n| n.to_string()).collect::<Vec<_>>()
        );
        assert!(drawing.texts.iter().all(|text| text.0 == NUMBERS));
    }
    for side in ["front", "back", "right"] {
        assert!(face(&part, side).circles.is_empty());
    }
    assert_eq!(face(&part, "top").of_layer("POCKET-Z6").len(), 1);
    let through = Row {
        end: End::Through,
        ..part.rows[0].clone()
    };
    let Outline::Circle { .. } = through.outline else {
        panic!("{through:?}")
    };
    assert_eq!(layer(&through), "BORE-D20-THROUGH");
}

/// ezdxf, where it is installed, reads a drawing and finds nothing to mend; elsewhere the test says that it is skipped.
#[test]
fn another_reader_opens_it() {
    let program = r#"
import sys
try:
    import ezdxf
except ImportError:
    sys.exit(77)
drawing = ezdxf.readfile(sys.argv[1])
audit = drawing.audit()
assert drawing.dxfversion == "AC1009" and not audit.errors and not audit.fixes, audit.errors + audit.fixes
(outline,) = [line for line in drawing.modelspace().query("POLYLINE") if line.dxf.layer == "PART"]
assert outline.is_closed
print(*(f"{point[0]:.3f},{point[1]:.3f}" for point in outline.points()))
"#;
    let file = std::env::temp_dir().join(format!("probe-part-dxf-{}.dxf", std::process::id()));
    let part = certain(&extruded(&L, &[circle([100.0, 100.0], 20.0, 32)], 18.0));
    std::fs::write(&file, dxf(&part, 0)).unwrap();
    let runs = ["python3", "/usr/bin/python3"].map(|python| {
        let run = Command::new(python)
            .args(["-c", program])
            .arg(&file)
            .output();
        run.ok().filter(|run| run.status.code() != Some(77))
    });
    std::fs::remove_file(&file).unwrap();
    let Some(run) = runs.into_iter().flatten().next() else {
        println!("SKIPPED: ezdxf is not installed (apt-get install python3-ezdxf)");
        return;
    };
    let said = String::from_utf8(run.stdout).unwrap();
    assert!(
        run.status.success(),
        "{}",
        String::from_utf8_lossy(&run.stderr)
    );
    let corner = |word: &str| -> Place {
        let (x, y) = word.split_once(',').unwrap();
        [x.parse().unwrap(), y.parse().unwrap()]
    };
    let read: Vec<Place> = said.split_whitespace().map(corner).collect();
    assert!(is_same(&read, &L), "{said}");
}
