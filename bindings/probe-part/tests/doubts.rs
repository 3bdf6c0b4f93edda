//! Parts that are not understood, or not right: the report says so, and `probe-part bores` exits with 3.
mod board;

use board::{
    binary, board as made, circle, extruded, mapped, moved, rectangle, rounded, single, Cut, Place,
    Point, Side, Solid,
};
use probe_part::model::{Doubt, End, Kind, Part, Report};
use probe_part::recognise::{recognise, Options};
use probe_part::shape::Shape;
use probe_rays::stl::Corners;
use std::process::Command;
use std::{env, fs};

const BOARD: Point = [600.0, 400.0, 18.0];

fn report(facets: &[Corners]) -> Report {
    recognise(&Shape::of(&single(facets)).unwrap(), &Options::default()).unwrap()
}

/// The part of a doubtful report of one.
fn doubtful(facets: &[Corners]) -> Part {
    let mut report = report(facets);
    assert!(!report.is_certain(), "{report:#?}");
    assert_eq!(report.parts.len(), 1);
    report.parts.pop().unwrap()
}

/// The exit status and what is printed.
fn run(name: &str, facets: &[Corners], words: &[&str]) -> (i32, String, String) {
    let file = env::temp_dir().join(format!(
        "probe-part-doubt-{name}-{}.stl",
        std::process::id()
    ));
    fs::write(&file, binary(facets)).unwrap();
    let output = Command::new(env!("CARGO_BIN_EXE_probe-part"))
        .arg("bores")
        .arg(&file)
        .args(words)
        .output()
        .unwrap();
    fs::remove_file(&file).unwrap();
    let text = |bytes: Vec<u8>| String::from_utf8(bytes).unwrap();
    (
        output.status.code().unwrap(),
        text(output.stdout),
        text(output.stderr),
    )
}

/// A ball's dimple of bands, beside a plain bore.
fn dimple() -> Vec<Corners> {
    let (middle, sides) = ([300.0, 200.0], 32);
    // bands of a ball of radius 10 about 2 mm above the face, down to its lowest point
    let depths: [f64; 6] = [0.0, 2.0, 4.0, 5.5, 7.0, 7.8];
    let ball = |depth: f64| circle(middle, 2.0 * (100.0 - (depth + 2.0).powi(2)).sqrt(), sides);
    let mut solid = Solid::default();
    let mut cut = Cut::new(Side::Top, ball(0.0), middle, 2.0);
    cut.floor = Some(ball(2.0));
    cut.tip = Some(3.0);
    let pin = Cut::bore(Side::Top, [100.0, 100.0], 8.0, 10.0);
    let facets = made(BOARD, &[cut, pin]);
    // in place of the first cut's tip, the further bands
    let at = |outline: Vec<Place>, depth: f64| -> Vec<Point> {
        outline
            .iter()
            .map(|[x, y]| [*x, *y, 18.0 - depth])
            .collect()
    };
    let is_tip = |facet: &&Corners| !facet.contains(&[300.0, 200.0, 15.0]);
    solid.facets = facets.iter().filter(is_tip).copied().collect();
    for pair in depths[1..].windows(2) {
        solid.walls(&at(ball(pair[0]), pair[0]), &at(ball(pair[1]), pair[1]));
    }
    solid.flat(&[at(ball(7.8), 7.8)], [0.0, 0.0, 1.0]);
    solid.facets
}

#[test]
fn a_balls_dimple_is_left_over() {
    let part = doubtful(&dimple());
    let [rest] = part.left_over.as_slice() else {
        panic!("{:#?}", part.left_over)
    };
    assert!(
        (rest.high[2] - 18.0).abs() < 1e-3 && (rest.low[2] - 10.2).abs() < 1e-3,
        "{rest:?}"
    );
    assert_eq!(part.doubts, [Doubt::LeftOver(rest.triangles)]);
    // the bore beside it is listed
    assert_eq!(part.rows.len(), 1);
    assert_eq!(
        (part.rows[0].kind, part.rows[0].end),
        (Kind::Bore, End::Floor)
    );
    let (status, out, _) = run("ball", &dimple(), &[]);
    assert_eq!(status, 3);
    assert!(
        out.contains("! not understood: ")
            && out.ends_with("! THE LIST MAY BE INCOMPLETE OR WRONG\n"),
        "{out}"
    );
    let (status, out, err) = run("ball-csv", &dimple(), &["--csv"]);
    assert_eq!(status, 3);
    assert!(
        out.contains(",left over,") && out.contains(",doubt,"),
        "{out}"
    );
    assert!(err.contains("triangles are not understood"), "{err}");
}

/// Walls that lean by 5 and by 15 degrees, straight and round.
#[test]
fn a_pocket_with_slanted_walls_is_left_over() {
    for lean in [5.0_f64, 15.0] {
        let inwards = 10.0 * lean.to_radians().tan();
        for sharp in [true, false] {
            let outline = |less: f64| {
                let size = [120.0 - 2.0 * less, 60.0 - 2.0 * less];
                if sharp {
                    rectangle([300.0, 200.0], size)
                } else {
                    rounded([300.0, 200.0], size, 8.0 - less, 6)
                }
            };
            let mut cut = Cut::new(Side::Top, outline(0.0), [300.0, 200.0], 10.0);
            cut.floor = Some(outline(inwards));
            let part = doubtful(&made(BOARD, &[cut]));
            assert!(part.rows.is_empty(), "{:#?}", part.rows);
            assert_eq!(part.left_over.len(), 1);
        }
    }
}

/// A tenon: its cheeks are rabbets, and what is taken away beside it is no row.
#[test]
fn a_volume_that_no_row_takes_away() {
    let mut solid = Solid::default();
    let ring = |x: f64, [y0, y1]: Place, [z0, z1]: Place| {
        vec![[x, y0, z0], [x, y1, z0], [x, y1, z1], [x, y0, z1]]
    };
    let (full, tenon) = (([0.0, 80.0], [0.0, 24.0]), ([10.0, 70.0], [8.0, 16.0]));
    solid.flat(&[ring(0.0, full.0, full.1)], [-1.0, 0.0, 0.0]);
    solid.flat(
        &[ring(550.0, full.0, full.1), ring(550.0, tenon.0, tenon.1)],
        [1.0, 0.0, 0.0],
    );
    solid.flat(&[ring(600.0, tenon.0, tenon.1)], [1.0, 0.0, 0.0]);
    for ((y, z), from, to) in [(full, 0.0, 550.0), (tenon, 550.0, 600.0)] {
        let (mut upper, mut lower) = (ring(to, y, z), ring(from, y, z));
        upper.reverse();
        lower.reverse();
        solid.walls(&upper, &lower);
    }
    let part = doubtful(&solid.facets);
    // 50 by 10 by 24 on either side of the tenon
    assert!(
        matches!(part.doubts.as_slice(), [Doubt::Volume(volume)] if (volume - 24_000.0).abs() < 1.0),
        "{:?}",
        part.doubts
    );
}

#[test]
fn gaps_and_turned_triangles() {
    let facets = made(BOARD, &[Cut::bore(Side::Top, [100.0, 100.0], 8.0, 10.0)]);
    let mut open = facets.clone();
    open.remove(20);
    assert!(doubtful(&open).doubts.contains(&Doubt::OpenEdges(3)));
    assert_eq!(run("open", &open, &[]).0, 3);
    let mut turned = facets.clone();
    turned[20].swap(1, 2);
    assert!(doubtful(&turned).doubts.contains(&Doubt::TurnedEdges(3)));
    let mut crowded = facets;
    let [a, b, _] = crowded[20];
    crowded.push([a, b, [300.0, 200.0, 100.0]]);
    let part = doubtful(&crowded);
    assert!(
        part.doubts.contains(&Doubt::CrowdedEdges(1)),
        "{:?}",
        part.doubts
    );
}

/// Corners that differ by a millionth of the size are one.
#[test]
fn corners_are_welded() {
    let facets = made(BOARD, &[Cut::bore(Side::Top, [100.0, 100.0], 8.0, 10.0)]);
    let shift = |(n, facet): (usize, &Corners)| {
        facet.map(|corner| corner.map(|part| part + if n % 2 == 0 { 0.0 } else { 1e-4 }))
    };
    let apart: Vec<Corners> = facets.iter().enumerate().map(shift).collect();
    let report = recognise(&Shape::of(&apart).unwrap(), &Options::default()).unwrap();
    assert!(report.is_certain(), "{report:#?}");
    assert_eq!(report.parts[0].rows.len(), 1);
}

/// Five boards in one file: a list for each; exit status 3, and 0 where several are expected.
#[test]
fn an_assembly_of_five_boards() {
    let board = made(BOARD, &[Cut::bore(Side::Top, [100.0, 100.0], 8.0, 10.0)]);
    let mut facets = Vec::new();
    for n in 0..5 {
        facets.extend(moved(&board, [0.0, 500.0 * f64::from(n), 0.0]));
    }
    let found = report(&facets);
    assert_eq!(found.doubts, [Doubt::SeveralShells(5)]);
    assert!(found
        .parts
        .iter()
        .all(|part| part.rows.len() == 1 && part.doubts.is_empty()));
    let (status, out, _) = run("five", &facets, &[]);
    assert_eq!(status, 3);
    assert!(
        out.contains("part 5 of 5: 600.00 x 400.00 x 18.00 mm"),
        "{out}"
    );
    let (status, out, _) = run("five-asked", &facets, &["--shells"]);
    assert_eq!(status, 0);
    assert!(
        out.ends_with(
            "complete: all of the surface is accounted for, and every row is confirmed\n"
        ),
        "{out}"
    );
    // a hollow is no part of its own
    let hollow = mapped(
        &made([100.0, 100.0, 8.0], &[]),
        |point| point.map(|part| part + 5.0),
        true,
    );
    let facets = [board, hollow].concat();
    let asked = Options {
        several: true,
        ..Options::default()
    };
    let found = recognise(&Shape::of(&facets).unwrap(), &asked).unwrap();
    assert!(found.parts[1].doubts.contains(&Doubt::Hollow), "{found:#?}");
}

/// A board in inches, centimetres and metres: read as millimetres it has a size that no board has.
#[test]
fn units() {
    let board = made(BOARD, &[Cut::bore(Side::Top, [100.0, 100.0], 8.0, 10.0)]);
    for (unit, millimetres) in [("in", 25.4), ("cm", 10.0), ("m", 1000.0)] {
        let scaled = mapped(&board, |point| point.map(|part| part / millimetres), false);
        let (status, out, _) = run(&format!("as-mm-{unit}"), &scaled, &[]);
        assert_eq!(status, 3, "{out}");
        assert!(out.contains("! no board has this size"), "{out}");
        let (status, out, _) = run(&format!("in-{unit}"), &scaled, &["--unit", unit]);
        assert_eq!(status, 0, "{out}");
        assert!(out.starts_with("600.00 x 400.00 x 18.00 mm"), "{out}");
        assert!(
            out.contains("bore  circle   8.00   0.00  10.00  100.00  100.00  18.00"),
            "{out}"
        );
    }
}

/// The file's own frame is kept where that is asked for; else z lies across the largest face and x along the longest side.
#[test]
fn frames() {
    // 18 wide, 600 deep and 400 high
    let standing = mapped(
        &made(BOARD, &[Cut::bore(Side::Top, [100.0, 50.0], 8.0, 10.0)]),
        |[x, y, z]| [z, x, y],
        false,
    );
    let (status, out, _) = run("own", &standing, &[]);
    assert_eq!(status, 0);
    assert!(
        out.starts_with("600.00 x 400.00 x 18.00 mm") && out.contains("own frame: "),
        "{out}"
    );
    assert!(
        out.contains("top   bore  circle   8.00   0.00  10.00  100.00  50.00  18.00"),
        "{out}"
    );
    let (status, out, _) = run("drawn", &standing, &["--as-drawn"]);
    assert_eq!(status, 0);
    assert!(
        out.starts_with("18.00 x 600.00 x 400.00 mm") && !out.contains("own frame"),
        "{out}"
    );
    assert!(
        out.contains("right  bore  circle   8.00   0.00  10.00  18.00  100.00  50.00"),
        "{out}"
    );
}

/// A part without a flat face, and a groove of a shape that runs along another axis than its floor.
#[test]
fn parts_that_are_no_boards() {
    let v_groove = extruded(
        &[
            [0.0, 0.0],
            [400.0, 0.0],
            [400.0, 18.0],
            [110.0, 18.0],
            [105.0, 10.0],
            [100.0, 18.0],
            [0.0, 18.0],
        ],
        &[],
        600.0,
    );
    let found = report(&v_groove);
    // seen along it, it is a notch right through
    assert!(found.is_certain(), "{found:#?}");
    let [row] = found.parts[0].rows.as_slice() else {
        panic!("{found:#?}")
    };
    assert_eq!((row.kind, row.end), (Kind::Notch, End::Through));
    let tall: Vec<Place> = circle([0.0, 0.0], 100.0, 48);
    let disc = extruded(&tall, &[], 20.0);
    let found = report(&disc);
    assert!(
        found.is_certain() && found.parts[0].rows.is_empty(),
        "{found:#?}"
    );
    assert!(found.parts[0].faces.iter().any(|face| face
        .radius
        .is_some_and(|radius| (radius - 50.0).abs() < 0.01)));
}

/// A pin of another shell in a bore: the casts meet it, and the bore is marked.
#[test]
fn a_plugged_bore_is_not_confirmed() {
    let board = made(
        BOARD,
        &[
            Cut::bore(Side::Top, [100.0, 100.0], 8.0, 10.0),
            Cut::bore(Side::Top, [200.0, 100.0], 8.0, 10.0),
        ],
    );
    let pin = moved(&made([4.0, 4.0, 30.0], &[]), [98.0, 98.0, 8.5]);
    let facets = [board, pin].concat();
    let (status, out, _) = run("plugged", &facets, &["--shells"]);
    assert_eq!(status, 3);
    let told = "NOT CONFIRMED: a probe down its axis meets a surface at ";
    assert_eq!(out.matches("NOT CONFIRMED").count(), 1, "{out}");
    assert!(
        out.contains(told) && out.contains("! 1 rows are not confirmed"),
        "{out}"
    );
    let (_, out, _) = run("plugged-csv", &facets, &["--shells", "--csv"]);
    let of = |word: &str| out.lines().filter(|line| line.contains(word)).count();
    assert_eq!(
        (of(",bore,circle,8.000,"), of(",no,\"NOT CONFIRMED")),
        (2, 1),
        "{out}"
    );
}
