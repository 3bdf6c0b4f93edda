//! Drills at parts whose measures are known: the command `drill`, rows that are confirmed by drills, the web behind blind bores, and
//! boring lists against a part.
mod board;

use board::{binary, board as made, drilled, moved, single, Cut, Point, Side, DRILLED};
use probe_part::boring_list;
use probe_part::check::check;
use probe_part::drills::{Drill, WEB};
use probe_part::model::{Check, Doubt, Kind, Outline, Part, Report, Row};
use probe_part::recognise::{recognise, Options};
use probe_part::shape::Shape;
use probe_rays::stl::Corners;
use probe_rays::Scratch;
use std::path::PathBuf;
use std::process::Command;
use std::{env, fs};

const PANEL: &str = concat!(env!("CARGO_MANIFEST_DIR"), "/../../examples/panel.stl");
const BOARD: Point = [300.0, 200.0, 18.0];

fn report(facets: &[Corners]) -> Report {
    let options = Options {
        web: WEB,
        ..Options::default()
    };
    recognise(&Shape::of(&single(facets)).unwrap(), &options).unwrap()
}

/// The exit status and what is printed.
fn said(words: &[&str]) -> (i32, String) {
    let output = Command::new(env!("CARGO_BIN_EXE_probe-part"))
        .args(words)
        .output()
        .unwrap();
    let text = [output.stdout, output.stderr].concat();
    (
        output.status.code().unwrap(),
        String::from_utf8(text).unwrap(),
    )
}

/// Files that are gone at the end of the test.
struct Folder(PathBuf);

impl Folder {
    fn new(name: &str) -> Folder {
        let path = env::temp_dir().join(format!("probe-part-drills-{name}-{}", std::process::id()));
        fs::create_dir_all(&path).unwrap();
        Folder(path)
    }

    fn file(&self, name: &str, bytes: &[u8]) -> String {
        let path = self.0.join(name);
        fs::write(&path, bytes).unwrap();
        path.to_str().unwrap().into()
    }
}

impl Drop for Folder {
    fn drop(&mut self) {
        let _ = fs::remove_dir_all(&self.0);
    }
}

/// The cup of examples/panel.stl is 35 across its flats and 13 deep, its facets 24 to 47; the outer walls are the facets from 48 on,
/// and 18 mm high.
#[test]
fn what_a_drill_touches() {
    let said_of = |numbers: &str| {
        let mut words = vec!["drill", PANEL];
        words.extend(numbers.split_whitespace());
        let (status, text) = said(&words);
        let lines: Vec<String> = text.lines().skip(1).map(String::from).collect();
        (status, lines)
    };
    let (status, lines) = said_of("50 50 18 0 0 -1 12.99 34.99  50 50 30 0 0 -3 25.01 34.99");
    assert_eq!(status, 0);
    assert_eq!(lines[0], "drill 1: clear");
    // the first of the floor's facets, at its middle
    assert_eq!(
        lines[1],
        "drill 2: touches triangle 40 at 25.000 mm, near (50.000, 50.000, 5.000)"
    );
    // too wide by a hundredth: the rim of the top face stops it, 12 mm below its start
    let (_, lines) = said_of("50 50 30 0 0 -1 25 35.01");
    assert!(
        lines[0].starts_with("drill 1: touches triangle "),
        "{lines:?}"
    );
    assert!(lines[0].contains(" at 12.000 mm, near "), "{lines:?}");
    // beside the panel, along its side: clear at 1.99 from it, and touched at 2
    let (_, lines) = said_of("100 -2 9 1 0 0 50 3.98  100 -2 9 1 0 0 50 4");
    assert_eq!(lines[0], "drill 1: clear");
    assert!(
        lines[1].contains(" at 0.000 mm, near (100.000, 0.000, 9.000)"),
        "{lines:?}"
    );
    let (status, lines) = said_of("50 50 18 0 0 -1 5 257  50 50 18 0 0 -1 5 -1");
    assert_eq!(status, 1);
    assert_eq!(
        lines,
        [
            "drill 1: refused 12, out of range: the diameter is above 256",
            "drill 2: refused 1, invalid input: the diameter is not a number from 0 on"
        ]
    );
    let (status, text) = said(&["drill", PANEL, "1", "2", "3"]);
    assert_eq!(status, 2);
    assert!(text
        .contains("a drill is eight numbers (place, direction, depth, diameter), but 3 are given"));
}

fn bore(report: &Report, diameter: f64) -> &Row {
    let is = |row: &&Row| matches!(row.outline, Outline::Circle { diameter: own, .. } if (own - diameter).abs() < 0.01);
    report.parts[0].rows.iter().find(is).unwrap()
}

/// A splinter in a bore, off its axis and off its wall, where no line of the probes runs: the drill that fits the bore touches it.
#[test]
fn a_splinter_in_a_bore_is_found() {
    let cuts = [Cut::bore(Side::Top, [100.0, 80.0], 8.0, 12.0)];
    let board = made(BOARD, &cuts);
    let sound = report(&board);
    assert!(sound.is_certain());
    let [a, b, c, d] = [
        [101.5, 80.2, 10.0],
        [101.6, 80.2, 10.0],
        [101.5, 80.3, 10.0],
        [101.5, 80.2, 10.1],
    ];
    let splinter = [[a, c, b], [a, b, d], [b, c, d], [c, a, d]];
    let facets = [board, splinter.to_vec()].concat();
    let options = Options {
        several: true,
        ..Options::default()
    };
    let shape = Shape::of(&single(&facets)).unwrap();
    let found = recognise(&shape, &options).unwrap();
    let row = bore(&found, 8.0);
    let Check::Differs(why) = &row.check else {
        panic!("{row:?}");
    };
    // its top is 7.9 below the entry
    assert!(
        why.starts_with("a drill of 7.9") && why.ends_with("touches a surface at 7.90"),
        "{why}"
    );
    assert!(found.parts[0].doubts.contains(&Doubt::NotConfirmed(1)));
    // the first touch, by itself
    let drill = Drill::new([100.0, 80.0, 18.0], [0.0, 0.0, -1.0], 12.0, 6.0);
    let touch = drill
        .first_touch(&shape, &mut Scratch::new())
        .unwrap()
        .unwrap();
    assert!((touch.depth - 7.9).abs() < 1e-4, "{touch:?}");
    assert!(
        (0..3).all(|axis| (touch.place[axis] - d[axis]).abs() < 1e-4),
        "{touch:?}"
    );
}

fn web_of(part: &Part, kind: Kind, diameter: f64) -> Option<f64> {
    let row = part.rows.iter().find(|row| {
        let round = matches!(row.outline, Outline::Circle { diameter: own, .. } if (own - diameter).abs() < 0.01);
        row.kind == kind && round
    });
    row.unwrap().web
}

/// What is left behind: to the lower face, behind a pilot and not behind the step it goes on from, none of what goes through; and to
/// a bore that crosses beside the axis, below the edge of the first.
#[test]
fn the_web_behind_blind_bores() {
    let cuts = [
        Cut::bore(Side::Top, [40.0, 40.0], 8.0, 12.0),
        Cut::bore(Side::Top, [80.0, 40.0], 20.0, 5.0).with_inner(9.0, 14.5),
        Cut::bore(Side::Top, [120.0, 40.0], 10.0, board::THROUGH),
        // 5 beside a bore from the left, whose middle is 5 above the lower face
        Cut::bore(Side::Top, [30.0, 105.0], 11.0, 8.0),
        Cut::bore(Side::Left, [100.0, 5.0], 5.0, 60.0),
    ];
    let found = report(&made(BOARD, &cuts));
    assert!(found.is_certain(), "{found:#?}");
    let part = &found.parts[0];
    let webs = [8.0, 20.0, 9.0, 10.0].map(|diameter| web_of(part, Kind::Bore, diameter));
    let near = |web: Option<f64>, wanted: f64, off: f64| {
        assert!(
            web.is_some_and(|web| (web - wanted).abs() < off),
            "{web:?} {wanted}"
        );
    };
    near(webs[0], 6.0, 1e-3);
    assert_eq!(webs[1], None);
    near(webs[2], 3.5, 1e-3);
    assert_eq!(webs[3], None);
    // the crossing bore's highest line is under the first bore, 7.5 above the lower face; its 32 sides lie up to 0.02 below it
    near(web_of(part, Kind::Bore, 11.0), 2.5, 0.02);
    // behind the bore from the left nothing is near
    assert_eq!(web_of(part, Kind::Bore, 5.0), None);
}

/// Half a millimetre behind a bore is a doubt, unless less is asked.
#[test]
fn a_thin_web_is_a_doubt() {
    let cuts = [Cut::bore(Side::Top, [40.0, 40.0], 8.0, 17.5)];
    let facets = made(BOARD, &cuts);
    let found = report(&facets);
    let [Doubt::ThinWeb(1, least)] = found.parts[0].doubts[..] else {
        panic!("{found:#?}");
    };
    assert!((least - 0.5).abs() < 1e-3);
    let folder = Folder::new("thin");
    let file = folder.file("thin.stl", &binary(&facets));
    assert_eq!(said(&["bores", &file]).0, 0);
    let (status, text) = said(&["bores", &file, "--web", "1"]);
    assert_eq!(status, 3);
    assert!(
        text.contains("! 1 rows leave little behind their floor, 0.50 mm at the least"),
        "{text}"
    );
    assert_eq!(said(&["bores", &file, "--web", "0.4"]).0, 0);
    let (status, text) = said(&["bores", &file, "--web", "thin"]);
    assert_eq!(status, 2);
    assert!(
        text.contains("--web takes millimetres from 0 on, not \"thin\""),
        "{text}"
    );
}

/// The tool's own list of a board fits it, from the corner too; with a bore left out, or a number changed, it does not.
#[test]
fn the_own_list_fits() {
    let folder = Folder::new("own");
    let facets = moved(&drilled(), [-200.0, 90.0, 4.0]);
    let file = folder.file("board.stl", &binary(&facets));
    for from in [&[][..], &["--from-corner"]] {
        let mut words = vec!["bores", &file, "--csv"];
        words.extend(from);
        let (status, text) = said(&words);
        assert_eq!(status, 0);
        let list = folder.file("own.csv", text.as_bytes());
        let mut words = vec!["check", &list, &file];
        words.extend(from);
        let (status, answer) = said(&words);
        assert_eq!(status, 0, "{answer}");
        assert!(
            answer.ends_with("every row fits the part, and every bore of the part is in a row\n")
        );
        // the pocket's line is of no bore
        assert!(
            answer.contains("1 lines are of no bore, and are not checked"),
            "{answer}"
        );
        let fewer: Vec<&str> = text
            .lines()
            .filter(|line| !line.contains(",8.500,"))
            .collect();
        let list = folder.file("fewer.csv", fewer.join("\n").as_bytes());
        words[1] = &list;
        let (status, answer) = said(&words);
        assert_eq!(status, 3);
        let missing = answer
            .lines()
            .find(|line| line.contains("is in no row"))
            .unwrap();
        assert!(
            missing.starts_with("! bore ") && missing.contains("8.50 at "),
            "{answer}"
        );
        assert!(answer.ends_with("! THE LIST DOES NOT FIT THE PART\n"));
    }
}

/// A list from elsewhere, of a board of 400 by 300 by 19 with a bore of 8 by 12 from the top, one of 10 right through, and one of 6 by
/// 20 from the left: with commas or semicolons, axes in any form; then each row with one thing wrong.
#[test]
fn a_list_from_elsewhere() {
    let folder = Folder::new("elsewhere");
    let cuts = [
        Cut::bore(Side::Top, [60.0, 70.0], 8.0, 12.0),
        Cut::bore(Side::Top, [200.0, 100.0], 10.0, board::THROUGH),
        Cut::bore(Side::Left, [50.0, 9.5], 6.0, 20.0),
    ];
    let file = folder.file("board.stl", &binary(&made(DRILLED, &cuts)));
    let checked = |text: &str| {
        let list = folder.file("list.csv", text.as_bytes());
        said(&["check", &list, &file])
    };
    let good =
        "x,y,z,axis,diameter,depth\n60,70,19,-z,8,12\n200,100,19,top,10,\n0,50,9.5,+x,6,20\n";
    let (status, answer) = checked(good);
    assert_eq!(status, 0, "{answer}");
    assert!(
        answer.contains(
            "line 2, 8.00 at (60.00, 70.00, 19.00), 12.00 deep: clear, wall and end fit, "
        ),
        "{answer}"
    );
    assert!(
        answer.lines().next().unwrap().ends_with("web 7.00"),
        "{answer}"
    );
    // from the other side, deeper than the board is thick, and with other separators and columns
    let other = "Nr;Diameter;Depth;X;Y;Z;Axis\n1;8;12;60;70;19;0 0 -1\n2;10;25;200;100;0;+z\n3;6;20;0;50;9.5;left\n";
    let (status, answer) = checked(other);
    assert_eq!(status, 0, "{answer}");
    let wrong = [
        // too deep, too shallow, elsewhere, too wide, into the wood, not through
        (
            "60,70,19,-z,8,12",
            "60,70,19,-z,8,13",
            "its drill touches triangle ",
        ),
        (
            "60,70,19,-z,8,12",
            "60,70,19,-z,8,11",
            "the part's bore ends at 12.00",
        ),
        (
            "60,70,19,-z,8,12",
            "60,71,19,-z,8,12",
            "no bore of this diameter is there; its drill touches triangle ",
        ),
        (
            "60,70,19,-z,8,12",
            "60,70,19,-z,9,12",
            "no bore of this diameter is there; its drill touches triangle ",
        ),
        (
            "60,70,19,-z,8,12",
            "60,70,19,-z,8,",
            "the part's bore ends at 12.00",
        ),
        (
            "200,100,19,top,10,",
            "200,100,19,top,10,15",
            "the part's bore goes on to 19.00",
        ),
        (
            "0,50,9.5,+x,6,20",
            "0,50,9.5,+y,6,20",
            "no bore of this diameter is there; its drill touches triangle ",
        ),
    ];
    for (right, instead, why) in wrong {
        let (status, answer) = checked(&good.replace(right, instead));
        assert_eq!(status, 3, "{instead}: {answer}");
        let marked = answer.lines().find(|line| line.starts_with("! line "));
        assert!(
            marked.is_some_and(|line| line.contains(why)),
            "{instead}: {answer}"
        );
    }
    // in the air above the board its drill is clear, and there is no floor
    let (status, answer) = checked(&good.replace("60,70,19,-z,8,12", "60,70,60,-z,8,12"));
    assert_eq!(status, 3);
    assert!(answer.contains("the part's bore ends at 53.00"), "{answer}");
    let unread = [
        ("", "the list is empty"),
        ("x,y,z,axis,diameter\n", "no column depth"),
        (
            "x,y,z,axis,diameter,depth\n1,2,3,up,8,12\n",
            "line 2: axis is \"up\"",
        ),
        (
            "x,y,z,axis,diameter,depth\n1,2,3,-z,8,twelve\n",
            "line 2: depth is \"twelve\"",
        ),
        (
            "x,y,z,axis,diameter,depth\n1,2,3,-z,0,12\n",
            "line 2: diameter and depth are to be above 0",
        ),
    ];
    for (text, why) in unread {
        let (status, answer) = checked(text);
        assert_eq!(status, 2, "{answer}");
        assert!(answer.contains(why), "{answer}");
    }
    assert_eq!(said(&["check", &file]).0, 2);
}

/// A part's row that says 8 where the part has a bore of 20: the list's drill of 8 is clear to the floor, and meets no wall.
#[test]
fn a_wall_that_is_not_there() {
    let cuts = [Cut::bore(Side::Top, [60.0, 70.0], 20.0, 12.0)];
    let shape = Shape::of(&single(&made(BOARD, &cuts))).unwrap();
    let mut part = recognise(&shape, &Options::default()).unwrap().parts[0].clone();
    let checked = |part: &Part, diameter: u32| {
        let text = format!("x,y,z,axis,diameter,depth\n60,70,18,-z,{diameter},12\n");
        check(&shape, part, &boring_list::read(&text).unwrap(), 1.0).unwrap()
    };
    let right = checked(&part, 20);
    assert!(right.fits, "{right:?}");
    part.rows[0].outline = Outline::Circle {
        diameter: 8.0,
        sides: 32,
    };
    let wrong = checked(&part, 8);
    assert!(!wrong.fits);
    assert!(wrong.lines[0].contains("no wall is there"), "{wrong:?}");
}
