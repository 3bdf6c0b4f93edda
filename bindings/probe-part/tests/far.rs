//! Parts far from the file's zero: they are shifted by whole millimetres for the casts, and positions are the file's.
mod board;
mod known;

use board::{ascii, binary, board as made, mapped, moved, Cut, Point, Side, THROUGH};
use known::{bore, hold_report, Pose};
use probe_part::model::Unit;
use probe_part::recognise::{recognise, Options};
use probe_part::shape::Shape;
use std::path::PathBuf;
use std::process::Command;
use std::{env, fs};

const BOARD: Point = [600.0, 400.0, 18.0];

/// Bores in three faces, with whole and with broken coordinates.
fn cuts() -> Vec<Cut> {
    vec![
        Cut::bore(Side::Top, [100.0, 50.0], 8.0, 10.0),
        Cut::bore(Side::Top, [321.37, 211.73], 35.0, THROUGH),
        Cut::bore(Side::Left, [200.0, 9.0], 8.0, 30.0),
    ]
}

fn run(words: &[&str]) -> (i32, String) {
    let output = Command::new(env!("CARGO_BIN_EXE_probe-part"))
        .args(words)
        .output()
        .unwrap();
    let text = String::from_utf8_lossy(&output.stdout) + String::from_utf8_lossy(&output.stderr);
    (output.status.code().unwrap(), text.into_owned())
}

fn path(name: &str) -> PathBuf {
    env::temp_dir().join(format!("probe-part-far-{name}-{}", std::process::id()))
}

/// As drawn, in an own frame, in single precision and in text, 8 m to 50 m away, on each side of zero.
#[test]
fn parts_beyond_the_casts_reach() {
    let facets = made(BOARD, &cuts());
    let all = [
        bore(BOARD, Side::Top, [100.0, 50.0], 8.0, 10.0),
        bore(BOARD, Side::Top, [321.37, 211.73], 35.0, THROUGH),
        bore(BOARD, Side::Left, [200.0, 9.0], 8.0, 30.0),
    ];
    let stand = |[x, y, z]: Point| [z, x, y];
    for far in [
        [8000.0, 0.0, 0.0],
        [-50_000.0, 12_345.0, 9_000.5],
        [0.0, -8_100.0, 0.0],
        [20_000.25, 20_000.0, -30_000.0],
    ] {
        for stands in [false, true] {
            let own = [[0.0, 1.0, 0.0], [0.0, 0.0, 1.0], [1.0, 0.0, 0.0]];
            let pose = Pose {
                axes: if stands { own } else { Pose::STILL.axes },
                origin: far,
                mirrors: false,
            };
            let place = |point: Point| if stands { stand(point) } else { point };
            let there = moved(&mapped(&facets, place, false), far);
            for bytes in [binary(&there), ascii(&there, 1.0, 6)] {
                let shape = Shape::read(&bytes, Unit::Millimetre).unwrap();
                let report = recognise(&shape, &Options::default()).unwrap();
                let by = report.shift.unwrap();
                assert!(by.iter().all(|part| part.fract() == 0.0), "{by:?}");
                hold_report(report, &all, &pose, 0.02);
            }
        }
    }
}

/// The list says so, names the positions of the file, and the files and pictures are written; a ray hits where it should.
#[test]
fn the_list_says_that_the_part_was_shifted() {
    let there = moved(&made(BOARD, &cuts()), [10_000.0, -20_000.0, 500.0]);
    let (file, out) = (path("board.stl"), path("out"));
    fs::write(&file, binary(&there)).unwrap();
    let name = file.to_str().unwrap();
    let (status, said) = run(&["bores", name, "--out", out.to_str().unwrap()]);
    assert_eq!(status, 0, "{said}");
    let first = "for the casts shifted by (-10300, 19800, -509) mm, since it lies beyond 8,000 mm; positions are the file's\n";
    assert!(said.starts_with(first), "{said}");
    let row = "bore circle 8.00 0.00 10.00 10100.00 -19950.00 518.00";
    let words: Vec<&str> = said.split_whitespace().collect();
    assert!(words.join(" ").contains(row), "{said}");
    let pictures = fs::read_dir(&out).unwrap().filter(|entry| {
        let path = entry.as_ref().unwrap().path();
        path.extension().is_some_and(|ending| ending == "svg")
    });
    assert_eq!(pictures.count(), 2);
    // a drill of 7.9 in the bore of 8, 10 deep, and one that goes to its floor
    let drills = "10100 -19950 518 0 0 -1 9.99 7.9  10100 -19950 518 0 0 -1 12 7.9";
    let words: Vec<&str> = ["drill", name]
        .into_iter()
        .chain(drills.split_whitespace())
        .collect();
    let (status, said) = run(&words);
    assert_eq!(status, 0, "{said}");
    let lines: Vec<&str> = said.lines().skip(2).collect();
    assert_eq!(lines[0], "drill 1: clear");
    let at_floor =
        lines[1].contains(" at 10.000 mm, near (101") && lines[1].ends_with(", 508.000)");
    assert!(at_floor, "{said}");
    // a cast is at where the part lies: it is refused, exact or of every depth
    let ray = ["10100", "-19950", "528", "0", "0", "-1", "100"];
    for switches in [[].as_slice(), &["--all"]] {
        let words: Vec<&str> = [["cast", name].as_slice(), &ray, switches].concat();
        let (status, said) = run(&words);
        assert_eq!(status, 1, "{said}");
        assert!(said.contains("\nray 1: refused 12, out of range"), "{said}");
    }
    // a part near zero is left where it is
    fs::write(&file, binary(&made(BOARD, &cuts()))).unwrap();
    let (status, said) = run(&["bores", name]);
    assert!(status == 0 && !said.contains("shifted"), "{said}");
    fs::remove_file(&file).unwrap();
    fs::remove_dir_all(&out).unwrap();
}
