//! Each format is read back by another reader, Python's or a small one here, and held to the model's values.
mod board;

use board::DRILLED;
use probe_part::corner::from_corner;
use probe_part::csv::csv;
use probe_part::deflate::zlib;
use probe_part::json::json;
use probe_part::model::{Outline, Report, Row};
use probe_part::recognise::{recognise, Options};
use probe_part::shape::Shape;
use probe_part::tables::Listing;
use std::io::Write;
use std::process::{Command, Stdio};

/// What is recognised of the drilled board, as it is drawn.
fn report() -> Report {
    let shape = Shape::of(&board::drilled()).unwrap();
    let options = Options {
        as_drawn: true,
        ..Options::default()
    };
    let report = recognise(&shape, &options).unwrap();
    assert!(report.is_certain(), "{report:?}");
    assert_eq!(report.parts[0].rows.len(), 6);
    report
}

fn named() -> Listing {
    Listing {
        name: "side \"left\", oak".into(),
        ..Listing::default()
    }
}

/// What a Python program prints about its input.
fn python(program: &str, input: &[u8]) -> Vec<u8> {
    let mut child = Command::new("python3")
        .args(["-c", program])
        .stdin(Stdio::piped())
        .stdout(Stdio::piped())
        .spawn()
        .unwrap();
    let mut stdin = child.stdin.take().unwrap();
    let input = input.to_vec();
    let writer = std::thread::spawn(move || stdin.write_all(&input).unwrap());
    let output = child.wait_with_output().unwrap();
    writer.join().unwrap();
    assert!(output.status.success());
    output.stdout
}

/// The numbers of each line.
fn numbers(text: &[u8]) -> Vec<Vec<f64>> {
    let line = |line: &str| {
        line.split_whitespace()
            .map(|word| word.parse().unwrap())
            .collect()
    };
    String::from_utf8(text.to_vec())
        .unwrap()
        .lines()
        .map(line)
        .collect()
}

fn diameter(row: &Row) -> f64 {
    match row.outline {
        Outline::Circle { diameter, .. } => diameter,
        _ => 0.0,
    }
}

/// What the readers below print of each row.
fn wanted(report: &Report) -> Vec<Vec<f64>> {
    let row = |(place, row): (usize, &Row)| {
        let mut line = vec![place as f64 + 1.0, row.feature as f64 + 1.0, diameter(row)];
        line.extend([row.entry_depth, row.depth]);
        line.extend(row.centre);
        line.extend(row.axis);
        line.extend([DRILLED[0], DRILLED[1], DRILLED[2], DRILLED[2]]);
        line
    };
    report.parts[0].rows.iter().enumerate().map(row).collect()
}

fn hold(read: &[Vec<f64>], wanted: &[Vec<f64>], off: f64) {
    assert_eq!(read.len(), wanted.len());
    for (read, wanted) in read.iter().zip(wanted) {
        assert_eq!(read.len(), wanted.len());
        let near = read.iter().zip(wanted).all(|(a, b)| (a - b).abs() <= off);
        assert!(near, "{read:?} {wanted:?}");
    }
}

#[test]
fn json_has_the_rows() {
    let program = r#"
import json, sys
whole = json.load(sys.stdin)
assert whole["file"] == 'side "left", oak' and whole["complete"] is True and whole["doubts"] == []
(part,) = whole["parts"]
for row in part["rows"]:
    assert row["confirmed"] is True and row["differs"] is None
    print(row["number"], row["feature"], row["outline"].get("diameter", 0), row["entry_depth"], row["depth"],
          *row["centre"], *row["axis"], *part["size"], part["thickness"])
"#;
    let report = report();
    let text = json(&report, &named(), &named().name);
    hold(
        &numbers(&python(program, text.as_bytes())),
        &wanted(&report),
        1e-9,
    );
}

/// From the corner, the frame's zero moves there, and every place with it.
#[test]
fn json_from_the_corner() {
    let report = report();
    let moved = from_corner(&report);
    let (part, at) = (&report.parts[0], &moved.parts[0]);
    assert_eq!((at.low, at.high), ([0.0; 3], part.size()));
    for (row, moved) in part.rows.iter().zip(&at.rows) {
        let [drawn, same] =
            [(part, row.centre), (at, moved.centre)].map(|(part, p)| part.frame.place_in_file(p));
        assert!((0..3).all(|axis| (drawn[axis] - same[axis]).abs() < 1e-9));
        assert_ne!(row.centre, moved.centre);
    }
}

#[test]
fn csv_has_the_rows() {
    let program = r#"
import csv, sys
for row in csv.DictReader(sys.stdin):
    assert row["part"] == 'side "left", oak' and row["confirmed"] == "yes", row
    print(row["number"], row["feature"], row["width"] if row["outline"] == "circle" else 0, row["entry_depth"], row["depth"],
          row["x"], row["y"], row["z"], row["axis_x"], row["axis_y"], row["axis_z"],
          row["size_x"], row["size_y"], row["size_z"], row["thickness"])
"#;
    let report = report();
    let text = csv(&report, &named());
    hold(
        &numbers(&python(program, text.as_bytes())),
        &wanted(&report),
        0.000_5 + 1e-9,
    );
}

/// The rows of a stepped bore are one feature, and no others are.
#[test]
fn a_feature_joins_a_stepped_bore() {
    let report = report();
    let rows = &report.parts[0].rows;
    let inner = rows.iter().find(|row| row.within.is_some()).unwrap();
    assert_eq!(inner.feature, rows[inner.within.unwrap()].feature);
    let mut features: Vec<usize> = rows.iter().map(|row| row.feature).collect();
    features.sort_unstable();
    features.dedup();
    assert_eq!(features.len(), rows.len() - 1);
}

/// Bytes of chance, of few letters, of one letter, of long repeats near and far, and none: what zlib unpacks is what was
/// packed.
#[test]
fn packed_bytes_unpack() {
    let mut seed = 5_u32;
    let mut chance = || {
        seed = seed.wrapping_mul(1_664_525).wrapping_add(1_013_904_223);
        (seed >> 24) as u8
    };
    let random: Vec<u8> = (0..70_000).map(|_| chance()).collect();
    let few: Vec<u8> = (0..50_000)
        .map(|_| b"ab "[usize::from(chance() % 3)])
        .collect();
    let mut far = random[..40_000].to_vec();
    far.extend(&random[7_300..40_000]);
    far.extend(&random[..300]);
    let cases = [Vec::new(), vec![9], vec![0; 100_000], random, few, far];
    for bytes in cases {
        let packed = zlib(&bytes);
        let program =
            "import sys, zlib; sys.stdout.buffer.write(zlib.decompress(sys.stdin.buffer.read()))";
        assert!(python(program, &packed) == bytes, "{} bytes", bytes.len());
    }
    assert!(zlib(&[0; 100_000]).len() < 1_000);
}
