//! Countersinks and drills' tips: their measures as numbers, and tips whose triangles have corners between rim and point.
mod board;
mod known;

use board::{binary, board as made, circle, Cut, Point, Side, Solid, THROUGH};
use known::{bore, hold};
use probe_part::model::{Cone, End, Unit};
use probe_part::recognise::{recognise, Options};
use probe_part::shape::Shape;
use probe_rays::stl::Corners;
use std::process::Command;
use std::{env, fs};

const BOARD: Point = [600.0, 400.0, 18.0];

/// What `bores` prints of facets; the list is certain.
fn listed(facets: &[Corners], words: &[&str]) -> String {
    let name = format!("probe-part-cones{}-{}.stl", words[0], std::process::id());
    let file = env::temp_dir().join(name);
    fs::write(&file, binary(facets)).unwrap();
    let output = Command::new(env!("CARGO_BIN_EXE_probe-part"))
        .arg("bores")
        .arg(&file)
        .args(words)
        .output()
        .unwrap();
    fs::remove_file(&file).unwrap();
    assert_eq!(output.status.code(), Some(0), "{output:?}");
    String::from_utf8(output.stdout).unwrap()
}

/// A countersink of 45.67 degrees from 12 mm, 6 deep, with a bore through; one of 90 degrees from 10 to 5; a tip of 118.
fn sunk() -> (Vec<Corners>, f64) {
    let narrow = 12.0 - 12.0 * 22.835_f64.to_radians().tan();
    let mut cuts = Vec::new();
    for (middle, wide, narrow, depth) in [
        ([100.0, 100.0], 12.0, narrow, 6.0),
        ([200.0, 100.0], 10.0, 5.0, 2.5),
    ] {
        let mut cut = Cut::new(Side::Top, circle(middle, wide, 48), middle, depth);
        cut.floor = Some(circle(middle, narrow, 48));
        cut.inner = vec![(circle(middle, narrow, 48), THROUGH)];
        cuts.push(cut);
    }
    let mut tipped = Cut::bore(Side::Top, [300.0, 100.0], 8.0, 10.0);
    tipped.tip = Some(10.0 + 4.0 / 59.0_f64.to_radians().tan());
    cuts.push(tipped);
    (made(BOARD, &cuts), narrow)
}

#[test]
fn cones_are_numbers_in_json() {
    let (facets, narrow) = sunk();
    let json = listed(&facets, &["--json"]);
    let of = |key: &str| -> f64 {
        let place = json.find("\"cone\": {").unwrap();
        let rest = &json[place..];
        let rest = &rest[rest.find(&format!("\"{key}\": ")).unwrap() + key.len() + 4..];
        let number = rest.split([',', '}']).next().unwrap();
        number.parse().unwrap()
    };
    for (key, wanted) in [
        ("angle", 45.67),
        ("entry_diameter", 12.0),
        ("end_diameter", narrow),
    ] {
        assert!((of(key) - wanted).abs() < 1e-3, "{key} {}", of(key));
    }
}

/// The same in inches with three places: the measures are right to a few steps of 0.0254 mm.
#[test]
fn cones_in_rounded_numbers() {
    let (facets, narrow) = sunk();
    let shape = Shape::read(&board::ascii(&facets, 25.4, 3), Unit::Inch).unwrap();
    let report = recognise(&shape, &Options::default()).unwrap();
    assert!(report.is_certain(), "{report:#?}");
    let rows = &report.parts[0].rows;
    let cones: Vec<Cone> = rows.iter().filter_map(|row| row.cone_measures()).collect();
    for (cone, wanted) in cones.iter().zip([[12.0, narrow, 45.67], [10.0, 5.0, 90.0]]) {
        assert!((cone.entry_diameter - wanted[0]).abs() < 0.05, "{cone:?}");
        assert!((cone.end_diameter - wanted[1]).abs() < 0.05, "{cone:?}");
        assert!((cone.angle - wanted[2]).abs() < 0.5, "{cone:?}");
    }
    assert_eq!(cones.len(), 2);
}

/// Bores of 8, 10, 15 and 20 with a tip of 118 degrees whose triangles have a ring of corners halfway to the point, between
/// those of the rim: the mesh's volume lies between that of the sides and that of the cone.
#[test]
fn tips_by_the_deflection_of_the_mesh() {
    let sides = 18;
    for wide in [8.0, 10.0, 15.0, 20.0] {
        let middle = [300.0, 200.0];
        let tip = wide / 2.0 / 59.0_f64.to_radians().tan();
        let mut cut = Cut::new(Side::Top, circle(middle, wide, sides), middle, 10.0);
        cut.tip = Some(10.0 + tip);
        let facets = made(BOARD, &[cut]);
        let point = [middle[0], middle[1], 18.0 - (10.0 + tip)];
        let mut solid = Solid::default();
        let is_wall = |facet: &Corners| !facet.contains(&point);
        solid.facets = facets.into_iter().filter(is_wall).collect();
        // the rim's corners stand at quarter steps, and those of the ring half a step further
        let around = |radius: f64, share: f64, z: f64| -> Vec<Point> {
            let corner = |n: usize| {
                let turn = std::f64::consts::TAU * (n as f64 + share) / sides as f64;
                let (sine, cosine) = turn.sin_cos();
                [middle[0] + radius * cosine, middle[1] + radius * sine, z]
            };
            (0..sides).map(corner).collect()
        };
        let rim = around(wide / 2.0, 0.25, 8.0);
        let ring = around(wide / 4.0, 0.75, 8.0 - tip / 2.0);
        for n in 0..sides {
            let m = (n + 1) % sides;
            solid.facets.push([rim[n], rim[m], ring[n]]);
            solid.facets.push([ring[n], rim[m], ring[m]]);
            solid.facets.push([ring[n], ring[m], point]);
        }
        let part = hold(&solid.facets, &[bore(BOARD, Side::Top, middle, wide, 10.0)]);
        let End::Tip { angle, depth } = part.rows[0].end else {
            panic!("{:?}", part.rows)
        };
        assert!((angle - 118.0).abs() < 0.05, "{angle}");
        assert!((depth - 10.0 - tip).abs() < 0.01, "{depth}");
    }
}
