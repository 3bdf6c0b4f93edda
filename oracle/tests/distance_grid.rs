//! The plain model of the distance grid after M-103: where the Rust does not refuse with 5 it is the Rust's answer, and on
//! small inputs the answer is known by hand.

use oracle::{
    answer::{Answer, Ray},
    generate, plain,
    record::{Record, Shape},
};

fn record(ray: Ray, sides: [u32; 3], origin: f64, spacing: [f64; 3], values: Vec<f64>) -> Record {
    let origin = [0.0, 0.0, origin];
    let shape = Shape::LevelSet {
        sides,
        origin,
        spacing,
        values,
    };
    Record {
        version: 1,
        ray,
        shape,
    }
}

/// Straight down, or up where `down` is -1.
fn vertical(origin: [f64; 3], down: f64, maximum: f64) -> Ray {
    Ray {
        origin,
        direction: [0.0, 0.0, -down],
        maximum,
        near: 0.0,
    }
}

/// Values layer - 0.5 over a square of four nodes.
fn layers(count: u32) -> Vec<f64> {
    (0..4 * count).map(|k| f64::from(k / 4) - 0.5).collect()
}

#[test]
fn the_model_is_the_rust_where_it_does_not_refuse_with_5() {
    let (mut compared, mut fives) = (0, 0);
    for number in 0..20_000 {
        let record = generate::record(7, number, &[5]);
        let Shape::LevelSet {
            sides,
            origin,
            spacing,
            ..
        } = &record.shape
        else {
            unreachable!("only distance grids were asked for")
        };
        let (model, rust) = (plain::answer(&record), record.answer());
        if record.left_out().is_none() {
            let lines = [model, rust].map(|answer| oracle::record::line(1, &answer));
            assert!(
                oracle::agree::lines_agree(&lines[0], &lines[1]),
                "{lines:?}"
            );
            compared += 1;
            continue;
        }
        // a 5 that stays is the box's own
        let last = |k: usize| origin[k] + spacing[k] * f64::from(sides[k] - 1);
        let box_valid = (0..3).all(|k| last(k).is_finite());
        assert_eq!(model == Answer::Refused(5), !box_valid, "{record:?}");
        fives += 1;
    }
    assert!(compared > 15_000 && fives > 200);
}

#[test]
fn a_ray_along_the_face_is_hit() {
    // Leaning out of the face x = 0 by the least that a float can.
    let mut ray = vertical([0.0, 0.5, 2.0], 1.0, 5.0);
    ray.direction[0] = -5e-324;
    let record = record(ray, [2; 3], 0.0, [1.0; 3], layers(2));
    assert_eq!(record.answer(), Answer::Refused(5));
    let hit = Answer::Hit {
        normal: [0.0, 0.0, 1.0],
        distance: 1.5,
        index: None,
    };
    assert_eq!(plain::answer(&record), hit);
}

#[test]
fn the_ordinary_ray_that_the_rust_refuses_is_a_hit() {
    let ray = vertical([0.5, 0.5, 3.0], 1.0, 6.0);
    let record = record(ray, [2, 2, 3], 0.0, [1.0, 1.0, 0.1], layers(3));
    assert_eq!(record.answer(), Answer::Refused(5));
    let model = plain::answer(&record);
    let Answer::Hit {
        normal, distance, ..
    } = model
    else {
        panic!("{model:?}");
    };
    assert_eq!(normal, [0.0, 0.0, 1.0]);
    assert!((distance - 2.95).abs() < 1e-14);
}
