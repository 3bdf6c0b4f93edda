//! The answers that document 02 changes.

use oracle::{
    answer::{Answer, Ray},
    generate, plain,
    record::{Record, Shape},
    telling,
};

fn by_now(record: &Record) -> (Answer, Option<&'static str>) {
    plain::beside_the_rust(|| plain::answer(record))
}

/// K8's triangle, its second corner at `wide`.
fn thin(wide: f64) -> Record {
    Record {
        version: 1,
        ray: Ray {
            origin: [5e159, 5e159, 1.0],
            direction: [0.0, 0.0, -1.0],
            maximum: 10.0,
            near: 0.0,
        },
        shape: Shape::Triangle {
            corners: [[0.0; 3], [wide, wide, 0.0], [0.0, 1e-7, 0.0]],
        },
    }
}

#[test]
fn k8_is_6() {
    let record = thin(1e160);
    assert!(matches!(record.answer(), Answer::Hit { distance, .. } if distance.is_nan()));
    assert_eq!(by_now(&record), (Answer::Refused(6), Some(plain::NAN)));
}

/// Both orders of a hit and a NaN behind it: the Rust hits, and 6 is the answer.
#[test]
fn nan_behind_a_hit_is_6() {
    let marked = generate::marked();
    let meshes = &marked[marked.len() - 2..];
    for record in meshes {
        assert!(matches!(record.answer(), Answer::Hit { .. }), "{record:?}");
        assert_eq!(by_now(record), (Answer::Refused(6), Some(plain::NAN)));
    }
}

/// The generator finds meshes in which a NaN and a number meet on one ray: the Rust's
/// answer is a hit at a number, and 6 is ours.
#[test]
fn generation_finds_nan_beside_hits() {
    let numbers = (0..20_000u64).filter(|number| number % 61 == 17);
    let beside = numbers
        .map(|number| generate::record(1, number, &[3]))
        .filter(|record| {
            matches!(record.answer(), Answer::Hit { distance, .. } if distance.is_finite())
                && by_now(record) == (Answer::Refused(6), Some(plain::NAN))
        });
    assert!(beside.count() > 20);
}

/// M-104: K7 is a hit once its cross is scaled, and only the Rust refuses it.
#[test]
fn k7_is_left_out() {
    let k7 = &generate::marked()[6];
    assert_eq!(k7.answer(), Answer::Refused(7));
    assert_eq!(k7.left_out(), Some(plain::SCALED));
}

/// A 2x2x2 grid of zeros has the gradient 0 everywhere.
fn zeros() -> Record {
    Record {
        version: 1,
        ray: Ray {
            origin: [0.5, 0.5, 2.0],
            direction: [0.0, 0.0, -1.0],
            maximum: 5.0,
            near: 0.0,
        },
        shape: Shape::LevelSet {
            sides: [2; 3],
            origin: [0.0; 3],
            spacing: [1.0; 3],
            values: vec![0.0; 8],
        },
    }
}

/// The 8 of a zero gradient and of a walk past its last cell did not change: both sides refuse, and are compared.
#[test]
fn an_old_8_is_compared() {
    let past_the_last_cell = telling::records().pop().expect("a slanted walk");
    for record in [zeros(), past_the_last_cell] {
        assert_eq!(record.answer(), Answer::Refused(8), "{record:?}");
        assert_eq!(by_now(&record), (Answer::Refused(8), None), "{record:?}");
        assert_eq!(record.left_out(), None);
    }
}

/// Of what the Rust refuses with 7 or 8 only that is left out in which a vector is scaled; the rest is refused here too.
#[test]
fn a_7_or_8_is_left_out_only_where_a_vector_is_scaled() {
    let (mut compared, mut scaled) = ([0; 2], [0; 2]);
    for number in 0..20_000 {
        let record = generate::record(5, number, &[2, 3, 4, 5]);
        let Answer::Refused(refusal @ 7..=8) = record.answer() else {
            continue;
        };
        let place = refusal as usize - 7;
        match by_now(&record) {
            (answer, None) => {
                assert_eq!(answer, Answer::Refused(refusal), "{record:?}");
                compared[place] += 1;
            }
            (_, Some(reason)) => scaled[place] += usize::from(reason == plain::SCALED),
        }
    }
    let met = compared.iter().chain(&scaled).all(|count| *count > 0);
    assert!(met, "{compared:?} {scaled:?}");
}
