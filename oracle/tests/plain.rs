//! The plain model of the five casts agrees with the unchanged Rust, wherever the Rust decides.

use oracle::{answer::Answer, generate, plain, record};

#[test]
fn the_plain_model_answers_as_the_rust() {
    for number in 0..20_000 {
        let given = generate::record(3, number, &[1, 2, 3, 4, 5]);
        if given.left_out().is_some() {
            continue;
        }
        let lines =
            [plain::answer(&given), given.answer()].map(|answer| record::line(number, &answer));
        assert!(
            oracle::agree::lines_agree(&lines[0], &lines[1]),
            "{lines:?}"
        );
    }
}

/// The sign of a zero is printed, and it tells two answers apart where the Rust's comparer does not.
#[test]
fn a_zero_is_printed_with_its_sign() {
    let at = |distance| Answer::Hit {
        normal: [0.0, -0.0, 1.0],
        distance,
        index: None,
    };
    let plus = record::line(1, &at(0.0));
    let minus = record::line(1, &at(-0.0));
    assert_eq!(
        minus,
        "1 hit 0000000000000000 8000000000000000 3ff0000000000000 8000000000000000"
    );
    assert_ne!(plus, minus);
    assert!(oracle::agree::lines_agree(&plus, &minus));
}

/// M-104: K7's normal is found once it is scaled, and the Rust alone refuses it.
#[test]
fn a_large_triangle_has_a_normal() {
    let k7 = &generate::marked()[6];
    assert_eq!(k7.answer(), Answer::Refused(7));
    let normal = [0.0, 0.0, 1.0];
    let hit = Answer::Hit {
        normal,
        distance: 1.0,
        index: None,
    };
    assert_eq!(plain::answer(k7), hit);
}
