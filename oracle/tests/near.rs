//! Rays with a near distance (document 02, M-106): no hit lies below near, and the plain model answers as the Rust where the
//! Rust decides.

use oracle::{
    answer::Answer,
    generate, plain,
    random::Random,
    record::{self, Shape},
};

#[test]
fn no_hit_lies_below_near() {
    let mut hits = [0; 6];
    for number in 0..30_000 {
        let mut given = generate::record(11, number, &[1, 2, 3, 4, 5]);
        generate::give_near(&mut Random::of_record(12, number), &mut given);
        let answer = plain::answer(&given);
        if let Answer::Hit { distance, .. } = answer {
            hits[given.shape.kind() as usize] += i32::from(given.ray.near > 0.0);
            assert!(distance >= given.ray.near, "{given:?} at {distance}");
        }
        if given.left_out().is_none() && !matches!(given.shape, Shape::LevelSet { .. }) {
            let lines = [answer, given.answer()].map(|answer| record::line(number, &answer));
            assert!(
                oracle::agree::lines_agree(&lines[0], &lines[1]),
                "{given:?}: {lines:?}"
            );
        }
    }
    assert!(hits[1..].iter().all(|count| *count > 100), "{hits:?}");
}
