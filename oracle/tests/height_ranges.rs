//! The model of M-109 against every grid of a few heights, and on inputs known by hand.

use oracle::{
    answer::Ray,
    height_ranges::{Clearance, Ranges, by_trying, cast},
    random::Random,
};

const HEIGHTS: [f64; 4] = [-1.0, 0.0, 1.0, 2.0];

fn down(x: f64, y: f64, from: f64, to: f64) -> Ray {
    Ray {
        origin: [x, y, from],
        direction: [0.0, 0.0, if to < from { -1.0 } else { 1.0 }],
        maximum: (from - to).abs(),
        near: 0.0,
    }
}

fn two_by_three(lows: [f64; 6], highs: [f64; 6]) -> Ranges {
    Ranges {
        rows: 2,
        columns: 3,
        spacing: [1.0, 1.0],
        lows: lows.to_vec(),
        highs: highs.to_vec(),
    }
}

#[test]
fn the_model_is_what_trying_every_grid_gives() {
    let random = &mut Random::of_record(109, 0);
    let (mut clear, mut possible) = (0, 0);
    for _ in 0..400 {
        let range = |random: &mut Random| {
            let (a, b) = (random.pick(&HEIGHTS), random.pick(&HEIGHTS));
            (a.min(b), a.max(b))
        };
        let ranges = [0; 6].map(|_| range(random));
        let grid = two_by_three(ranges.map(|r| r.0), ranges.map(|r| r.1));
        let x = random.pick(&[-0.5, 0.0, 0.25, 1.0, 1.5, 2.0, 2.5]);
        let y = random.pick(&[0.0, 0.5, 1.0, 1.5]);
        let ray = down(x, y, random.pick(&HEIGHTS), random.pick(&HEIGHTS));
        let model = cast(&ray, &grid);
        assert_eq!(model, by_trying(&ray, &grid, &HEIGHTS), "{ray:?} {grid:?}");
        match model {
            Clearance::Clear => clear += 1,
            Clearance::Possible(_) => possible += 1,
            Clearance::Refused(number) => panic!("refused {number}"),
        }
    }
    assert!(clear > 50 && possible > 50);
}

#[test]
fn a_segment_strictly_inside_a_range_is_possible() {
    let grid = two_by_three([0.0; 6], [2.0; 6]);
    assert_eq!(
        cast(&down(0.25, 0.25, 1.0, 0.75), &grid),
        Clearance::Possible(0)
    );
}

#[test]
fn only_ranges_of_visited_cells_are_looked_at() {
    let mut grid = two_by_three([0.0; 6], [0.25; 6]);
    grid.lows[5] = f64::NAN;
    let cast = |x: f64| cast(&down(x, 0.25, 1.0, 0.75), &grid);
    assert_eq!(cast(0.25), Clearance::Clear);
    assert_eq!(cast(1.0), Clearance::Refused(9));
    assert_eq!(cast(-1.0), Clearance::Clear);
}

#[test]
fn equal_ends_are_in_order_zero_to_minus_zero_too() {
    let grid = two_by_three([0.0; 6], [-0.0; 6]);
    assert_eq!(cast(&down(1.0, 0.25, 1.0, 0.75), &grid), Clearance::Clear);
}

#[test]
fn near_is_tested_and_changes_nothing_else() {
    let grid = two_by_three([0.0; 6], [2.0; 6]);
    let ray = down(0.25, 0.25, 1.0, 0.75);
    let at = |near: f64| cast(&Ray { near, ..ray }, &grid);
    assert_eq!(at(0.25), Clearance::Possible(0));
    for near in [0.5, -1.0, f64::NAN, f64::INFINITY] {
        assert_eq!(at(near), Clearance::Refused(1));
    }
}
