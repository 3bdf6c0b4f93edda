//! Slots, rectangles with round corners and arcs, by the arcs of their ends: corners that lie at no extreme, few of them, in
//! any direction. Measures are the drawing's, to 0.01 mm.
mod board;
mod known;

use board::{arc, board as made, rounded, slot, turned, Chance, Cut, Place, Point, Side, THROUGH};
use known::{hold, hold_posed, known, Known, Pose};
use probe_part::model::{Kind, Outline};

const BOARD: Point = [600.0, 400.0, 18.0];

fn pocket(word: &'static str, sizes: &[f64], middle: Place, depth: f64) -> Known {
    let centre = Side::Top.at(BOARD, middle, 0.0);
    Known {
        through: depth.is_infinite(),
        ..known(
            Kind::Pocket,
            word,
            sizes,
            Side::Top,
            centre,
            0.0,
            depth.min(BOARD[2]),
        )
    }
}

/// 180 slots of 10 to 100 by 4 to 25, with ends of 3 to 17 sides, turned by anything.
#[test]
fn slots_whose_ends_have_any_sides() {
    let mut chance = Chance(2);
    for number in 0..15 {
        let (mut cuts, mut all) = (Vec::new(), Vec::new());
        for place in 0..12 {
            let middle = [
                75.0 + 150.0 * f64::from(place % 4),
                65.0 + 130.0 * f64::from(place / 4),
            ];
            let wide = chance.between(4.0, 25.0);
            let long = wide + chance.between(1.0, 75.0);
            let sides = 3 + chance.below(15) as usize;
            let degrees = match chance.below(3) {
                0 => 0.0,
                1 => 90.0,
                _ => chance.between(0.0, 180.0),
            };
            let outline = turned(&slot(middle, [long, wide], sides), middle, degrees);
            let depth = if chance.below(4) == 0 { THROUGH } else { 7.5 };
            cuts.push(Cut::new(Side::Top, outline, middle, depth));
            all.push(pocket("slot", &[long, wide], middle, depth));
        }
        let facets = made(BOARD, &cuts);
        hold(&facets, &all);
        let pose = Pose::of_chance(&mut chance, number % 2 == 0);
        hold_posed(&facets, &all, &pose);
    }
}

/// The two of the order: 100 by 25, whose ends' corners are 0.025 mm off the extremes, and 50 by 20 with ends of three sides;
/// 0 degrees stays 0, and a slot of another direction has its own.
#[test]
fn the_ends_are_fitted_and_not_the_box() {
    for (size, sides) in [([100.0, 25.0], 35), ([50.0, 20.0], 3)] {
        let middle = [300.0, 200.0];
        for degrees in [0.0, 33.0] {
            let outline = turned(&slot(middle, size, sides), middle, degrees);
            let facets = made(BOARD, &[Cut::new(Side::Top, outline, middle, 6.0)]);
            let part = hold(&facets, &[pocket("slot", &size, middle, 6.0)]);
            let Outline::Slot { size: found, angle } = part.rows[0].outline else {
                panic!("{:?}", part.rows)
            };
            assert!((found[0] - size[0]).abs() < 1e-3, "{found:?}");
            assert!((angle - degrees).abs() < 1e-3, "{angle}");
        }
    }
}

/// Rectangles with round corners, square ones too, and arcs, turned by anything.
#[test]
fn round_corners_and_arcs_in_any_direction() {
    let mut chance = Chance(9);
    for _ in 0..12 {
        let (mut cuts, mut all) = (Vec::new(), Vec::new());
        for place in 0..6 {
            let middle = [
                100.0 + 200.0 * f64::from(place % 3),
                100.0 + 200.0 * f64::from(place / 3),
            ];
            let short = chance.between(15.0, 60.0);
            let long = if place == 0 {
                short
            } else {
                short + chance.between(0.0, 60.0)
            };
            let radius = chance.between(1.0, short / 2.2);
            let sides = 2 + chance.below(8) as usize;
            let outline = rounded(middle, [long, short], radius, sides);
            let outline = turned(&outline, middle, chance.between(0.0, 180.0));
            cuts.push(Cut::new(Side::Top, outline, middle, 5.0));
            all.push(pocket("rounded", &[long, short, radius], middle, 5.0));
        }
        hold(&made(BOARD, &cuts), &all);
    }
    for _ in 0..12 {
        let (radius, wide) = (chance.between(40.0, 120.0), chance.between(4.0, 12.0));
        let (from, sweep) = (chance.between(0.0, 360.0), chance.between(20.0, 120.0));
        // 41 sides along, and 41 around either end: no corner lies at the end
        let outline = arc([300.0, 200.0], radius, wide, [from, from + sweep], 41);
        let cut = Cut::new(Side::Top, outline.clone(), [300.0, 200.0], 6.0);
        let side = |axis: usize| outline.iter().map(move |corner| corner[axis]);
        let middle = [0, 1].map(|axis| {
            let (low, high) = (
                side(axis).fold(f64::INFINITY, f64::min),
                side(axis).fold(f64::NEG_INFINITY, f64::max),
            );
            (low + high) / 2.0
        });
        let row = pocket("arc", &[wide, radius, sweep], middle, 6.0);
        hold(&made(BOARD, &[cut]), &[row]);
    }
}
