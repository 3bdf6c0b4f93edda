//! Files whose numbers are rounded: to places after the point in millimetres, inches, centimetres and metres, and to digits.
//! What is expected is written from the drawing; it is met to within the step of the file's numbers.
mod board;
mod known;

use board::{
    ascii, board as made, circle, mapped, rectangle, rounded, turned, Chance, Cut, Place, Point,
    Side, THROUGH,
};
use known::{bore, hold_report, known, Known, Pose};
use probe_part::model::{Doubt, Kind, Outline, Report, Unit};
use probe_part::recognise::{recognise, Options};
use probe_part::shape::Shape;
use probe_rays::stl::Corners;

const BOARD: Point = [600.0, 400.0, 18.0];

/// The units with the places that programs write, and the step in millimetres.
const FILES: [(Unit, usize); 6] = [
    (Unit::Millimetre, 2),
    (Unit::Millimetre, 3),
    (Unit::Centimetre, 3),
    (Unit::Inch, 3),
    (Unit::Inch, 5),
    (Unit::Metre, 5),
];

fn step(unit: Unit, places: usize) -> f64 {
    unit.millimetres() / 10.0_f64.powi(places as i32)
}

fn report(facets: &[Corners], unit: Unit, places: usize) -> Report {
    let shape = Shape::read(&ascii(facets, unit.millimetres(), places), unit).unwrap();
    let options = Options {
        unit,
        ..Options::default()
    };
    recognise(&shape, &options).unwrap()
}

fn pocket(word: &'static str, sizes: &[f64], middle: Place, depth: f64) -> Known {
    let centre = Side::Top.at(BOARD, middle, 0.0);
    known(Kind::Pocket, word, sizes, Side::Top, centre, 0.0, depth)
}

/// A board of seeded bores of 2 to 40 mm, in all faces, of some numbers of sides; and a pocket of each outline.
fn board_of_chance(chance: &mut Chance) -> (Vec<Corners>, Vec<Known>) {
    let (mut cuts, mut all) = (Vec::new(), Vec::new());
    for column in 0..9 {
        for line in 0..4 {
            let (wide, deep) = (chance.between(2.0, 40.0), chance.between(3.0, 16.0));
            let sides = [18, 24, 32, 48, 64][chance.below(5) as usize];
            let middle = [
                60.0 * f64::from(column) + 60.0 + chance.between(-7.0, 7.0),
                60.0 * f64::from(line) + 50.0 + chance.between(-7.0, 7.0),
            ];
            let depth = if chance.below(5) == 0 { THROUGH } else { deep };
            cuts.push(Cut::new(
                Side::Top,
                circle(middle, wide, sides),
                middle,
                depth,
            ));
            all.push(bore(BOARD, Side::Top, middle, wide, depth));
        }
    }
    for (side, at) in [
        (Side::Left, 320.0),
        (Side::Right, 340.0),
        (Side::Front, 45.0),
        (Side::Back, 570.0),
    ] {
        let (middle, wide) = ([at, 9.0], chance.between(4.0, 10.0));
        cuts.push(Cut::bore(side, middle, wide, 28.0));
        all.push(bore(BOARD, side, middle, wide, 28.0));
    }
    let middle = [300.0, 350.0];
    cuts.push(Cut::new(
        Side::Top,
        rectangle(middle, [61.3, 22.7]),
        middle,
        6.5,
    ));
    all.push(pocket("rectangle", &[61.3, 22.7], middle, 6.5));
    let middle = [400.0, 350.0];
    let outline = rounded(middle, [81.7, 40.3], 7.9, 8);
    cuts.push(Cut::new(Side::Top, outline, middle, 5.0));
    all.push(pocket("rounded", &[81.7, 40.3, 7.9], middle, 5.0));
    let middle = [180.0, 350.0];
    let outline = turned(&rounded(middle, [90.1, 21.3], 10.65, 9), middle, 21.0);
    cuts.push(Cut::new(Side::Top, outline, middle, 7.0));
    all.push(pocket("slot", &[90.1, 21.3], middle, 7.0));
    (made(BOARD, &cuts), all)
}

/// Each bore and pocket has the measures of the drawing, whatever the file's unit and places are.
#[test]
fn boards_in_rounded_numbers() {
    for (unit, places) in FILES {
        let mut chance = Chance(places as u64);
        for _ in 0..4 {
            let (facets, all) = board_of_chance(&mut chance);
            let found = report(&facets, unit, places);
            hold_report(found, &all, &Pose::STILL, 0.004 + step(unit, places));
        }
    }
}

/// The same of numbers with six digits: those above 1,000 have two places.
#[test]
fn boards_in_six_digits() {
    let (facets, all) = board_of_chance(&mut Chance(6));
    let six = |part: f64| {
        let magnitude = part.abs().max(1e-9).log10().floor() as i32;
        let unit = 10.0_f64.powi(5 - magnitude);
        (part * unit).round() / unit
    };
    let far = [1800.0, 900.0, 0.0];
    let moved = |point: Point| std::array::from_fn(|axis| six(point[axis] + far[axis]));
    let shape = Shape::of(&mapped(&facets, moved, false)).unwrap();
    let found = recognise(&shape, &Options::default()).unwrap();
    let pose = Pose {
        origin: far,
        ..Pose::STILL
    };
    hold_report(found, &all, &pose, 0.014);
}

/// Boards that lie aslant in the file, so that no coordinate is one of the drawing, in hundredths of a millimetre: floors whose
/// triangles are thinner than that may be a doubt, and a list without one is right.
#[test]
fn boards_aslant_in_rounded_numbers() {
    let mut certain = 0;
    for seed in 0..12 {
        let mut chance = Chance(seed);
        let (facets, all) = board_of_chance(&mut chance);
        let pose = Pose::of_chance(&mut chance, seed % 2 == 0);
        let facets = mapped(&facets, |point| pose.place(point), pose.mirrors);
        let found = report(&facets, Unit::Millimetre, 2);
        if found.is_certain() {
            certain += 1;
            hold_report(found, &all, &pose, 0.03);
        }
    }
    assert!(certain >= 6, "{certain} of 12 are certain");
}

/// Coordinates in tenths of a millimetre say too little: a bore's outline is nearly a circle, which is a doubt.
#[test]
fn an_outline_that_is_nearly_a_circle_is_a_doubt() {
    let middle = [300.0, 200.0];
    let cut = Cut::new(Side::Top, circle(middle, 35.0, 32), middle, 13.0);
    let found = report(&made(BOARD, &[cut]), Unit::Millimetre, 1);
    let [Doubt::Nearly(0, Outline::Circle { diameter, .. })] = found.parts[0].doubts[..] else {
        panic!("{found:#?}")
    };
    assert!((diameter - 35.0).abs() < 0.1, "{diameter}");
}

/// Outlines that are off by a tenth of a millimetre: a circle, a slot and a rectangle; and a pocket that is none of these.
#[test]
fn outlines_that_are_nearly_others_are_doubts() {
    let middle = [300.0, 200.0];
    let found = |outline: Vec<Place>| {
        let cut = Cut::new(Side::Top, outline, middle, 6.0);
        let facets = made(BOARD, &[cut]);
        let shape = Shape::of(&board::single(&facets)).unwrap();
        let report = recognise(&shape, &Options::default()).unwrap();
        report.parts[0].doubts.clone()
    };
    let dented = |mut outline: Vec<Place>, place: usize| {
        outline[place][0] += 0.07;
        outline[place][1] += 0.07;
        outline
    };
    assert!(matches!(
        found(dented(circle(middle, 35.0, 40), 7))[..],
        [Doubt::Nearly(0, Outline::Circle { .. })]
    ));
    assert!(matches!(
        found(dented(rounded(middle, [60.0, 20.0], 10.0, 8), 3))[..],
        [Doubt::Nearly(0, Outline::Slot { .. })]
    ));
    assert!(matches!(
        found(dented(rounded(middle, [60.0, 40.0], 8.0, 8), 3))[..],
        [Doubt::Nearly(0, Outline::Rounded { .. })]
    ));
    assert!(matches!(
        found(dented(rectangle(middle, [60.0, 40.0]), 0))[..],
        [Doubt::Nearly(0, Outline::Rectangle { .. })]
    ));
    // a hexagon, and a rectangle with corners that are cut by 5 mm
    assert_eq!(found(circle(middle, 35.0, 6)), []);
    assert_eq!(found(rounded(middle, [60.0, 40.0], 5.0, 1)), []);
}
