//! What is recognised in boards that are known by construction (tests/board), lying still, turned and mirrored.
mod board;
mod known;

use board::{
    arc, board as made, circle, ellipse, extruded, finer, mapped, rectangle, rounded, turned,
    Chance, Cut, Place, Point, Side, RABBET_AND_GROOVE, THROUGH,
};
use known::{bore, explains, hold, hold_anywhere, hold_posed, known, report, Known, Pose};
use probe_part::model::{Check, End, Kind, Outline};
use probe_part::recognise::{recognise, Options};
use probe_part::shape::Shape;
use probe_rays::stl::Corners;

const BOARD: Point = [600.0, 400.0, 18.0];

/// A pocket in a face of [`BOARD`].
fn pocket(side: Side, word: &'static str, sizes: &[f64], middle: Place, depth: f64) -> Known {
    known(
        Kind::Pocket,
        word,
        sizes,
        side,
        side.at(BOARD, middle, 0.0),
        0.0,
        depth,
    )
}

/// A door with hinge cups, pin rows, dowels, bores right through, pockets, a stepped bore and a slot.
fn door() -> (Vec<Corners>, Vec<Known>) {
    let mut cuts = Vec::new();
    let mut all = Vec::new();
    let mut drill = |side: Side, middle: Place, diameter: f64, depth: f64| {
        cuts.push(Cut::bore(side, middle, diameter, depth));
        all.push(bore(BOARD, side, middle, diameter, depth));
    };
    for y in [100.0, 300.0] {
        drill(Side::Top, [22.5, y], 35.0, 13.0);
    }
    for row in [69.0, 531.0] {
        for pin in 0..9 {
            drill(Side::Top, [row, 72.0 + 32.0 * f64::from(pin)], 5.0, 12.0);
        }
    }
    for y in [50.0, 200.0, 350.0] {
        drill(Side::Left, [y, 9.0], 8.0, 30.0);
        drill(Side::Right, [y, 9.0], 8.0, 25.5);
    }
    drill(Side::Front, [450.0, 9.0], 7.0, 28.0);
    drill(Side::Back, [150.25, 9.0], 7.0, 28.0);
    drill(Side::Top, [300.0, 340.0], 60.0, THROUGH);
    drill(Side::Bottom, [120.0, 40.0], 15.0, 12.7);
    cuts.push(Cut::new(
        Side::Top,
        rounded([300.0, 200.0], [120.0, 60.0], 8.0, 8),
        [300.0, 200.0],
        6.0,
    ));
    all.push(pocket(
        Side::Top,
        "rounded",
        &[120.0, 60.0, 8.0],
        [300.0, 200.0],
        6.0,
    ));
    cuts.push(Cut::new(
        Side::Bottom,
        rectangle([250.5, 120.0], [41.0, 20.5]),
        [250.5, 120.0],
        4.25,
    ));
    all.push(pocket(
        Side::Bottom,
        "rectangle",
        &[41.0, 20.5],
        [250.5, 120.0],
        4.25,
    ));
    cuts.push(Cut::new(
        Side::Top,
        rounded([420.0, 260.0], [12.0, 48.0], 6.0, 12),
        [420.0, 260.0],
        THROUGH,
    ));
    all.push(Known {
        through: true,
        ..pocket(Side::Top, "slot", &[12.0, 48.0], [420.0, 260.0], 18.0)
    });
    cuts.push(Cut::bore(Side::Top, [200.0, 60.0], 20.0, 5.0).with_inner(8.0, THROUGH));
    all.push(bore(BOARD, Side::Top, [200.0, 60.0], 20.0, 5.0));
    all.push(Known {
        through: true,
        ..known(
            Kind::Bore,
            "circle",
            &[8.0],
            Side::Top,
            [200.0, 60.0, 13.0],
            5.0,
            13.0,
        )
    });
    (made(BOARD, &cuts), all)
}

#[test]
fn a_door_with_everything() {
    let (facets, all) = door();
    let part = hold(&facets, &all);
    let stepped = part.rows.iter().find(|row| row.entry_depth > 1.0).unwrap();
    let wide = &part.rows[stepped.within.unwrap()];
    assert!(
        matches!(wide.outline, Outline::Circle { diameter, .. } if (diameter - 20.0).abs() < 0.01)
    );
    assert_eq!(wide.feature, stepped.feature);
    let names: Vec<&str> = part.faces.iter().map(|face| face.name.as_str()).collect();
    assert_eq!(names, ["top", "bottom", "front", "back", "left", "right"]);
}

#[test]
fn the_door_turned_and_mirrored() {
    let (facets, all) = door();
    hold_anywhere(&facets, &all, 7);
}

/// In which pieces it is cast at makes no difference, nor do triangles inside out.
#[test]
fn the_door_in_pieces_and_inside_out() {
    let (facets, all) = door();
    let shape = Shape::in_pieces(&facets, 200).unwrap();
    assert!(shape.pieces() > 5);
    let report = recognise(&shape, &Options::default()).unwrap();
    assert!(report.is_certain() && report.parts[0].rows.len() == all.len());
    let inside_out = mapped(&facets, |point| point, true);
    hold(&inside_out, &all);
}

/// Of more triangles than one mesh may have, with corners between those of the curves.
#[test]
fn the_door_of_many_triangles() {
    let (facets, all) = door();
    let fine = finer(&facets, 3);
    assert!(Shape::of(&fine).unwrap().pieces() > 1);
    hold(&fine, &all);
    hold_posed(&fine, &all, &Pose::of_chance(&mut Chance(5), false));
}

/// Boards of seeded bores, pockets, slots and rings: each square of 60 mm has one at most.
#[test]
fn boards_of_chance() {
    let mut chance = Chance(1);
    let mut rows = 0;
    for number in 0..12 {
        let size = [420.0, 300.0, 19.0];
        let (mut cuts, mut all) = (Vec::new(), Vec::new());
        for column in 0..7 {
            for line in 0..5 {
                let wide = chance.between(2.0, 40.0);
                let free = 30.0 - wide / 2.0 - 1.0;
                let middle = [
                    30.0 + 60.0 * f64::from(column) + chance.between(-free, free),
                    30.0 + 60.0 * f64::from(line) + chance.between(-free, free),
                ];
                let side = if chance.below(3) == 0 {
                    Side::Bottom
                } else {
                    Side::Top
                };
                let depth = if chance.below(4) == 0 {
                    THROUGH
                } else {
                    chance.between(0.5, 18.5)
                };
                some(
                    &mut chance,
                    size,
                    side,
                    middle,
                    wide,
                    depth,
                    &mut cuts,
                    &mut all,
                );
            }
        }
        for side in [Side::Front, Side::Back] {
            let middle = [chance.between(20.0, 400.0), chance.between(6.0, 13.0)];
            let (diameter, depth) = (chance.between(2.0, 10.0), chance.between(1.0, 1.4));
            cuts.push(Cut::bore(side, middle, diameter, depth * 0.5));
            all.push(bore(size, side, middle, diameter, depth * 0.5));
        }
        rows += all.len();
        let facets = made(size, &cuts);
        let pose = if number % 3 == 0 {
            Pose::STILL
        } else {
            Pose::of_chance(&mut chance, number % 2 == 0)
        };
        hold_posed(&facets, &all, &pose);
    }
    assert!(rows > 200, "{rows}");
}

/// A bore, a rectangle, a rounded one, a slot or a ring, at most so wide.
#[allow(clippy::too_many_arguments)]
fn some(
    chance: &mut Chance,
    size: Point,
    side: Side,
    middle: Place,
    wide: f64,
    depth: f64,
    cuts: &mut Vec<Cut>,
    all: &mut Vec<Known>,
) {
    let through = depth.is_infinite();
    let deep = depth.min(size[2]);
    let at = side.at(size, middle, 0.0);
    let sides = 7 + chance.below(60) as usize;
    let low = wide * chance.between(0.3, 0.6);
    let long = (wide * wide - low * low).sqrt() * 0.9;
    let degrees = chance.between(5.0, 85.0);
    let row = |word: &'static str, sizes: &[f64]| Known {
        through,
        ..known(Kind::Pocket, word, sizes, side, at, 0.0, deep)
    };
    match chance.below(6) {
        0 => {
            let outline = turned(&rectangle(middle, [long, low]), middle, degrees);
            cuts.push(Cut::new(side, outline, middle, depth));
            all.push(row("rectangle", &[long, low]));
        }
        1 => {
            let outline = turned(&rounded(middle, [long, low], low / 4.0, 6), middle, degrees);
            cuts.push(Cut::new(side, outline, middle, depth));
            all.push(row("rounded", &[long, low, low / 4.0]));
        }
        2 => {
            let outline = turned(
                &rounded(middle, [long, low / 2.0], low / 4.0, 8),
                middle,
                degrees,
            );
            cuts.push(Cut::new(side, outline, middle, depth));
            all.push(row("slot", &[long, low / 2.0]));
        }
        3 if !through => {
            let mut cut = Cut::new(side, circle(middle, wide, 40), middle, depth);
            cut.islands.push((circle(middle, wide / 2.0, 24), 0.0));
            cuts.push(cut);
            all.push(Known {
                kind: Kind::Groove,
                ..row("ring", &[wide, wide / 2.0])
            });
        }
        _ => {
            cuts.push(Cut::new(side, circle(middle, wide, sides), middle, depth));
            all.push(bore(size, side, middle, wide, depth));
        }
    }
}

/// A ring groove 80/60, a square ring with its island, and islands within a pocket, lower than the face too.
#[test]
fn rings_and_islands() {
    let middle = [300.0, 200.0];
    let mut ring = Cut::new(Side::Top, circle(middle, 80.0, 60), middle, 8.0);
    ring.islands.push((circle(middle, 60.0, 48), 0.0));
    let groove = Known {
        kind: Kind::Groove,
        ..pocket(Side::Top, "ring", &[80.0, 60.0], middle, 8.0)
    };
    hold_anywhere(&made(BOARD, &[ring]), &[groove], 11);

    let mut square = Cut::new(Side::Top, rectangle(middle, [200.0, 200.0]), middle, 8.0);
    square
        .islands
        .push((rectangle(middle, [160.0, 160.0]), 0.0));
    let island = known(
        Kind::Island,
        "rectangle",
        &[160.0, 160.0],
        Side::Top,
        [300.0, 200.0, 18.0],
        0.0,
        8.0,
    );
    let around = pocket(Side::Top, "rectangle", &[200.0, 200.0], middle, 8.0);
    hold_anywhere(&made(BOARD, &[square]), &[around, island], 12);

    let mut field = Cut::new(Side::Top, rectangle(middle, [300.0, 200.0]), middle, 10.0);
    field
        .islands
        .push((rectangle([220.0, 180.0], [40.0, 50.0]), 4.0));
    field.islands.push((circle([350.0, 220.0], 50.0, 40), 0.0));
    let all = [
        pocket(Side::Top, "rectangle", &[300.0, 200.0], middle, 10.0),
        known(
            Kind::Island,
            "rectangle",
            &[40.0, 50.0],
            Side::Top,
            [220.0, 180.0, 14.0],
            4.0,
            6.0,
        ),
        known(
            Kind::Island,
            "circle",
            &[50.0],
            Side::Top,
            [350.0, 220.0, 18.0],
            0.0,
            10.0,
        ),
    ];
    hold_anywhere(&made(BOARD, &[field]), &all, 13);
}

/// An arc groove 6 wide, and an ellipse that is nearly a circle.
#[test]
fn arcs_and_ellipses() {
    let outline = arc([300.0, -300.0], 494.0, 6.0, [80.0, 100.0], 24);
    let cut = Cut::new(Side::Top, outline, [300.0, 194.0], 8.0);
    let part = &report(&made(BOARD, &[cut])).parts[0];
    assert!(part.doubts.is_empty(), "{:?}", part.doubts);
    let [row] = part.rows.as_slice() else {
        panic!("{:#?}", part.rows)
    };
    let Outline::Arc {
        width,
        radius,
        sweep,
    } = row.outline
    else {
        panic!("{row:?}")
    };
    assert!(
        (width - 6.0).abs() < 0.01 && (radius - 494.0).abs() < 0.01 && (sweep - 20.0).abs() < 0.01,
        "{row:?}"
    );

    let cut = Cut::new(
        Side::Top,
        ellipse([300.0, 200.0], [100.0, 98.4], 64),
        [300.0, 200.0],
        8.0,
    );
    let part = &report(&made(BOARD, &[cut])).parts[0];
    assert!(part.doubts.is_empty(), "{:?}", part.doubts);
    let [row] = part.rows.as_slice() else {
        panic!("{:#?}", part.rows)
    };
    // its corners stand at quarter steps, half a side before the ends of its axes
    let Outline::Other { size } = row.outline else {
        panic!("{row:?}")
    };
    assert!(
        (size[0] - 100.0).abs() < 0.1 && (size[1] - 98.4).abs() < 0.1,
        "{size:?}"
    );
}

/// Bores of 2 and 3 mm within a field of 1900 by 700.
#[test]
fn small_bores_in_a_large_field() {
    let size = [2000.0, 800.0, 18.0];
    let mut field = Cut::new(
        Side::Top,
        rectangle([1000.0, 400.0], [1900.0, 700.0]),
        [1000.0, 400.0],
        6.0,
    );
    let mut all = vec![known(
        Kind::Pocket,
        "rectangle",
        &[1900.0, 700.0],
        Side::Top,
        [1000.0, 400.0, 18.0],
        0.0,
        6.0,
    )];
    for n in 0..18 {
        let middle = [100.0 + 100.0 * f64::from(n), 100.0 + 30.0 * f64::from(n)];
        let diameter = 2.0 + f64::from(n % 2);
        field.inner.push((circle(middle, diameter, 18), 13.0));
        all.push(known(
            Kind::Bore,
            "circle",
            &[diameter],
            Side::Top,
            [middle[0], middle[1], 12.0],
            6.0,
            7.0,
        ));
    }
    let facets = made(size, &[field]);
    hold_anywhere(&facets, &all, 21);
}

/// Right through at 45 degrees, through at 15 degrees, and blind with a floor across the face.
#[test]
fn bores_that_lean() {
    let (mut cuts, mut all) = (Vec::new(), Vec::new());
    for (x, degrees) in [(150.0, 45.0_f64), (350.0, 15.0), (480.0, 0.2)] {
        let lean = degrees.to_radians();
        // a circle across the axis is this ellipse in the face
        let outline = ellipse([x, 200.0], [12.0 / lean.cos(), 12.0], 36);
        let mut cut = Cut::new(Side::Top, outline, [x, 200.0], THROUGH);
        cut.lean = [lean.tan(), 0.0];
        cuts.push(cut);
        all.push(Known {
            axis: [lean.sin(), 0.0, -lean.cos()],
            depth: 18.0 / lean.cos(),
            ..bore(BOARD, Side::Top, [x, 200.0], 12.0, THROUGH)
        });
    }
    hold_anywhere(&made(BOARD, &cuts), &all, 31);
}

/// A cam joint: a bore of 5 from the left side, which opens into a cup of 15 from below.
fn cam() -> Vec<Corners> {
    let ([x, y], z, cup, dowel) = ([34.0, 100.0], 9.0, 7.5_f64, 2.5_f64);
    let mut solid = board::Solid::default();
    // the cup's wall has corners under these angles from the side that the dowel comes from; at the first and last of the
    // inner ones the dowel is widest
    let widest = (dowel / cup).asin().to_degrees();
    let inner = [-widest, -15.0, -10.0, -5.0, 0.0, 5.0, 10.0, 15.0, widest];
    let outer = (3..=37).map(|n| 9.0 * f64::from(n));
    let angles: Vec<f64> = inner.into_iter().chain(outer).collect();
    let on_cup = |degrees: f64, height: f64| {
        let (sine, cosine) = degrees.to_radians().sin_cos();
        [x - cup * cosine, y + cup * sine, height]
    };
    // how far from its middle the dowel's rim lies there
    let rise = |degrees: f64| {
        let off = cup * degrees.to_radians().sin();
        if degrees.abs() == widest {
            0.0
        } else {
            (dowel * dowel - off * off).sqrt()
        }
    };
    for (n, &one) in angles.iter().enumerate() {
        let other = angles[(n + 1) % angles.len()];
        let mut wall = |low: [f64; 2], high: [f64; 2]| {
            let [a, b] = [on_cup(one, low[0]), on_cup(other, low[1])];
            let [c, d] = [on_cup(one, high[0]), on_cup(other, high[1])];
            if a != c {
                solid.facets.push([a, b, c]);
            }
            if b != d {
                solid.facets.push([b, d, c]);
            }
        };
        if n + 1 < inner.len() {
            wall([0.0; 2], [z - rise(one), z - rise(other)]);
            wall([z + rise(one), z + rise(other)], [12.7; 2]);
        } else if one == widest || other == -widest {
            // beside the dowel's widest corners the wall has a corner at their height
            wall([0.0; 2], if one == widest { [z, 0.0] } else { [0.0, z] });
            wall(if one == widest { [z, 0.0] } else { [0.0, z] }, [12.7; 2]);
        } else {
            wall([0.0; 2], [12.7; 2]);
        }
    }
    // the rim from its nearest corner over the upper side to the furthest, and back over the lower one
    let upper = inner
        .iter()
        .map(|&degrees| on_cup(degrees, z + rise(degrees)));
    let lower = inner[1..8]
        .iter()
        .rev()
        .map(|&degrees| on_cup(degrees, z - rise(degrees)));
    let rim: Vec<Point> = upper.chain(lower).collect();
    let entry: Vec<Point> = rim.iter().map(|point| [0.0, point[1], point[2]]).collect();
    solid.walls(&entry, &rim);
    let around = |height: f64| -> Vec<Point> {
        angles
            .iter()
            .map(|&degrees| on_cup(degrees, height))
            .collect()
    };
    let plain = made(BOARD, &[Cut::bore(Side::Top, [500.0, 300.0], 5.0, 12.0)]);
    let is = |facet: &&Corners, axis: usize| facet.iter().all(|corner| corner[axis] == 0.0);
    solid
        .facets
        .extend(plain.iter().filter(|facet| !is(facet, 0) && !is(facet, 2)));
    let bottom = vec![
        [0.0, 0.0, 0.0],
        [600.0, 0.0, 0.0],
        [600.0, 400.0, 0.0],
        [0.0, 400.0, 0.0],
    ];
    let left = vec![
        [0.0, 0.0, 0.0],
        [0.0, 0.0, 18.0],
        [0.0, 400.0, 18.0],
        [0.0, 400.0, 0.0],
    ];
    solid.flat(&[bottom, around(0.0)], [0.0, 0.0, -1.0]);
    solid.flat(&[left, entry], [-1.0, 0.0, 0.0]);
    solid.flat(&[around(12.7)], [0.0, 0.0, -1.0]);
    solid.facets
}

#[test]
fn a_cam_joint() {
    let all = [
        bore(BOARD, Side::Top, [500.0, 300.0], 5.0, 12.0),
        bore(BOARD, Side::Bottom, [34.0, 100.0], 15.0, 12.7),
    ];
    let facets = cam();
    let found = report(&facets);
    assert!(found.is_certain(), "{found:#?}");
    let part = &found.parts[0];
    assert_eq!(part.rows.len(), all.len() + 1);
    let dowel = part
        .rows
        .iter()
        .find(|row| matches!(row.end, End::OpensInto(_)))
        .unwrap();
    let End::OpensInto(cup) = dowel.end else {
        panic!()
    };
    assert!(
        matches!(part.rows[cup].outline, Outline::Circle { diameter, .. } if (diameter - 15.0).abs() < 0.01)
    );
    assert!(
        matches!(dowel.outline, Outline::Circle { diameter, .. } if (diameter - 5.0).abs() < 0.01)
    );
    assert_eq!(part.faces[dowel.face.unwrap()].name, "left");
    assert_eq!(part.rows[cup].feature, dowel.feature);
    // its axis meets the cup's wall at 34 - 7.5
    assert!((dowel.depth - 26.5).abs() < 0.01, "{dowel:?}");
    explains(&board::single(&facets), part, 3);
    let mut chance = Chance(9);
    for mirrors in [false, true] {
        let pose = Pose::of_chance(&mut chance, mirrors);
        let found = report(&mapped(&facets, |point| pose.place(point), mirrors));
        assert!(
            found.is_certain() && found.parts[0].rows.len() == 3,
            "{found:#?}"
        );
    }
}

/// A countersink from 10 to 5 at 90 degrees, then a bore of 5 right through; a bore with a drill's tip; a cone alone.
#[test]
fn countersinks_and_tips() {
    let middle = [50.0, 40.0];
    let mut sunk = Cut::new(Side::Top, circle(middle, 10.0, 48), middle, 2.5);
    sunk.floor = Some(circle(middle, 5.0, 48));
    sunk.inner = vec![(circle(middle, 5.0, 48), THROUGH)];
    let mut tipped = Cut::new(
        Side::Top,
        circle([150.0, 40.0], 8.0, 40),
        [150.0, 40.0],
        10.0,
    );
    tipped.tip = Some(12.4);
    let facets = made(BOARD, &[sunk, tipped]);
    let all = [
        known(
            Kind::Countersink,
            "circle",
            &[10.0],
            Side::Top,
            [50.0, 40.0, 18.0],
            0.0,
            2.5,
        ),
        Known {
            through: true,
            ..known(
                Kind::Bore,
                "circle",
                &[5.0],
                Side::Top,
                [50.0, 40.0, 15.5],
                2.5,
                15.5,
            )
        },
        known(
            Kind::Bore,
            "circle",
            &[8.0],
            Side::Top,
            [150.0, 40.0, 18.0],
            0.0,
            10.0,
        ),
    ];
    let part = hold(&facets, &all);
    let tip = part.rows.iter().find_map(|row| match row.end {
        End::Tip { angle, depth } => Some((angle, depth)),
        _ => None,
    });
    let (angle, depth) = tip.unwrap();
    let wanted = 2.0 * (4.0_f64 / 2.4).atan().to_degrees();
    assert!(
        (angle - wanted).abs() < 0.01 && (depth - 12.4).abs() < 0.01,
        "{angle} {depth}"
    );
    let sunk = &part.rows[0];
    assert_eq!(
        (sunk.kind, sunk.end),
        (Kind::Countersink, End::OpensInto(1))
    );
    assert_eq!(part.rows[1].within, Some(0));
}

/// A rabbet along one side is one row, and so is one all round, with the face as its island; grooves run out.
#[test]
fn rabbets_and_grooves() {
    let facets = extruded(&RABBET_AND_GROOVE, &[], 600.0);
    let part = &report(&facets).parts[0];
    assert!(part.doubts.is_empty(), "{:?}", part.doubts);
    assert!((part.size()[0] - 600.0).abs() < 0.01 && (part.size()[2] - 18.0).abs() < 0.01);
    let mut rows: Vec<(Kind, f64, f64, usize)> = part
        .rows
        .iter()
        .map(|row| match row.outline {
            Outline::Rectangle { size, .. } => {
                (row.kind, size[0].min(size[1]), row.depth, row.open.len())
            }
            _ => panic!("{row:?}"),
        })
        .collect();
    rows.sort_by(|a, b| a.1.total_cmp(&b.1));
    assert_eq!(rows.len(), 2);
    assert!(
        rows[0].0 == Kind::Groove
            && (rows[0].1 - 6.0).abs() < 0.01
            && (rows[0].2 - 8.0).abs() < 0.01
            && rows[0].3 == 2
    );
    assert!(
        rows[1].0 == Kind::Rabbet
            && (rows[1].1 - 15.0).abs() < 0.01
            && (rows[1].2 - 8.0).abs() < 0.01
            && rows[1].3 == 3
    );

    // two boards in one: 600 by 400 by 10, and 560 by 360 by 8 on it
    let mut solid = board::Solid::default();
    let ring = |low: f64, z: f64| {
        let [w, h] = [600.0 - low, 400.0 - low];
        vec![[low, low, z], [w, low, z], [w, h, z], [low, h, z]]
    };
    solid.flat(&[ring(0.0, 0.0)], [0.0, 0.0, -1.0]);
    solid.flat(&[ring(0.0, 10.0), ring(20.0, 10.0)], [0.0, 0.0, 1.0]);
    solid.flat(&[ring(20.0, 18.0)], [0.0, 0.0, 1.0]);
    for (low, high, below) in [(0.0, 10.0, 0.0), (20.0, 18.0, 10.0)] {
        let (mut upper, mut lower) = (ring(low, high), ring(low, below));
        upper.reverse();
        lower.reverse();
        solid.walls(&upper, &lower);
    }
    let all = [
        known(
            Kind::Rabbet,
            "rectangle",
            &[600.0, 400.0],
            Side::Top,
            [300.0, 200.0, 18.0],
            0.0,
            8.0,
        ),
        known(
            Kind::Island,
            "rectangle",
            &[560.0, 360.0],
            Side::Top,
            [300.0, 200.0, 18.0],
            0.0,
            8.0,
        ),
    ];
    let part = hold(&solid.facets, &all);
    assert_eq!(part.rows[0].open.len(), 4);
    hold_anywhere(&solid.facets, &all, 41);
}

/// An outline with a corner cut out, a notch and a round bite.
#[test]
fn notches_of_an_outline() {
    let mut outline: Vec<Place> = vec![
        [0.0, 0.0],
        [200.0, 0.0],
        [200.0, 30.0],
        [250.0, 30.0],
        [250.0, 0.0],
        [600.0, 0.0],
    ];
    outline.extend([[600.0, 250.0], [400.0, 250.0], [400.0, 400.0]]);
    let bite = |n: i32| {
        let (sine, cosine) = (std::f64::consts::PI * f64::from(n) / 20.0).sin_cos();
        [150.0 + 30.0 * cosine, 400.0 - 30.0 * sine]
    };
    outline.extend((0..=20).map(bite));
    outline.push([0.0, 400.0]);
    let facets = extruded(&outline, &[], 18.0);
    let notch = |word: &'static str, sizes: [f64; 2], middle: Place| Known {
        kind: Kind::Notch,
        through: true,
        ..pocket(Side::Top, word, &sizes, middle, 18.0)
    };
    let all = [
        notch("rectangle", [50.0, 30.0], [225.0, 15.0]),
        notch("rectangle", [200.0, 150.0], [500.0, 325.0]),
        notch("other", [60.0, 30.0], [150.0, 385.0]),
    ];
    hold_anywhere(&facets, &all, 51);
}

/// Mitred ends and tapered edges are outer faces; bores stand in them and beside them.
#[test]
fn mitred_edges() {
    // a profile of x and y, extruded along z: 600 by 18 whose ends are cut at 45 degrees, with holes as bores
    let profile = [[0.0, 0.0], [600.0, 0.0], [582.0, 18.0], [18.0, 18.0]];
    let facets = extruded(&profile, &[circle([300.0, 9.0], 8.0, 32)], 400.0);
    let part = hold(
        &facets,
        &[Known {
            kind: Kind::Bore,
            outline: ("circle", vec![8.0]),
            centre: [300.0, 9.0, 400.0],
            axis: [0.0, 0.0, -1.0],
            entry: 0.0,
            depth: 400.0,
            through: true,
        }],
    );
    assert_eq!(
        part.faces
            .iter()
            .filter(|face| face.name.starts_with("slanted"))
            .count(),
        2
    );
}

/// Pins stand out of a board's side, and the side is still the face.
#[test]
fn pins_stand_out_of_a_board() {
    let size = [200.0, 120.0, 18.0];
    let places = [30.0, 60.0, 90.0];
    let cuts: Vec<Cut> = places
        .iter()
        .map(|&y| Cut::bore(Side::Left, [y, 9.0], 8.0, -10.0))
        .collect();
    let all: Vec<Known> = places
        .iter()
        .map(|&y| {
            known(
                Kind::Boss,
                "circle",
                &[8.0],
                Side::Left,
                [0.0, y, 9.0],
                0.0,
                10.0,
            )
        })
        .collect();
    hold_anywhere(&made(size, &cuts), &all, 61);
}

/// A tray whose rim is a twelfth of its face.
#[test]
fn a_tray_has_a_pocket() {
    let size = [300.0, 200.0, 18.0];
    let cut = Cut::new(
        Side::Top,
        rectangle([150.0, 100.0], [290.0, 190.0]),
        [150.0, 100.0],
        12.0,
    );
    let all = [known(
        Kind::Pocket,
        "rectangle",
        &[290.0, 190.0],
        Side::Top,
        [150.0, 100.0, 18.0],
        0.0,
        12.0,
    )];
    hold_anywhere(&made(size, &[cut]), &all, 71);
}

/// Every row's triangles, those of the outer faces and what is left over are the part's.
#[test]
fn all_of_the_surface_is_accounted_for() {
    let (facets, _) = door();
    let part = &report(&facets).parts[0];
    let rows: usize = part.rows.iter().map(|row| row.triangles).sum();
    let faces: usize = part.faces.iter().map(|face| face.triangles).sum();
    assert_eq!(rows + faces, part.triangles);
    let areas: f64 = part.rows.iter().map(|row| row.area).sum::<f64>()
        + part.faces.iter().map(|face| face.area).sum::<f64>();
    assert!((areas - part.area).abs() < 1e-6 * part.area);
    assert!(part.rows.iter().all(|row| row.check == Check::Confirmed));
}

/// A bore from the left side that ends in the wall of a pocket is entered from the side, whichever way it is drawn; so are
/// two of one axis that open into a pocket in the edge from above and from below.
#[test]
fn bores_that_open_in_walls() {
    // a pocket of 100 by 100, 12 deep, whose left wall has the bore's mouth
    let mut solid = board::Solid::default();
    let round = |x: f64| -> Vec<Point> {
        let places = circle([150.0, 12.0], 6.0, 24);
        places.iter().map(|[y, z]| [x, *y, *z]).collect()
    };
    let wall = [
        [200.0, 100.0, 6.0],
        [200.0, 200.0, 6.0],
        [200.0, 200.0, 18.0],
        [200.0, 100.0, 18.0],
    ];
    solid.flat(&[wall.to_vec(), round(200.0)], [1.0, 0.0, 0.0]);
    let left = [
        [0.0, 0.0, 0.0],
        [0.0, 400.0, 0.0],
        [0.0, 400.0, 18.0],
        [0.0, 0.0, 18.0],
    ];
    solid.flat(&[left.to_vec(), round(0.0)], [-1.0, 0.0, 0.0]);
    let mut entry = [round(0.0), round(200.0)];
    entry.iter_mut().for_each(|ring| ring.reverse());
    solid.walls(&entry[0], &entry[1]);
    let cut = Cut::new(
        Side::Top,
        rectangle([250.0, 150.0], [100.0, 100.0]),
        [250.0, 150.0],
        12.0,
    );
    let plain = made(BOARD, &[cut]);
    let is_there = |facet: &&Corners| {
        let at = |x: f64| facet.iter().all(|corner| corner[0] == x);
        !at(0.0) && !at(200.0)
    };
    solid.facets.extend(plain.iter().filter(is_there));
    let found = report(&solid.facets);
    assert!(found.is_certain(), "{found:#?}");
    let [pocket, bore] = found.parts[0].rows.as_slice() else {
        panic!("{found:#?}")
    };
    assert_eq!((pocket.kind, pocket.end), (Kind::Pocket, End::Floor));
    assert_eq!(found.parts[0].faces[bore.face.unwrap()].name, "left");
    assert_eq!((bore.end, bore.within), (End::OpensInto(0), None));
    assert!((bore.depth - 200.0).abs() < 0.01 && bore.entry_depth == 0.0);
    assert!((bore.centre[0]).abs() < 0.01, "{bore:?}");
}

/// A round table top: its edge is one face, whose sides across the axes belong to it; a bore into the edge is entered from
/// there, and its depth counts from the circle. The file's axes are kept, since no side of it says how it lies.
#[test]
fn a_round_top_with_a_bore_in_its_edge() {
    let edge = circle([0.0, 0.0], 600.0, 120);
    let facets = extruded(&edge, &[circle([100.0, 50.0], 35.0, 48)], 25.0);
    let found = report(&facets);
    assert!(found.is_certain(), "{found:#?}");
    let part = &found.parts[0];
    assert!(part.frame.is_as_drawn(), "{:?}", part.frame);
    let names: Vec<&str> = part.faces.iter().map(|face| face.name.as_str()).collect();
    assert_eq!(names, ["top", "bottom", "round 1"]);
    let round = &part.faces[2];
    assert!(round.is_round && (round.radius.unwrap() - 300.0).abs() < 0.01);
    assert_eq!(round.triangles, 240);

    // a dowel bore of 8, 40 deep, in the middle of the side between the corners 0 and 1
    let [a, b] = [edge[0], edge[1]];
    let [x, y] = [(a[0] + b[0]) / 2.0, (a[1] + b[1]) / 2.0];
    let flat = x.hypot(y);
    let (sine, cosine) = (y / flat, x / flat);
    let at = |depth: f64, [v, z]: Place| {
        let r = flat - depth;
        [r * cosine - v * sine, r * sine + v * cosine, z]
    };
    let mouth = circle([0.0, 12.0], 8.0, 24);
    let ring = |depth: f64| -> Vec<Point> { mouth.iter().map(|&p| at(depth, p)).collect() };
    let mut solid = board::Solid::default();
    let is_side = |facet: &&Corners| {
        let on = |corner: &Point| {
            let away = corner[0] * cosine + corner[1] * sine;
            (away - flat).abs() < 1e-6
        };
        !facet.iter().all(on)
    };
    solid.facets = facets.iter().filter(is_side).copied().collect();
    assert_eq!(solid.facets.len(), facets.len() - 2);
    let half = (b[0] - a[0]).hypot(b[1] - a[1]) / 2.0;
    let side: Vec<Point> = [[-half, 0.0], [half, 0.0], [half, 25.0], [-half, 25.0]]
        .iter()
        .map(|&p| at(0.0, p))
        .collect();
    solid.flat(&[side, ring(0.0)], [1.0, 0.0, 0.0]);
    solid.walls(&ring(0.0), &ring(40.0));
    solid.flat(&[ring(40.0)], [1.0, 0.0, 0.0]);
    let found = report(&solid.facets);
    assert!(found.is_certain(), "{found:#?}");
    let part = &found.parts[0];
    let bore = part.rows.iter().find(|row| row.end == End::Floor).unwrap();
    assert_eq!(part.faces[bore.face.unwrap()].name, "round 1");
    // from the circle, which lies before the side's middle
    let wanted = 40.0 + 300.0 - flat;
    assert!((bore.depth - wanted).abs() < 0.01, "{bore:?}");
    assert_eq!(bore.entry_depth, 0.0);
}

/// A round top whose corners make it wider along y than along x, with a pocket that is turned: x is the file's, whatever the
/// number of sides and the direction of the pocket are.
#[test]
fn a_round_top_keeps_the_files_x() {
    for sides in [18, 30, 64, 101] {
        let corner = |n: usize| {
            let turn = std::f64::consts::TAU * (n as f64 / sides as f64 + 0.25);
            let (sine, cosine) = turn.sin_cos();
            [500.0 * cosine, 500.0 * sine]
        };
        let outline: Vec<Place> = (0..sides).map(corner).collect();
        let pocket = turned(
            &rectangle([-100.0, 50.0], [300.0, 60.0]),
            [-100.0, 50.0],
            30.0,
        );
        let facets = extruded(&outline, &[circle([120.0, 40.0], 60.0, 32), pocket], 25.0);
        let found = report(&facets);
        assert!(found.is_certain(), "{found:#?}");
        let part = &found.parts[0];
        assert!(part.frame.is_as_drawn(), "{:?}", part.frame);
        let bore = part.rows.iter().find(|row| row.kind == Kind::Bore).unwrap();
        let wanted = [120.0, 40.0, 25.0];
        assert!((0..3).all(|axis| (bore.centre[axis] - wanted[axis]).abs() < 0.01));
        let turned = |row: &probe_part::model::Row| matches!(row.outline, Outline::Rectangle { angle, .. } if (angle - 30.0).abs() < 0.01);
        assert!(part.rows.iter().any(turned), "{:?}", part.rows);
    }
}
