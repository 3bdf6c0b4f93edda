//! The casts at a plane, a triangle and the two grids through the library, beside the
//! Rust's behind document 01's refusals 1 and 2, and beside the plain model to the bit.

use crate::{
    calls::{exact, says},
    lent::same_bits,
    library,
    log::{Log, in_words},
};
use oracle::{
    answer::{self, Answer, agree},
    cases, generate, plain,
    random::Random,
    record::{Record, Shape},
    telling,
};
use probe_rays::{HeightField, LevelSet, Plane, calls, sys};

/// A record's cast, at times with a hit slice that is too short or a grid whose length or
/// sides a record could not carry.
pub fn compare(log: &mut Log, random: &mut Random, seed: u64, number: u64) {
    let mut record = generate::record(!seed, number, &[1, 2, 4, 5]);
    if let Shape::HeightField { heights, .. }
    | Shape::LevelSet {
        values: heights, ..
    } = &mut record.shape
    {
        match random.below(80) {
            0 => drop(heights.pop()),
            1 => heights.push(0.0),
            _ => {}
        }
    }
    if random.once_in(3) {
        generate::give_near(random, &mut record);
    }
    let length = random.pick(&[4, 4, 4, 4, 4, 4, 4, 4, 5, 7, 3, 0]);
    let hit = cases::filled_floats(random, length);
    // Rows that only a usize holds.
    let rows_above = random.once_in(400).then_some(1 << 32);
    log.context = "as drawn";
    cast(log, &record, &hit, rows_above);
}

/// Distance grids of as many layers as are admitted, and of one more.
pub fn at_the_limits(log: &mut Log) {
    log.context = "at the limits";
    for layers in [256, 257] {
        cast(log, &telling::layered(layers), &[7.0; 4], None);
    }
}

fn name(shape: &Shape) -> &'static str {
    match shape {
        Shape::Plane { .. } => "plane cast",
        Shape::Triangle { .. } => "triangle cast",
        Shape::Mesh { .. } => unreachable!("meshes have their own comparison"),
        Shape::HeightField { .. } => "height cast",
        Shape::LevelSet { .. } => "distance cast",
    }
}

/// The library's answer; `rows_above` is added to the rows of a height grid.
fn library_cast(
    record: &Record,
    hit: &[f64],
    rows_above: Option<usize>,
) -> Result<(u32, Vec<f64>), String> {
    let ray = library::ray(&record.ray);
    match &record.shape {
        Shape::Plane { normal, distance } => library::shape_cast(&[], hit, |_, hit| {
            let (normal, distance) = (*normal, *distance);
            calls::ray_plane(&ray, &Plane { normal, distance }, hit)
        }),
        Shape::Triangle { corners } => {
            library::shape_cast(&[], hit, |_, hit| calls::ray_triangle(&ray, corners, hit))
        }
        Shape::Mesh { .. } => unreachable!("meshes have their own comparison"),
        Shape::HeightField {
            rows,
            columns,
            spacing,
            heights,
        } => library::shape_cast(heights, hit, |heights, hit| {
            let field = HeightField {
                rows: *rows as usize + rows_above.unwrap_or(0),
                columns: *columns as usize,
                spacing: *spacing,
                heights,
            };
            calls::ray_height_field(&ray, &field, hit)
        }),
        Shape::LevelSet {
            sides,
            origin,
            spacing,
            values,
        } => library::shape_cast(values, hit, |values, hit| {
            let grid = LevelSet {
                sides: *sides,
                origin: *origin,
                spacing: *spacing,
                values,
            };
            calls::ray_level_set(&ray, &grid, hit)
        }),
    }
}

/// The cast of a record that is no mesh, `hit` being its result slice.
pub fn cast(log: &mut Log, record: &Record, hit: &[f64], rows_above: Option<usize>) {
    let name = name(&record.shape);
    let (number, after) = match library_cast(record, hit, rows_above) {
        Ok(done) => done,
        Err(fault) => return log.differs(name, fault, format!("{record:?}")),
    };
    log.answered(name, number);
    let rows_above = rows_above.filter(|_| matches!(record.shape, Shape::HeightField { .. }));
    let plainly = hit.len() >= 4 && rows_above.is_none();
    let expected = if rows_above.is_some() {
        log.left_out(name, "rows above what the Rust's side of the driver holds");
        Answer::Refused(if answer::ray_admitted(&record.ray) {
            2
        } else {
            1
        })
    } else if hit.len() < 4 {
        // 1 and 2 go before a result slice that is too short.
        log.left_out(name, "a result slice is too short");
        match plain::answer(record) {
            Answer::Refused(number @ 1..=2) => Answer::Refused(number),
            _ => Answer::Refused(3),
        }
    } else if let Some(reason) = record.left_out() {
        log.left_out(name, reason);
        plain::answer(record)
    } else {
        log.compared(name, "the Rust");
        record.answer()
    };
    let kept = if number == sys::HIT {
        4.min(hit.len())
    } else {
        0
    };
    if !says(number, &after, &expected, agree) || !same_bits(&after[kept..], &hit[kept..]) {
        let number = in_words(number);
        let text = format!("answers {number} with {after:?} for {hit:?}, not {expected:?}");
        log.differs(name, text, format!("{record:?}"));
    }
    if plainly {
        log.compared(name, "the model");
        let expected = plain::answer(record);
        if !says(number, &after, &expected, exact) {
            let text = format!(
                "answers {} with {after:?}, the model {expected:?}",
                in_words(number)
            );
            log.differs(name, text, format!("{record:?}"));
        }
    }
}
