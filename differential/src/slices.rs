//! The casts at a plane and a triangle whose ray and shape are slices, beside the model: slices of the right length, one
//! shorter, one longer and empty ones, each between margins; and beside the library's casts by numbers, to the bit.

use crate::{
    calls::{exact, says},
    lent::{Lent, same_bits},
    library::{self, Fault, only_read, written},
    log::{Log, in_words},
    run::result,
};
use oracle::{
    answer::{self, Answer},
    generate, plain,
    random::Random,
    record::{Record, Shape},
};
use probe_rays::{Plane, calls, sys};

const BY_NUMBERS: &str = "the library's cast by numbers";

/// The numbers of a record's ray and shape, and what its answers are called.
fn numbers(record: &Record) -> (&'static str, Vec<f64>, Vec<f64>) {
    let ray = &record.ray;
    let eight = [&ray.origin[..], &ray.direction, &[ray.maximum, ray.near]].concat();
    match &record.shape {
        Shape::Plane { normal, distance } => (
            "plane cast of slices",
            eight,
            [&normal[..], &[*distance]].concat(),
        ),
        Shape::Triangle { corners } => ("triangle cast of slices", eight, corners.concat()),
        _ => unreachable!("only planes and triangles are drawn"),
    }
}

/// Mostly as it is, else one shorter, one longer or empty.
fn lengthened(random: &mut Random, mut slice: Vec<f64>) -> Vec<f64> {
    match random.below(12) {
        0 => drop(slice.pop()),
        1 => slice.push(random.special()),
        2 if random.once_in(4) => slice.clear(),
        _ => {}
    }
    slice
}

/// A record's cast, at times with a slice of another length.
pub fn compare(log: &mut Log, seed: u64, number: u64) {
    let random = &mut Random::of_record(seed.rotate_left(32) ^ 0x736c_6963_6573, number);
    let mut record = generate::record(seed ^ 0x736c_6963_6573, number, &[1, 2]);
    if random.once_in(3) {
        generate::give_near(random, &mut record);
    }
    let (name, ray, shape) = numbers(&record);
    let stated = shape.len();
    let (ray, shape) = (lengthened(random, ray), lengthened(random, shape));
    let hit = result(random, 4, Random::special);
    log.context = "as drawn";
    let (number, after) = match slice_cast(&record.shape, &ray, &shape, &hit) {
        Ok(done) => done,
        Err(fault) => return log.differs(name, fault, format!("{record:?}")),
    };
    log.answered(name, number);
    log.compared(name, "the model");
    let expected = expected(&record, ray.len() == 8, shape.len() == stated, hit.len());
    let kept = if number == sys::HIT { 4 } else { 0 };
    if !says(number, &after, &expected, exact) || !same_bits(&after[kept..], &hit[kept..]) {
        let number = in_words(number);
        let text = format!("answers {number} with {after:?} for {hit:?}, not {expected:?}");
        log.differs(name, text, format!("{ray:?} {shape:?}"));
    }
    if ray.len() == 8 && shape.len() == stated {
        log.compared(name, BY_NUMBERS);
        let mut same = hit.clone();
        let by_numbers = cast_by_numbers(&record, &mut same);
        if by_numbers != number || !same_bits(&same, &after) {
            let text = format!("answers {number} with {after:?}, by numbers {by_numbers}");
            log.differs(name, text, format!("{record:?}"));
        }
    }
}

/// 1 goes before 2, and 2 before the 3 of a result slice that is too short.
fn expected(record: &Record, eight: bool, stated: bool, room: usize) -> Answer {
    if !eight || !answer::ray_admitted(&record.ray) {
        return Answer::Refused(1);
    }
    if !stated {
        return Answer::Refused(2);
    }
    match plain::answer(record) {
        Answer::Refused(number @ 1..=2) => Answer::Refused(number),
        _ if room < 4 => Answer::Refused(3),
        answer => answer,
    }
}

fn slice_cast(
    kind: &Shape,
    ray: &[f64],
    shape: &[f64],
    hit: &[f64],
) -> Result<(u32, Vec<f64>), Fault> {
    let (lent_ray, lent_shape) = (Lent::new(ray), Lent::new(shape));
    let mut lent_hit = Lent::new(hit);
    let call = match kind {
        Shape::Plane { .. } => calls::ray_plane_slices,
        _ => calls::ray_triangle_slices,
    };
    let number = call(lent_ray.contents(), lent_shape.contents(), lent_hit.slice());
    only_read("the ray", &lent_ray, ray)?;
    only_read("the shape", &lent_shape, shape)?;
    Ok((number, written("the hit", &lent_hit)?))
}

fn cast_by_numbers(record: &Record, hit: &mut [f64]) -> u32 {
    let ray = library::ray(&record.ray);
    match &record.shape {
        Shape::Plane { normal, distance } => {
            let (normal, distance) = (*normal, *distance);
            calls::ray_plane(&ray, &Plane { normal, distance }, hit)
        }
        Shape::Triangle { corners } => calls::ray_triangle(&ray, corners, hit),
        _ => unreachable!("only planes and triangles are drawn"),
    }
}
