//! The cast at heights known only within ranges through the library, beside the model of
//! M-109; on small grids also beside what trying every grid of a few heights gives.

use crate::{
    lent::{Lent, same_bits},
    library,
    log::{Log, in_words},
};
use oracle::{
    answer::Ray,
    generate,
    height_ranges::{self, Clearance, Ranges},
    random::Random,
    record::Shape,
};
use probe_rays::{HeightRanges, calls, sys};

const NAME: &str = "ranges cast";
const HEIGHTS: [f64; 4] = [-1.0, 0.0, 1.0, 2.0];

/// A height grid's record with ranges around its heights, and now and then a small grid of
/// which every height can be tried.
pub fn compare(log: &mut Log, random: &mut Random, seed: u64, number: u64) {
    log.context = "as drawn";
    let (mut ray, ranges) = drawn(random, seed, number);
    ray.near = match random.below(12) {
        0 => random.special(),
        1..5 => random.unit() * ray.maximum,
        5 => ray.maximum,
        _ => 0.0,
    };
    cast(log, random, &ray, &ranges);
    if random.once_in(16) {
        log.context = "every grid of a few heights";
        let (ray, ranges) = small(random);
        let tried = height_ranges::by_trying(&ray, &ranges, &HEIGHTS);
        let found = cast(log, random, &ray, &ranges);
        log.compared(NAME, "every grid of a few heights");
        if found.is_some_and(|found| found != tried) {
            let text = format!("answers {found:?}, not {tried:?} as trying every grid does");
            log.differs(NAME, text, format!("{ray:?} {ranges:?}"));
        }
    }
}

fn drawn(random: &mut Random, seed: u64, number: u64) -> (Ray, Ranges) {
    let record = generate::record(seed.rotate_left(7), number, &[4]);
    let Shape::HeightField {
        rows,
        columns,
        spacing,
        heights,
    } = record.shape
    else {
        unreachable!("only height grids were asked for")
    };
    let wide = random.pick(&[0.0, 0.0, 0.25, 1.0, 4.0]);
    let mut lows: Vec<f64> = heights.iter().map(|h| h - wide * random.unit()).collect();
    let mut highs: Vec<f64> = heights.iter().map(|h| h + wide * random.unit()).collect();
    if random.once_in(3) && !lows.is_empty() {
        let node = random.below(lows.len());
        match random.below(4) {
            0 => lows[node] = random.special(),
            1 => highs[node] = random.special(),
            2 => lows[node] = highs[node].next_up(),
            _ => lows[node] = highs[node],
        }
    }
    match random.below(60) {
        0 => drop(lows.pop()),
        1 => drop(highs.pop()),
        2 => highs.push(0.0),
        _ => {}
    }
    let above = if random.once_in(400) { 1 << 32 } else { 0 };
    let ranges = Ranges {
        rows: rows as usize + above,
        columns: columns as usize,
        spacing,
        lows,
        highs,
    };
    (record.ray, ranges)
}

/// Two rows of three columns, and a vertical ray, all heights among a few.
fn small(random: &mut Random) -> (Ray, Ranges) {
    let range = |random: &mut Random| {
        let (a, b) = (random.pick(&HEIGHTS), random.pick(&HEIGHTS));
        (a.min(b), a.max(b))
    };
    let ranges = [0; 6].map(|_| range(random));
    let (from, to) = (random.pick(&HEIGHTS), random.pick(&HEIGHTS));
    let ray = Ray {
        origin: [
            random.pick(&[-0.5, 0.0, 0.25, 1.0, 1.5, 2.0, 2.5]),
            random.pick(&[0.0, 0.5, 1.0, 1.5]),
            from,
        ],
        direction: [0.0, 0.0, if to < from { -1.0 } else { 1.0 }],
        maximum: (from - to).abs(),
        near: 0.0,
    };
    let ranges = Ranges {
        rows: 2,
        columns: 3,
        spacing: [1.0, 1.0],
        lows: ranges.map(|r| r.0).to_vec(),
        highs: ranges.map(|r| r.1).to_vec(),
    };
    (ray, ranges)
}

/// One call between margins; what it answered, where the cell has a place.
fn cast(log: &mut Log, random: &mut Random, ray: &Ray, ranges: &Ranges) -> Option<Clearance> {
    let places = random.pick(&[1, 1, 1, 1, 1, 1, 2, 5, 0]);
    let before: Vec<u32> = (0..places).map(|_| random.bits() as u32).collect();
    let (lows, highs) = (Lent::new(&ranges.lows), Lent::new(&ranges.highs));
    let mut cell = Lent::new(&before);
    let lent = HeightRanges {
        rows: ranges.rows,
        columns: ranges.columns,
        spacing: ranges.spacing,
        lows: lows.contents(),
        highs: highs.contents(),
    };
    let number = calls::ray_height_ranges(&library::ray(ray), &lent, cell.slice());
    log.answered(NAME, number);
    let after = cell.contents();
    let input = || format!("{ray:?} {ranges:?} cell {before:?}");
    if !(lows.margins_hold() && highs.margins_hold() && cell.margins_hold())
        || !same_bits(lows.contents(), &ranges.lows)
        || !same_bits(highs.contents(), &ranges.highs)
    {
        log.differs(
            NAME,
            "touched what was lent for reading".to_owned(),
            input(),
        );
        return None;
    }
    let model = height_ranges::cast(ray, ranges);
    log.compared(NAME, "the model");
    log.left_out(NAME, "the Rust has no ranges");
    let mut expected = before.clone();
    let asked = match model {
        Clearance::Refused(number @ 1..=2) => number,
        _ if places == 0 => 3,
        Clearance::Refused(number) => number,
        Clearance::Clear => sys::CLEAR,
        Clearance::Possible(cell) => {
            expected[0] = cell;
            sys::POSSIBLE
        }
    };
    if number != asked || !same_bits(after, &expected) {
        let words = in_words(number);
        log.differs(
            NAME,
            format!("answers {words} with {after:?}, not {model:?}"),
            input(),
        );
    }
    (places > 0).then_some(model)
}
