//! Our calls beside the unchanged Rust: one run, the same inputs, answers compared before anything is timed.

// The carried files name this crate's vectors by the repository's crate name.
extern crate self as kapitsa_math;
pub(crate) use math::{Vec2, Vec3};

#[allow(dead_code)]
#[path = "../../oracle/src/aabb.rs"]
mod aabb;
#[allow(dead_code)]
#[path = "../../oracle/src/math.rs"]
mod math;
#[allow(dead_code)]
#[path = "../../oracle/src/shape.rs"]
mod shape;
#[allow(dead_code)]
#[path = "../../oracle/src/stubs.rs"]
mod stubs;
pub(crate) use stubs::{collider, transform, world};

mod areas;
mod cgal;
mod clock;
#[allow(dead_code)]
mod collision;
mod conversion;
mod drill;
mod empty;
mod exact;
mod fcl;
mod inputs;
mod listing;
mod many;
mod merge;
mod near;
mod other;
mod plain;
mod plot;
mod ranges;
mod records;
mod report;
mod rows;
mod timing;

use report::Grown;
use timing::{Measured, Row, measure};

const USAGE: &str = "usage: bench [--smoke | --only TEXT]
Without a word: every row and the growth table are printed and written to docs/BENCHMARKS.md and docs/growth.svg,
in the folder that this is run in. --only: just the rows whose names hold TEXT, printed.
--smoke: answers are compared and each row runs once; no time is shown.";

fn sizes(last: usize) -> impl Iterator<Item = usize> {
    std::iter::successors(Some(16), |n| Some(4 * n)).take_while(move |&n| n <= last)
}

fn once(mut row: Row) {
    (row.ours)();
    if let Some(rust) = &mut row.rust {
        rust();
    }
}

fn smoke() {
    let rows = rows::all();
    let count = rows.len();
    rows.into_iter()
        .for_each(|planned| once((planned.make)(&planned.name)));
    sizes(1_024).flat_map(rows::growth).for_each(once);
    println!("{count} rows, and growth to 1024 triangles: both sides agree");
}

/// Measures and prints the rows whose names hold a text.
fn table(rows: Vec<rows::Planned>, other: &str, only: &str) -> Vec<Measured> {
    let wanted = |planned: &rows::Planned| planned.name.contains(only);
    let rows: Vec<rows::Planned> = rows.into_iter().filter(wanted).collect();
    if rows.is_empty() {
        return Vec::new();
    }
    let measured = measure(
        rows.into_iter()
            .map(|planned| (planned.make)(&planned.name)),
    );
    println!("{}", report::head(other));
    measured
        .iter()
        .for_each(|row| println!("{}", report::line(row)));
    measured
}

fn growth() -> Vec<Grown> {
    let mut measured = measure(sizes(65_536).flat_map(rows::growth)).into_iter();
    let mut next = || measured.next().expect("three rows a size");
    let sizes = sizes(65_536).map(|triangles| Grown {
        triangles,
        measured: [next(), next(), next()],
    });
    sizes.collect()
}

fn full() {
    let measured = table(rows::all(), report::RUST, "");
    let beside_cgal = table(cgal::rows(), report::CGAL, "");
    let beside_fcl = table(fcl::rows(), report::FCL, "");
    let growth = growth();
    println!("\n{}", report::GROWTH_HEAD.join("  "));
    growth
        .iter()
        .for_each(|size| println!("{}", size.cells().join("  ")));
    let others = [(report::CGAL, beside_cgal), (report::FCL, beside_fcl)];
    report::write("docs/BENCHMARKS.md", &measured, &others, &growth);
    std::fs::write("docs/growth.svg", plot::svg(&growth)).expect("docs/growth.svg");
}

fn main() {
    let words: Vec<String> = std::env::args().skip(1).collect();
    match words.iter().map(String::as_str).collect::<Vec<_>>()[..] {
        [] => full(),
        ["--smoke"] => smoke(),
        ["--only", text] => {
            table(rows::all(), report::RUST, text);
            table(cgal::rows(), report::CGAL, text);
            table(fcl::rows(), report::FCL, text);
        }
        _ => {
            eprintln!("{USAGE}");
            std::process::exit(2);
        }
    }
}
