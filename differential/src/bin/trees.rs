//! Seeded cases of build, tree check, query and mesh cast, and of the other casts.

use differential::{
    log::{Difference, Log},
    run::{self, Mesh},
};
use std::{
    panic::{AssertUnwindSafe, catch_unwind},
    process::exit,
};

const USAGE: &str = "usage: trees SEED COUNT
       trees --case SEED NUMBER
Runs COUNT cases, or one case with every answer printed. Exit status 1 on a difference.";

/// More are counted and not printed.
const PRINTED: u64 = 3;

fn number(word: &str) -> u64 {
    word.parse().unwrap_or_else(|_| usage())
}

fn usage() -> ! {
    eprintln!("{USAGE}");
    exit(2);
}

/// Compares one case; a panic of the Rust's side is a difference too.
fn case(log: &mut Log, seed: u64, number: u64, mesh: &Mesh) {
    let done = catch_unwind(AssertUnwindSafe(|| run::compare(log, seed, number, mesh)));
    if done.is_err() {
        log.differs(
            "panic",
            "a panic, see above".to_owned(),
            format!("{mesh:?}"),
        );
    }
}

fn print(difference: &Difference) {
    println!(
        "{}, {}: {}",
        difference.call, difference.context, difference.text
    );
    // A large input is printed by its case alone.
    if difference.input.len() <= 20_000 {
        println!("  {}", difference.input);
    }
}

/// The differences of a case, and of the same case with fewer triangles.
fn report(seed: u64, number: u64, mesh: &Mesh, differences: &[Difference]) {
    println!("case {number} of seed {seed} differs: trees --case {seed} {number}");
    differences.iter().for_each(print);
    let call = differences[0].call;
    if call == "panic" {
        return;
    }
    let small = run::shrunk(seed, number, mesh, call);
    let mut log = Log::default();
    run::compare(&mut log, seed, number, &small);
    if let Some(found) = log.differences.iter().find(|found| found.call == call) {
        let (triangles, all) = (small.indices.len() / 3, mesh.indices.len() / 3);
        println!("with {triangles} of its {all} triangles:");
        print(found);
    }
}

fn main() {
    let arguments: Vec<String> = std::env::args().skip(1).collect();
    let words: Vec<&str> = arguments.iter().map(String::as_str).collect();
    let (seed, numbers, verbose) = match words[..] {
        ["--case", seed, one] => (number(seed), number(one)..number(one) + 1, true),
        [seed, count] => (number(seed), 0..number(count), false),
        _ => usage(),
    };
    let mut log = Log::default();
    log.verbose = verbose;
    let (mut differing, mut cases) = (0, 0);
    for number in numbers {
        let mesh = run::mesh_of(seed, number);
        if verbose {
            let (vertices, triangles) = (mesh.vertices.len() / 3, mesh.indices.len() / 3);
            println!("{vertices} vertices, {triangles} triangles, {:?}", mesh.ray);
        }
        case(&mut log, seed, number, &mesh);
        cases += 1;
        let differences = std::mem::take(&mut log.differences);
        if !differences.is_empty() {
            differing += 1;
            if differing <= PRINTED {
                report(seed, number, &mesh, &differences);
            }
        }
        if cases % 20_000 == 0 {
            eprintln!("{cases} cases, {differing} differ");
        }
    }
    log.print();
    let calls = log.calls();
    println!("seed {seed}: {cases} cases, {calls} calls, {differing} differ");
    exit(i32::from(differing > 0));
}
