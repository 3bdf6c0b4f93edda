//! Seeded boards beside the judge in fractions and the model, and ways into closed boards and out of them, which all hit.

use differential::{boards, exact, exact_listing, log::Log, solids};
use oracle::random::Random;
use std::process::exit;

const USAGE: &str = "usage: exact SEED COUNT
       exact --case SEED NUMBER
Runs COUNT cases, or one case with every answer printed: a board each, and for every 25th a closed board, ways into it and
out of it.
Exit status 1 on a difference, or where COUNT is 20000 or more and too little was met.";

/// More are counted and not printed.
const PRINTED: u64 = 3;

/// A closed board for so many boards, and so many ways into each.
const BOARDS: u64 = 25;
const WAYS: usize = 10;

/// From so many boards on, each thing is to be met once in so many of them.
const MANY: u64 = 20_000;
const ONCE_IN: u64 = 200;

fn number(word: &str) -> u64 {
    word.parse().unwrap_or_else(|_| usage())
}

fn usage() -> ! {
    eprintln!("{USAGE}");
    exit(2);
}

fn case(log: &mut Log, seed: u64, number: u64) {
    let random = &mut Random::of_record(seed ^ 0x626f_6172_6400, number);
    log.context = "a board";
    exact::board(log, &boards::board(random));
    if number % BOARDS > 0 {
        return;
    }
    let (ray, vertices, indices) = solids::round(random);
    log.context = solids::ROUND;
    log.count(solids::ROUND);
    exact::way(log, &ray, &vertices, &indices);
    let solid = solids::any(random);
    log.context = solid.name;
    for way in 0..WAYS {
        let out = random.once_in(2);
        let found = if out {
            solid.way_out(random)
        } else {
            solid.way_in(random)
        };
        let Some(board) = found else {
            continue;
        };
        log.count(solid.name);
        exact::way(log, &board.ray, &board.vertices, &board.indices());
        exact_listing::alternates(log, &board, !out);
        if out {
            continue;
        }
        if way == 0 {
            exact::board(log, &board);
        }
    }
}

/// What was met too seldom.
fn seldom(log: &Log, count: u64) -> Vec<&'static str> {
    if count < MANY {
        return Vec::new();
    }
    let asked = boards::MET.iter().chain(&solids::KINDS);
    let asked = asked.chain(&[exact::MISSED, solids::ROUND]);
    let asked = asked.chain(&[
        exact_listing::TIED,
        exact_listing::DEEP,
        exact_listing::EMPTY,
        exact_listing::ALTERNATING,
    ]);
    asked
        .copied()
        .filter(|what| log.counted(what) < count / ONCE_IN)
        .collect()
}

fn main() {
    let arguments: Vec<String> = std::env::args().skip(1).collect();
    let words: Vec<&str> = arguments.iter().map(String::as_str).collect();
    let (seed, numbers, verbose) = match words[..] {
        ["--case", seed, one] => (number(seed), number(one)..number(one) + 1, true),
        [seed, count] => (number(seed), 0..number(count), false),
        _ => usage(),
    };
    let cases = numbers.end - numbers.start;
    let mut log = Log::default();
    log.verbose = verbose;
    let mut differing = 0;
    for number in numbers {
        case(&mut log, seed, number);
        let differences = std::mem::take(&mut log.differences);
        if differences.is_empty() {
            continue;
        }
        differing += 1;
        if differing <= PRINTED {
            println!("case {number} of seed {seed} differs: exact --case {seed} {number}");
            for difference in &differences {
                println!("{}: {}", difference.context, difference.text);
                println!("  {}", difference.input);
            }
        }
    }
    log.print();
    let calls = log.calls();
    println!("seed {seed}: {cases} cases, {calls} calls, {differing} differ");
    let seldom = seldom(&log, cases);
    if !seldom.is_empty() {
        println!("met less than once in {ONCE_IN} cases: {seldom:?}");
    }
    exit(i32::from(differing > 0 || !seldom.is_empty()));
}
