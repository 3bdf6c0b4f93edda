//! Seeded boards and drills: the library beside the judge and the model, through a tree and without one.

use differential::{drill, drill_boards, log::Log};
use oracle::random::Random;
use std::process::exit;

const USAGE: &str = "usage: drill SEED COUNT
       drill --case SEED NUMBER
Runs COUNT boards, or one with every answer printed.
Exit status 1 on a difference, or where COUNT is 20000 or more and too little was met.";

/// More are counted and not printed.
const PRINTED: u64 = 3;

/// From so many boards on, each thing is to be met once in so many of them.
const MANY: u64 = 20_000;
const ONCE_IN: u64 = 400;

fn number(word: &str) -> u64 {
    word.parse().unwrap_or_else(|_| usage())
}

fn usage() -> ! {
    eprintln!("{USAGE}");
    exit(2);
}

fn case(log: &mut Log, seed: u64, number: u64) {
    let random = &mut Random::of_record(seed ^ 0x6472_696c_6c65_6400, number);
    log.context = "a board";
    let board = drill_boards::board(random);
    drill::board(log, random, &board);
}

/// What was met too seldom.
fn seldom(log: &Log, count: u64) -> Vec<&'static str> {
    if count < MANY {
        return Vec::new();
    }
    let asked = drill_boards::MET.iter();
    let asked = asked.chain(&[drill::LINES, drill::LINES_HIT]);
    asked
        .copied()
        .filter(|what| log.counted(what) < count / ONCE_IN)
        .collect()
}

fn main() {
    let arguments: Vec<String> = std::env::args().skip(1).collect();
    let words: Vec<&str> = arguments.iter().map(String::as_str).collect();
    let (seed, numbers, verbose) = match words[..] {
        ["--case", seed, one] => (number(seed), number(one)..number(one) + 1, true),
        [seed, count] => (number(seed), 0..number(count), false),
        _ => usage(),
    };
    let cases = numbers.end - numbers.start;
    let mut log = Log::default();
    log.verbose = verbose;
    let mut differing = 0;
    for number in numbers {
        case(&mut log, seed, number);
        let differences = std::mem::take(&mut log.differences);
        if differences.is_empty() {
            continue;
        }
        differing += 1;
        if differing <= PRINTED {
            println!("case {number} of seed {seed} differs: drill --case {seed} {number}");
            for difference in &differences {
                println!("{}: {}", difference.context, difference.text);
                println!("  {}", difference.input);
            }
        }
    }
    log.print();
    let calls = log.calls();
    println!("seed {seed}: {cases} cases, {calls} calls, {differing} differ");
    let seldom = seldom(&log, cases);
    if !seldom.is_empty() {
        println!("met less than once in {ONCE_IN} cases: {seldom:?}");
    }
    exit(i32::from(differing > 0 || !seldom.is_empty()));
}
