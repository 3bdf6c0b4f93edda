//! Seeded casts at cabinets of many parts.

use differential::{cabinets, log::Log};
use std::process::exit;

const USAGE: &str = "usage: cabinets SEED COUNT
       cabinets --case SEED NUMBER
Runs COUNT cases, or one case with every answer printed. Exit status 1 on a difference.";

/// More are counted and not printed.
const PRINTED: u64 = 3;

fn number(word: &str) -> u64 {
    word.parse().unwrap_or_else(|_| usage())
}

fn usage() -> ! {
    eprintln!("{USAGE}");
    exit(2);
}

fn main() {
    let arguments: Vec<String> = std::env::args().skip(1).collect();
    let words: Vec<&str> = arguments.iter().map(String::as_str).collect();
    let (seed, numbers, verbose) = match words[..] {
        ["--case", seed, one] => (number(seed), number(one)..number(one) + 1, true),
        [seed, count] => (number(seed), 0..number(count), false),
        _ => usage(),
    };
    let mut log = Log::default();
    log.verbose = verbose;
    let (mut differing, mut cases) = (0, 0);
    for number in std::iter::once(None).chain(numbers.map(Some)) {
        match number {
            None if verbose => continue,
            None => cabinets::compare_made(&mut log),
            Some(number) => cabinets::compare(&mut log, seed, number),
        }
        cases += 1;
        let differences = std::mem::take(&mut log.differences);
        if differences.is_empty() {
            continue;
        }
        differing += 1;
        if differing <= PRINTED {
            match number {
                None => println!("the case that is made by hand differs"),
                Some(number) => {
                    println!(
                        "case {number} of seed {seed} differs: cabinets --case {seed} {number}"
                    )
                }
            }
            for difference in &differences {
                println!("{}: {}", difference.context, difference.text);
                if difference.input.len() <= 20_000 {
                    println!("  {}", difference.input);
                }
            }
        }
    }
    log.print();
    let calls = log.calls();
    println!("seed {seed}: {cases} cases, {calls} calls, {differing} differ");
    exit(i32::from(differing > 0));
}
