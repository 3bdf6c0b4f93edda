//! Writes seeded `probe` records to standard output, or malformed streams into a
//! directory.

use oracle::{generate, record::Record, telling};
use std::io::{BufWriter, Write};

const USAGE: &str = "usage: oracle-gen SEED COUNT [--near] [--kinds 1,2,3,4,5] > RECORDS
       oracle-gen SEED COUNT --short | --widened > RECORDS
       oracle-gen --bad DIRECTORY
COUNT counts the marked records that come first. Kinds: 1 plane, 2 triangle,
3 mesh, 4 height grid, 5 distance grid. --near: records of version 2, and no marked ones;
--short: of version 3; --widened: the same records in version 2.";

fn usage() -> ! {
    eprintln!("{USAGE}");
    std::process::exit(2);
}

fn write_records(seed: u64, count: usize, kinds: &[u8]) -> std::io::Result<()> {
    let mut out = BufWriter::new(std::io::stdout().lock());
    let mut marked = [generate::marked(), telling::records()].concat();
    marked.retain(|record| kinds.contains(&record.shape.kind()));
    marked.truncate(count);
    for record in &marked {
        out.write_all(&record.write())?;
    }
    for number in marked.len()..count {
        out.write_all(&generate::record(seed, number as u64, kinds).write())?;
    }
    out.flush()
}

/// Records of version 2.
fn write_near(seed: u64, count: u64, kinds: &[u8]) -> std::io::Result<()> {
    write_by(generate::with_near, seed, count, kinds)
}

fn write_by(
    record: fn(u64, u64, &[u8]) -> Record,
    seed: u64,
    count: u64,
    kinds: &[u8],
) -> std::io::Result<()> {
    let mut out = BufWriter::new(std::io::stdout().lock());
    for number in 0..count {
        out.write_all(&record(seed, number, kinds).write())?;
    }
    out.flush()
}

fn write_bad(directory: &str) -> std::io::Result<()> {
    std::fs::create_dir_all(directory)?;
    for (name, bytes) in generate::bad_streams() {
        std::fs::write(format!("{directory}/{name}.bin"), bytes)?;
    }
    Ok(())
}

fn kinds(list: &str) -> Vec<u8> {
    let kinds: Option<Vec<u8>> = list.split(',').map(|kind| kind.parse().ok()).collect();
    match kinds {
        Some(kinds) if kinds.iter().all(|kind| (1..=5).contains(kind)) => kinds,
        _ => usage(),
    }
}

fn main() {
    let arguments: Vec<String> = std::env::args().skip(1).collect();
    let words: Vec<&str> = arguments.iter().map(String::as_str).collect();
    let number = |word: &str| word.parse().unwrap_or_else(|_| usage());
    match words.as_slice() {
        ["--bad", directory] => write_bad(directory),
        [seed, count] => write_records(number(seed), number(count) as usize, &[1, 2, 3, 4, 5]),
        [seed, count, "--near"] => write_near(number(seed), number(count), &[1, 2, 3, 4, 5]),
        [seed, count, "--short"] => write_by(
            generate::short,
            number(seed),
            number(count),
            &[1, 2, 3, 4, 5],
        ),
        [seed, count, "--widened"] => write_by(
            generate::widened,
            number(seed),
            number(count),
            &[1, 2, 3, 4, 5],
        ),
        [seed, count, "--near", "--kinds", list] => {
            write_near(number(seed), number(count), &kinds(list))
        }
        [seed, count, "--kinds", list] => {
            write_records(number(seed), number(count) as usize, &kinds(list))
        }
        _ => usage(),
    }
    .expect("output");
}
