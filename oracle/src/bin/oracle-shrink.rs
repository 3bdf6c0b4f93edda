//! Shrinks one record on which another program disagrees with the Rust, and prints
//! it as a record in hexadecimal, with both answers.

use oracle::{
    agree::lines_agree,
    record::{self, Record},
    shrink::shrink,
};
use std::{
    io::Write,
    process::{Command, Stdio},
};

const USAGE: &str = "usage: oracle-shrink RECORDS [--record N] -- PROGRAM [ARGUMENT...]
RECORDS is a file of `probe` records. Without --record the first one on which the
program and the Rust disagree is taken.";

fn usage() -> ! {
    eprintln!("{USAGE}");
    std::process::exit(2);
}

/// The lines that the other program prints for the records.
fn lines_of(command: &[String], records: &[Record]) -> Vec<String> {
    let mut child = Command::new(&command[0])
        .args(&command[1..])
        .stdin(Stdio::piped())
        .stdout(Stdio::piped())
        .spawn()
        .unwrap_or_else(|error| panic!("{}: {error}", command[0]));
    let mut input = child.stdin.take().expect("piped");
    let bytes: Vec<u8> = records.iter().flat_map(Record::write).collect();
    // A program that stops early closes its input; its lines then tell.
    let writer = std::thread::spawn(move || drop(input.write_all(&bytes)));
    let output = child.wait_with_output().expect("output");
    writer.join().expect("writer");
    let text = String::from_utf8_lossy(&output.stdout);
    text.lines().map(str::to_owned).collect()
}

/// Which records the other program answers otherwise than the Rust.
fn differing(command: &[String], records: &[Record]) -> Vec<bool> {
    if records.is_empty() {
        return Vec::new();
    }
    let lines = lines_of(command, records);
    if lines.len() < records.len() && records.len() > 1 {
        // It stopped at some record: ask for each alone.
        let alone = |record: &Record| differing(command, std::slice::from_ref(record))[0];
        return records.iter().map(alone).collect();
    }
    let differs = |(number, record): (usize, &Record)| {
        let own = record::line(number as u64 + 1, &record.answer());
        record.left_out().is_none()
            && lines
                .get(number)
                .is_none_or(|line| !lines_agree(&own, line))
    };
    records.iter().enumerate().map(differs).collect()
}

fn main() {
    let arguments: Vec<String> = std::env::args().skip(1).collect();
    let Some(split) = arguments.iter().position(|word| word == "--") else {
        usage()
    };
    let (own, command) = (&arguments[..split], &arguments[split + 1..]);
    let (path, chosen) = match own {
        [path] => (path, None),
        [path, option, number] if option == "--record" => (
            path,
            Some(number.parse::<usize>().unwrap_or_else(|_| usage())),
        ),
        _ => usage(),
    };
    if command.is_empty() {
        usage();
    }
    let bytes = std::fs::read(path).unwrap_or_else(|error| panic!("{path}: {error}"));
    let records = record::read_all(&bytes).expect("a stream of well-formed records");
    let number = chosen.map(|number| number - 1).or_else(|| {
        differing(command, &records)
            .iter()
            .position(|&differs| differs)
    });
    let Some(record) = number.and_then(|number| records.get(number)) else {
        println!("no record differs");
        return;
    };
    if !differing(command, std::slice::from_ref(record))[0] {
        println!("the record does not differ");
        return;
    }
    let plain = shrink(record.clone(), |records| differing(command, records));
    println!("from record {}", number.unwrap_or(0) + 1);
    println!("{plain:?}");
    println!("Rust  {}", record::line(1, &plain.answer()));
    let other = lines_of(command, std::slice::from_ref(&plain));
    println!(
        "other {}",
        other.first().map_or("(no line)", String::as_str)
    );
    let hex: String = plain
        .write()
        .iter()
        .map(|byte| format!("{byte:02x}"))
        .collect();
    println!("{hex}");
    std::process::exit(1);
}
