//! Reads `probe` records from standard input and prints the Rust's answers, or why a
//! record is left out of runs against the Rust; with `--plain` the answers of the plain
//! model, which tell the sign of every zero, and with `--every` the Rust's answers to
//! every record, left out or not.
//! With `--constructed`, standard error says what the Rust's constructors make of
//! the shapes and rays that document 01 admits.

use oracle::{
    answer::{Answer, Constructed, ray_constructed},
    plain,
    record::{self, Record},
};
use std::io::{BufWriter, Read, Write};

fn main() {
    let (answer, every, counting): (fn(&Record) -> Answer, bool, bool) =
        match std::env::args().skip(1).collect::<Vec<_>>().as_slice() {
            [] => (Record::answer, false, false),
            [option] if option == "--plain" => (plain::answer, true, false),
            [option] if option == "--every" => (Record::answer, true, false),
            [option] if option == "--constructed" => (Record::answer, false, true),
            _ => {
                eprintln!("usage: oracle-probe [--plain | --every | --constructed] < RECORDS");
                std::process::exit(2);
            }
        };
    let mut input = Vec::new();
    std::io::stdin()
        .read_to_end(&mut input)
        .expect("standard input");
    let mut out = BufWriter::new(std::io::stdout().lock());
    let mut tally = [[[0u64; 3]; 2]; 6];
    record::probe_by(answer, &input, |line, record| {
        let left_out = record.filter(|_| !every).and_then(Record::left_out);
        let line = match (left_out, line.split_once(' ')) {
            (Some(reason), Some((number, _))) => format!("{number} left out, {reason}"),
            _ => line.to_owned(),
        };
        writeln!(out, "{line}").expect("standard output");
        if let Some(record) = record.filter(|_| counting)
            && !matches!(record.answer(), Answer::Refused(1 | 2))
        {
            let of_kind = &mut tally[record.shape.kind() as usize];
            of_kind[0][record.shape.constructed() as usize] += 1;
            of_kind[1][ray_constructed(&record.ray) as usize] += 1;
        }
    });
    out.flush().expect("standard output");
    if counting {
        for (kind, of_kind) in tally.iter().enumerate().skip(1) {
            for (what, counts) in ["shape", "ray"].iter().zip(of_kind) {
                eprintln!(
                    "kind {kind} {what}: {} kept, {} changed, {} refused by the Rust's constructor",
                    counts[Constructed::Kept as usize],
                    counts[Constructed::Changed as usize],
                    counts[Constructed::Refused as usize]
                );
            }
        }
    }
}
