//! The program `probe` beside `oracle-probe` on one stored stream of records.

use crate::{clock, timing::Row};
use oracle::{agree, generate, record::Record};
use std::{
    fs::{self, File},
    path::{Path, PathBuf},
    process::{Command, Stdio},
};

/// Records in the stored stream, and how often it is repeated.
const RECORDS: usize = 5_000;
const REPEATED: usize = 20;

/// PROBE names our program; the Rust's stands beside this one.
fn programs() -> [PathBuf; 2] {
    let ours = std::env::var_os("PROBE").unwrap_or_else(|| "target/bin/probe".into());
    let rust = std::env::current_exe().expect("this program's path");
    [ours.into(), rust.with_file_name("oracle-probe")]
}

/// Some records, and then those of a generator.
fn stream(first: Vec<Record>, generate: fn(u64, u64, &[u8]) -> Record) -> Vec<u8> {
    let others = (first.len() as u64..).map(|number| generate(9, number, &[1, 2, 3, 4, 5]));
    // those that no request of document 02 leaves out of runs against the Rust
    let compared = first
        .into_iter()
        .chain(others)
        .filter(|record| record.left_out().is_none());
    compared
        .take(RECORDS)
        .flat_map(|record| record.write())
        .collect()
}

/// The Rust's program answers every record; ours takes no option.
fn command(program: &Path) -> Command {
    let mut command = Command::new(program);
    if program.ends_with("oracle-probe") {
        command.arg("--every");
    }
    command
}

fn lines(program: &Path, input: &Path) -> String {
    let output = command(program)
        .stdin(File::open(input).expect("records"))
        .output()
        .unwrap_or_else(|error| panic!("{}: {error}", program.display()));
    assert!(output.status.success(), "{} failed", program.display());
    String::from_utf8(output.stdout).expect("text")
}

fn run(program: &Path, input: &Path) {
    let status = command(program)
        .stdin(File::open(input).expect("records"))
        .stdout(Stdio::null())
        .status()
        .expect("a program that ran before");
    assert!(status.success());
}

fn compare(name: &str, programs: &[PathBuf; 2], file: &Path) {
    let [ours, rust] = [0, 1].map(|side| lines(&programs[side], file));
    assert_eq!(ours.lines().count(), rust.lines().count(), "{name}");
    for (a, b) in ours.lines().zip(rust.lines()) {
        assert!(
            agree::lines_agree(a, b),
            "{name}: {a} here, {b} from the Rust"
        );
    }
}

/// Records of version 1.
pub fn row(name: &str) -> Row {
    row_of(name, stream(generate::marked(), generate::record))
}

/// Records of version 3.
pub fn short_row(name: &str) -> Row {
    row_of(name, stream(Vec::new(), generate::short))
}

fn row_of(name: &str, stream: Vec<u8>) -> Row {
    let process = std::process::id();
    let file = std::env::temp_dir().join(format!("bench-{process}-{}.records", stream.len()));
    let programs = programs();
    fs::write(&file, stream.repeat(REPEATED)).expect("a file for the records");
    compare(name, &programs, &file);
    let [ours, rust] = programs;
    let kept = Kept(file.clone());
    Row {
        name: name.to_owned(),
        units: (RECORDS * REPEATED) as f64,
        clock: clock::children,
        ours: Box::new(move || run(&ours, &kept.0)),
        rust: Some(Box::new(move || run(&rust, &file))),
    }
}

/// A file that goes when its row does.
struct Kept(PathBuf);

impl Drop for Kept {
    fn drop(&mut self) {
        let _ = fs::remove_file(&self.0);
    }
}
