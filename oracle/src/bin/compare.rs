//! Compares two files of lines under the agreement of runs against the Rust: prints the first
//! differences and the counts by sort of answer; exit code 1 if any line differs. A line
//! of the second file that is left out is counted with its reason and not compared.

use oracle::agree::{lines_agree, sort_of};
use std::collections::BTreeMap;

const SHOWN: usize = 10;
const LEFT_OUT: &str = " left out, ";

fn lines(path: &str) -> Vec<String> {
    let text = std::fs::read_to_string(path).unwrap_or_else(|error| {
        eprintln!("{path}: {error}");
        std::process::exit(2);
    });
    text.lines().map(str::to_owned).collect()
}

fn main() {
    let arguments: Vec<String> = std::env::args().skip(1).collect();
    let [first, second] = arguments.as_slice() else {
        eprintln!("usage: compare LINES-A LINES-B");
        std::process::exit(2);
    };
    let (a, b) = (lines(first), lines(second));
    let mut sorts: BTreeMap<String, [u64; 2]> = BTreeMap::new();
    let mut left_out: BTreeMap<String, u64> = BTreeMap::new();
    let mut different = 0;
    for number in 0..a.len().max(b.len()) {
        let line = |lines: &[String]| lines.get(number).cloned();
        let (a, b) = (line(&a), line(&b));
        if let (Some(_), Some((_, reason))) = (&a, b.as_ref().and_then(|b| b.split_once(LEFT_OUT)))
        {
            *left_out.entry(reason.to_owned()).or_default() += 1;
            continue;
        }
        let same = matches!((&a, &b), (Some(a), Some(b)) if lines_agree(a, b));
        let shown = [a, b].map(|line| line.unwrap_or("(no line)".to_owned()));
        let counts = sorts.entry(sort_of(&shown[0])).or_default();
        counts[usize::from(!same)] += 1;
        different += u64::from(!same);
        if !same && different <= SHOWN as u64 {
            println!("record {}:\n  A {}\n  B {}", number + 1, shown[0], shown[1]);
        }
    }
    for (sort, [same, other]) in sorts {
        println!("{sort}: {same} agree, {other} differ");
    }
    for (reason, count) in left_out {
        println!("left out, {reason}: {count}");
    }
    println!("{} lines, {different} differ", a.len().max(b.len()));
    std::process::exit(i32::from(different > 0));
}
