//! Agreement of printed lines with the Rust's: numbers equal under IEEE 754, so that a zero agrees with a zero of either
//! sign, which the Rust leaves open; any two NaN agree.

use crate::answer::agree;

fn float(word: &str) -> Option<f64> {
    (word.len() == 16).then_some(())?;
    u64::from_str_radix(word, 16).ok().map(f64::from_bits)
}

fn words_agree(a: &str, b: &str) -> bool {
    match (float(a), float(b)) {
        (Some(a), Some(b)) => agree(a, b),
        _ => a == b,
    }
}

/// Whether two lines agree word by word; words of 16 hexadecimal digits are floats.
pub fn lines_agree(a: &str, b: &str) -> bool {
    let (a, b): (Vec<&str>, Vec<&str>) = (a.split(' ').collect(), b.split(' ').collect());
    a.len() == b.len() && a.iter().zip(&b).all(|(a, b)| words_agree(a, b))
}

/// The sort of answer on a line: `hit`, `none`, `bad`, or `refused` and the number.
pub fn sort_of(line: &str) -> String {
    let mut words = line.split(' ').skip(1);
    match (words.next(), words.next()) {
        (Some("refused"), Some(number)) => format!("refused {number}"),
        (Some(sort), _) => sort.to_owned(),
        (None, _) => String::new(),
    }
}
