//! What was compared, what was left out and why, and what differed.

use probe_rays::sys;
use std::collections::BTreeMap;

type Counts<K> = BTreeMap<K, u64>;

#[derive(Clone, Debug)]
pub struct Difference {
    /// Which call, on what.
    pub call: &'static str,
    pub context: &'static str,
    pub text: String,
    pub input: String,
}

#[derive(Default)]
pub struct Log {
    /// The call under comparison and where its tree comes from.
    pub context: &'static str,
    pub verbose: bool,
    /// The number that the last call answered.
    pub last: u32,
    pub differences: Vec<Difference>,
    answers: Counts<(&'static str, u32)>,
    compared: Counts<(&'static str, &'static str)>,
    left_out: Counts<(&'static str, &'static str)>,
    verdicts: Counts<(&'static str, u32)>,
    other: Counts<&'static str>,
}

/// The number that a call answers, in words.
pub fn in_words(number: u32) -> String {
    match number {
        sys::HIT => "hit".to_owned(),
        sys::NONE => "none".to_owned(),
        sys::YES => "yes".to_owned(),
        sys::NO => "no".to_owned(),
        sys::DONE => "done".to_owned(),
        sys::CLEAR => "clear".to_owned(),
        sys::POSSIBLE => "possible".to_owned(),
        1..256 => format!("refused {number}"),
        _ => format!("the unknown number {number}"),
    }
}

/// The numbers answered and how often, in words.
fn listed(answers: &Counts<(&'static str, u32)>, what: &str) -> String {
    let answers: Vec<String> = answers
        .iter()
        .filter(|((of, _), _)| *of == what)
        .map(|((_, number), count)| format!("{} {count}", in_words(*number)))
        .collect();
    answers.join(", ")
}

impl Log {
    pub fn answered(&mut self, call: &'static str, number: u32) {
        self.last = number;
        *self.answers.entry((call, number)).or_default() += 1;
        if self.verbose {
            println!("{call}, {}: {}", self.context, in_words(number));
        }
    }

    /// One answer was held against another: the model's, the Rust's, or demand 3's.
    pub fn compared(&mut self, call: &'static str, with: &'static str) {
        *self.compared.entry((call, with)).or_default() += 1;
    }

    pub fn left_out(&mut self, call: &'static str, reason: &'static str) {
        *self.left_out.entry((call, reason)).or_default() += 1;
        if self.verbose {
            println!("  left out: {reason}");
        }
    }

    /// The check's answer about a damaged tree.
    pub fn verdict(&mut self, damage: &'static str, number: u32) {
        *self.verdicts.entry((damage, number)).or_default() += 1;
    }

    pub fn count(&mut self, what: &'static str) {
        *self.other.entry(what).or_default() += 1;
    }

    pub fn counted(&self, what: &'static str) -> u64 {
        self.other.get(what).copied().unwrap_or_default()
    }

    /// How many calls of the library were compared.
    pub fn calls(&self) -> u64 {
        self.answers.values().sum()
    }

    pub fn differs(&mut self, call: &'static str, text: String, input: String) {
        if self.verbose {
            println!("  DIFFERS: {text}");
        }
        self.differences.push(Difference {
            call,
            context: self.context,
            text,
            input,
        });
    }

    pub fn print(&self) {
        let mut calls: Vec<&str> = self.answers.keys().map(|(call, _)| *call).collect();
        calls.dedup();
        for call in calls {
            println!("{call}: {}", listed(&self.answers, call));
            for ((of, with), count) in &self.compared {
                if *of == call {
                    println!("  compared with {with}: {count}");
                }
            }
            for ((of, reason), count) in &self.left_out {
                if *of == call {
                    println!("  left out, {reason}: {count}");
                }
            }
        }
        if !self.verdicts.is_empty() {
            println!("the check's answers about damaged trees:");
        }
        let mut damages: Vec<&str> = self.verdicts.keys().map(|(damage, _)| *damage).collect();
        damages.dedup();
        for damage in damages {
            println!("  {damage}: {}", listed(&self.verdicts, damage));
        }
        for (what, count) in &self.other {
            println!("{what}: {count}");
        }
    }
}
