//! The summary of a batch: a line for each part.
use crate::batch::{Entry, Outcome};
use crate::csv::quoted;
use crate::tables::{doubt_words, part_name};
use crate::words::fixed;

/// What is known of a part's list.
#[derive(Clone, Copy, Debug, PartialEq, Eq)]
pub enum Status {
    /// All of the surface is accounted for, and every row is confirmed.
    Complete,
    /// The list may be incomplete or wrong.
    Doubtful,
    /// A cast was refused: there is no list.
    Refused,
    /// The file cannot be read: there is no list.
    Unread,
}

impl Status {
    /// In words.
    pub fn words(self) -> &'static str {
        match self {
            Status::Complete => "complete",
            Status::Doubtful => "may be incomplete",
            Status::Refused => "refused",
            Status::Unread => "cannot be read",
        }
    }

    /// The exit status that it asks for.
    pub fn exit(self) -> u8 {
        match self {
            Status::Complete => 0,
            Status::Doubtful => 3,
            Status::Refused => 1,
            Status::Unread => 2,
        }
    }
}

/// A part, in one line.
#[derive(Clone, Debug, PartialEq)]
pub struct Line {
    /// Its name.
    pub part: String,
    /// The file's name.
    pub file: String,
    /// The sides of the box around it, if it was read.
    pub size: Option<[f64; 3]>,
    /// How many rows its list has.
    pub rows: usize,
    /// What is known of the list.
    pub status: Status,
    /// Why it is not complete.
    pub why: Vec<String>,
}

impl Line {
    /// The lines of a file: one for each of its parts.
    pub fn of(entry: &Entry) -> Vec<Line> {
        let unlisted = |status, why: &String| Line {
            part: entry.name.clone(),
            file: entry.file.clone(),
            size: None,
            rows: 0,
            status,
            why: vec![why.lines().next().unwrap_or_default().to_string()],
        };
        let report = match &entry.outcome {
            Outcome::Refused(why) => return vec![unlisted(Status::Refused, why)],
            Outcome::Unread(why) => return vec![unlisted(Status::Unread, why)],
            Outcome::Listed { report, .. } => report,
        };
        let lines = report.parts.iter().enumerate().map(|(number, part)| {
            let doubts = part.doubts.iter().chain(&report.doubts);
            let why: Vec<String> = doubts.map(doubt_words).collect();
            Line {
                part: part_name(report, &entry.name, number),
                file: entry.file.clone(),
                size: Some(part.size()),
                rows: part.rows.len(),
                status: if why.is_empty() {
                    Status::Complete
                } else {
                    Status::Doubtful
                },
                why,
            }
        });
        lines.collect()
    }

    /// The sides in words, such as '600.00 x 400.00 x 18.00'.
    pub fn size_words(&self) -> String {
        let words = |size: [f64; 3]| size.map(|side| fixed(side, 2)).join(" x ");
        self.size.map_or_else(String::new, words)
    }

    /// The line for people; one that needs a look begins with '!'.
    pub fn words(&self) -> String {
        let mark = if self.status == Status::Complete {
            ""
        } else {
            "! "
        };
        let mut words = vec![format!("{mark}{}: {}", self.part, self.status.words())];
        if self.size.is_some() {
            words.push(format!("{} mm", self.size_words()));
            let noun = if self.rows == 1 { "row" } else { "rows" };
            words.push(format!("{} {noun}", self.rows));
        }
        words.extend(self.why.iter().cloned());
        words.join(", ") + "\n"
    }
}

/// How many parts there are, and how many of each status.
pub fn counted(lines: &[Line]) -> String {
    let all = [
        Status::Complete,
        Status::Doubtful,
        Status::Refused,
        Status::Unread,
    ];
    let mut words = Vec::new();
    for status in all {
        let count = lines.iter().filter(|line| line.status == status).count();
        if count > 0 {
            words.push(format!("{count} {}", status.words()));
        }
    }
    format!("{} parts, {}", lines.len(), words.join(", "))
}

/// The lines for programs: commas, and a head line.
pub fn csv(lines: &[Line]) -> String {
    let mut text = String::from("part,file,size_x,size_y,size_z,rows,status,why\n");
    for line in lines {
        let side = |axis: usize| {
            line.size
                .map_or_else(String::new, |size| fixed(size[axis], 3))
        };
        let rows = line
            .size
            .map_or_else(String::new, |_| line.rows.to_string());
        let cells = [
            quoted(&line.part),
            quoted(&line.file),
            side(0),
            side(1),
            side(2),
            rows,
            line.status.words().into(),
            quoted(&line.why.join("; ")),
        ];
        text += &cells.join(",");
        text.push('\n');
    }
    text
}

/// The exit status of a batch: 2 where a file cannot be read, else 1 where a cast was refused, else 3 where a list may be
/// incomplete, else 0.
pub fn exit_status(lines: &[Line]) -> u8 {
    let of = |status: &Status| lines.iter().any(|line| line.status == *status);
    let worst = [Status::Unread, Status::Refused, Status::Doubtful];
    worst.into_iter().find(of).map_or(0, Status::exit)
}
