//! The page of a batch: the summary, and for each part the pictures of its faces beside its list. It needs no server and
//! no other file; what is not understood is red.
use crate::batch::{Entry, Outcome};
use crate::files::FacePicture;
use crate::model::{End, Part, Row};
use crate::summary::{Line, Status};
use crate::svg::escaped;
use crate::tables::{depth_words, kind_word, left_over_words, notes, outline_word, size_words};
use crate::words::fixed;

const STYLE: &str = include_str!("page.css");

/// The page of a batch's files.
pub fn page(entries: &[Entry]) -> String {
    let lines: Vec<Vec<Line>> = entries.iter().map(Line::of).collect();
    let all: Vec<&Line> = lines.iter().flatten().collect();
    let look = all
        .iter()
        .filter(|line| line.status != Status::Complete)
        .count();
    let mut out = format!(
        "<!DOCTYPE html>\n<html lang=\"en\">\n<head>\n<meta charset=\"utf-8\">\n\
         <meta name=\"viewport\" content=\"width=device-width, initial-scale=1\">\n\
         <title>{look} of {} parts to look at</title>\n<style>\n{STYLE}</style>\n</head>\n<body>\n<main>\n",
        all.len()
    );
    out += &counts(&all, look);
    out += &summary(&all);
    // first what needs a look, as in the summary
    for complete in [false, true] {
        for (entry, lines) in entries.iter().zip(&lines) {
            for (number, line) in lines.iter().enumerate() {
                if (line.status == Status::Complete) == complete {
                    out += &card(entry, number, line);
                }
            }
        }
    }
    out += "<footer>Lengths in millimetres, in each part's own frame. The casts are proved. What is recognised, and \
            the pictures, are tested but not proved.</footer>\n</main>\n</body>\n</html>\n";
    out
}

fn counts(lines: &[&Line], look: usize) -> String {
    let headline = match look {
        0 => "Every list is complete".to_string(),
        1 => "1 part needs a look".to_string(),
        _ => format!("{look} parts need a look"),
    };
    let mut out = format!("<h1>{headline}</h1>\n<div class=\"counts\">\n");
    let all = [
        Status::Complete,
        Status::Doubtful,
        Status::Refused,
        Status::Unread,
    ];
    for status in all {
        let count = lines.iter().filter(|line| line.status == status).count();
        if count == 0 && status != Status::Complete {
            continue;
        }
        let class = if status == Status::Complete {
            ""
        } else {
            " look"
        };
        out += &format!(
            "<div class=\"count{class}\"><b>{count}</b>{}</div>\n",
            status.words()
        );
    }
    out + "</div>\n"
}

/// The summary: first what needs a look.
fn summary(lines: &[&Line]) -> String {
    let mut out = String::from(
        "<div class=\"card summary\">\n<table>\n<tr><th>status</th><th>part</th><th class=\"n\">size</th>\
         <th class=\"n\">rows</th><th>what to look at</th></tr>\n",
    );
    let mut sorted = lines.to_vec();
    sorted.sort_by_key(|line| line.status == Status::Complete);
    for line in sorted {
        let (row, badge) = class(line.status);
        let rows = line
            .size
            .map_or_else(String::new, |_| line.rows.to_string());
        out += &format!(
            "<tr{row}><td><span class=\"badge {badge}\">{}</span></td><td><a href=\"#{}\">{}</a></td>\
             <td class=\"n\">{}</td><td class=\"n\">{rows}</td><td class=\"note\">{}</td></tr>\n",
            line.status.words(),
            anchor(&line.part),
            escaped(&line.part),
            line.size_words(),
            escaped(&line.why.join("; ")),
        );
    }
    out + "</table>\n</div>\n"
}

fn class(status: Status) -> (&'static str, &'static str) {
    if status == Status::Complete {
        ("", "complete")
    } else {
        (" class=\"look\"", "bad")
    }
}

/// A part's name as a place in the page: its bytes that are no letters and digits in numbers.
fn anchor(name: &str) -> String {
    let mut text = String::from("part-");
    for byte in name.bytes() {
        if byte.is_ascii_alphanumeric() || byte == b'-' {
            text.push(byte.into());
        } else {
            text += &format!("_{byte:02x}");
        }
    }
    text
}

fn card(entry: &Entry, number: usize, line: &Line) -> String {
    let (row, badge) = class(line.status);
    let look = if row.is_empty() { "" } else { " look" };
    let mut out = format!(
        "<section class=\"card{look}\" id=\"{}\">\n<div class=\"head\"><h2>{}</h2>\
         <span class=\"badge {badge}\">{}</span>",
        anchor(&line.part),
        escaped(&line.part),
        line.status.words()
    );
    if line.size.is_some() {
        out += &format!("<span class=\"size\">{} mm</span>", line.size_words());
    }
    let Outcome::Listed {
        report,
        pictures,
        files,
    } = &entry.outcome
    else {
        return out + "</div>\n" + &reasons(&line.why) + "</section>\n";
    };
    let part = &report.parts[number];
    out += &format!("{}</div>\n", links(entry, files));
    let mut why = line.why.clone();
    why.extend(
        part.left_over
            .iter()
            .map(|rest| left_over_words(rest, [0.0; 3])),
    );
    out += &reasons(&why);
    out += "<div class=\"both\">\n<div class=\"faces\">\n";
    for picture in &pictures[number] {
        out += &figure(picture);
    }
    out += "</div>\n<div class=\"rows\">\n";
    out += &list(part);
    out + "</div>\n</div>\n</section>\n"
}

fn reasons(why: &[String]) -> String {
    if why.is_empty() {
        return String::new();
    }
    let items = why.iter().map(|why| format!("<li>{}</li>", escaped(why)));
    format!("<ul class=\"why\">{}</ul>\n", items.collect::<String>())
}

/// Links to the lists, in the same folder.
fn links(entry: &Entry, files: &[String]) -> String {
    let lists = ["txt", "csv", "json"].map(|ending| (format!("{}.{ending}", entry.name), ending));
    let links: Vec<String> = lists
        .iter()
        .filter(|(file, _)| files.contains(file))
        .map(|(file, ending)| format!("<a href=\"{}\">{ending}</a>", escaped(&encoded(file))))
        .collect();
    format!(
        "<span class=\"files\">{} · {}</span>",
        escaped(&entry.file),
        links.join(" · ")
    )
}

/// A file's name as a link takes it.
fn encoded(file: &str) -> String {
    let mut text = String::new();
    for byte in file.bytes() {
        if byte.is_ascii_alphanumeric() || b"-._~".contains(&byte) {
            text.push(byte.into());
        } else {
            text += &format!("%{byte:02X}");
        }
    }
    text
}

fn figure(picture: &FacePicture) -> String {
    let class = if picture.is_narrow {
        " class=\"narrow\""
    } else {
        ""
    };
    format!(
        "<figure{class}><figcaption>{}</figcaption>\n{}</figure>\n",
        escaped(&picture.face),
        picture.on_page
    )
}

fn list(part: &Part) -> String {
    if part.rows.is_empty() {
        return "<p>no bores or pockets</p>\n".into();
    }
    let mut out = String::from(
        "<table>\n<tr><th class=\"n\">no</th><th>face</th><th>kind</th><th>outline</th>",
    );
    for head in ["size", "entry", "depth", "x", "y", "z"] {
        out += &format!("<th class=\"n\">{head}</th>");
    }
    out += "<th></th></tr>\n";
    for (place, row) in part.rows.iter().enumerate() {
        out += &listed(part, place, row);
    }
    out + "</table>\n"
}

fn listed(part: &Part, place: usize, row: &Row) -> String {
    let look = !row.is_confirmed() || row.end == End::Unknown;
    let face = row.face.map_or("-", |face| part.faces[face].name.as_str());
    let words = [face, kind_word(row.kind), outline_word(&row.outline)];
    let mut cells = vec![
        size_words(&row.outline),
        fixed(row.entry_depth, 2),
        depth_words(row),
    ];
    cells.extend(row.centre.map(|part| fixed(part, 2)));
    let words: String = words
        .iter()
        .map(|word| format!("<td>{}</td>", escaped(word)))
        .collect();
    let cells: String = cells
        .iter()
        .map(|cell| format!("<td class=\"n\">{cell}</td>"))
        .collect();
    format!(
        "<tr{}><td class=\"n\">{}</td>{words}{cells}<td class=\"note\">{}</td></tr>\n",
        if look { " class=\"look\"" } else { "" },
        place + 1,
        escaped(&notes(part, row))
    )
}
