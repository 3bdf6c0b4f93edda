//! The list of the files that runs wrote into a folder. By it a later run removes what it does not write again, and nothing
//! else.
use crate::csv::quoted;
use std::collections::HashSet;
use std::fs::{self, OpenOptions};
use std::io::{ErrorKind, Write};
use std::path::{Path, PathBuf};
use std::sync::Mutex;

/// The list's name: a line for each file, with the part that it belongs to.
pub const LIST: &str = "files.csv";

/// The head of the list.
const HEAD: &str = "part,file\n";

/// Only files with these endings are ever removed: no run writes others.
const ENDINGS: [&str; 6] = ["txt", "csv", "json", "dxf", "svg", "html"];

/// A file of the list: its part, and its name in the folder.
type Line = (String, String);

/// What runs wrote into a folder: those before, and this one.
pub struct Written {
    folder: PathBuf,
    before: Vec<Line>,
    now: Mutex<Vec<Line>>,
}

impl Written {
    /// A folder, made if it is not there, with the list that lies in it.
    pub fn in_folder(folder: &Path) -> Result<Written, String> {
        let fault = |path: &Path, why: std::io::Error| format!("{}: {why}", path.display());
        fs::create_dir_all(folder).map_err(|why| fault(folder, why))?;
        let list = folder.join(LIST);
        let text = match fs::read_to_string(&list) {
            Ok(text) => text,
            Err(why) if why.kind() == ErrorKind::NotFound => String::new(),
            Err(why) => return Err(fault(&list, why)),
        };
        Ok(Written {
            folder: folder.into(),
            before: lines(&text),
            now: Mutex::new(Vec::new()),
        })
    }

    /// Writes a file of a part. Its name is in the list before the file is there, so that a run that is interrupted leaves
    /// none that the list does not have. A file that another part of this run has written is not overwritten.
    pub fn write(&self, part: &str, file: &str, text: &str) -> Result<(), String> {
        let path = self.folder.join(file);
        let fault = |why: std::io::Error| format!("{}: {why}", path.display());
        {
            // a thread that failed has left the list as it was
            let mut now = self
                .now
                .lock()
                .unwrap_or_else(|poisoned| poisoned.into_inner());
            if now.iter().any(|known| known.1 == file) {
                return Err(format!("{}: two parts have this file", path.display()));
            }
            self.append(part, file).map_err(fault)?;
            now.push((part.into(), file.into()));
        }
        fs::write(&path, text).map_err(fault)
    }

    fn append(&self, part: &str, file: &str) -> std::io::Result<()> {
        let path = self.folder.join(LIST);
        let mut list = OpenOptions::new().create(true).append(true).open(path)?;
        if list.metadata()?.len() == 0 {
            list.write_all(HEAD.as_bytes())?;
        }
        list.write_all(line(part, file).as_bytes())
    }

    /// Removes what runs before this one wrote and this one did not, of one part or of all, and leaves the list of what is
    /// there.
    pub fn finish(self, only: Option<&str>) -> Result<(), String> {
        let now = self
            .now
            .into_inner()
            .unwrap_or_else(|poisoned| poisoned.into_inner());
        let files: HashSet<&str> = now.iter().map(|known| known.1.as_str()).collect();
        let mut text = String::from(HEAD);
        for (part, file) in &self.before {
            if files.contains(file.as_str()) {
                continue;
            }
            if only.is_some_and(|name| name != part) {
                text += &line(part, file);
            } else {
                removed(&self.folder, file)?;
            }
        }
        for (part, file) in &now {
            text += &line(part, file);
        }
        let list = self.folder.join(LIST);
        fs::write(&list, text).map_err(|why| format!("{}: {why}", list.display()))
    }
}

fn line(part: &str, file: &str) -> String {
    format!("{},{}\n", quoted(part), quoted(file))
}

/// The files of a list, each once.
fn lines(text: &str) -> Vec<Line> {
    let mut seen = HashSet::new();
    let mut all = Vec::new();
    for cells in records(text).into_iter().skip(1) {
        if let [part, file] = cells.as_slice() {
            if seen.insert(file.clone()) {
                all.push((part.clone(), file.clone()));
            }
        }
    }
    all
}

/// The records of a text of commas: fields in quotes may hold commas, quotes and lines.
fn records(text: &str) -> Vec<Vec<String>> {
    let (mut all, mut cells, mut cell) = (Vec::new(), Vec::new(), String::new());
    let (mut is_quoted, mut letters) = (false, text.chars().peekable());
    while let Some(letter) = letters.next() {
        match letter {
            '"' if is_quoted && letters.peek() == Some(&'"') => {
                letters.next();
                cell.push('"');
            }
            '"' => is_quoted = !is_quoted,
            ',' if !is_quoted => cells.push(std::mem::take(&mut cell)),
            '\n' if !is_quoted => {
                cells.push(std::mem::take(&mut cell));
                all.push(std::mem::take(&mut cells));
            }
            other => cell.push(other),
        }
    }
    all
}

/// Removes a file of a folder that a run wrote. What is no plain name of such a file is left alone.
fn removed(folder: &Path, file: &str) -> Result<(), String> {
    let is_plain = Path::new(file).file_name().is_some_and(|name| name == file);
    let ending = Path::new(file)
        .extension()
        .and_then(|ending| ending.to_str());
    if !is_plain || !ending.is_some_and(|ending| ENDINGS.contains(&ending)) {
        return Ok(());
    }
    let path = folder.join(file);
    match fs::remove_file(&path) {
        Err(why) if why.kind() != ErrorKind::NotFound => Err(format!("{}: {why}", path.display())),
        _ => Ok(()),
    }
}

#[cfg(test)]
mod tests {
    use super::{line, lines};

    /// Names with commas, quotes and lines stand in the list as they are.
    #[test]
    fn names_are_read_back() {
        let names = ["board", "a, b", "the \"large\" one", "two\nlines"];
        let text: String = names
            .iter()
            .map(|name| line(name, &format!("{name}.csv")))
            .collect();
        let read = lines(&format!("part,file\n{text}{text}"));
        let parts: Vec<&str> = read.iter().map(|known| known.0.as_str()).collect();
        assert_eq!(parts, names);
        assert_eq!(read[1].1, "a, b.csv");
    }
}
