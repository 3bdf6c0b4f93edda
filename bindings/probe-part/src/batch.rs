//! Every part of a folder: its files, a summary, and a page.
use crate::corner::from_corner;
use crate::drawing::Drawing;
use crate::files::{write_all, FacePicture};
use crate::model::Report;
use crate::page::page;
use crate::recognise::Options;
use crate::summary::{csv, Line};
use crate::tables::Listing;
use crate::written::Written;
use probe_rays::Batch;
use std::ffi::OsStr;
use std::fs;
use std::path::{Path, PathBuf};

/// What became of a file.
pub enum Outcome {
    /// It was read, and these are its parts with the pictures of their faces, and the files that were written.
    Listed {
        /// What was recognised.
        report: Report,
        /// For each part those of its faces.
        pictures: Vec<Vec<FacePicture>>,
        /// Their names in the folder of results.
        files: Vec<String>,
    },
    /// A cast was refused: why.
    Refused(String),
    /// It cannot be read: why.
    Unread(String),
}

/// A file of the folder.
pub struct Entry {
    /// The part's name: the file's without its ending, where no other file has it.
    pub name: String,
    /// The file's name.
    pub file: String,
    /// What became of it.
    pub outcome: Outcome,
}

/// What is asked of a batch.
pub struct Job {
    /// Where the parts are.
    pub folder: PathBuf,
    /// Where the results go.
    pub out: PathBuf,
    /// What is asked of the recognition; a STEP file has its own unit.
    pub options: Options,
    /// Whether coordinates count from each part's least corner.
    pub from_corner: bool,
    /// Over how many threads; 0 stands for as many as the machine runs at once.
    pub threads: usize,
}

/// Does the job, and tells what became of each file, in the order of their names.
pub fn run(job: &Job) -> Result<Vec<Entry>, String> {
    let files = parts_of(&job.folder)?;
    if files.is_empty() {
        let folder = job.folder.display();
        return Err(format!("{folder}: no file ends in .stl, .step or .stp"));
    }
    let written = Written::in_folder(&job.out)?;
    let names = names(&files);
    let items: Vec<(PathBuf, String)> = files.into_iter().zip(names).collect();
    let batch = Batch::new().threads(job.threads).progress("parts");
    let outcomes = batch.run(&items, |(file, name), _| outcome(job, &written, file, name));
    let mut entries = Vec::new();
    for ((file, name), outcome) in items.into_iter().zip(outcomes) {
        let file = file
            .file_name()
            .unwrap_or_default()
            .to_string_lossy()
            .into_owned();
        entries.push(Entry {
            name,
            file,
            outcome: outcome?,
        });
    }
    let lines: Vec<Line> = entries.iter().flat_map(Line::of).collect();
    written.write("", "summary.csv", &csv(&lines))?;
    written.write("", "index.html", &page(&entries))?;
    written.finish(None)?;
    Ok(entries)
}

/// A file's ending, in small letters.
fn ending(file: &Path) -> String {
    let ending = file.extension().unwrap_or_default();
    ending.to_string_lossy().to_ascii_lowercase()
}

/// The STL and STEP files of a folder, in the order of their names.
fn parts_of(folder: &Path) -> Result<Vec<PathBuf>, String> {
    let fault = |why| format!("{}: {why}", folder.display());
    let mut files = Vec::new();
    for entry in fs::read_dir(folder).map_err(fault)? {
        let path = entry.map_err(fault)?.path();
        // a link to nothing has its own line, and so has what is no file
        if !path.is_dir() && ["stl", "step", "stp"].contains(&ending(&path).as_str()) {
            files.push(path);
        }
    }
    files.sort();
    Ok(files)
}

/// Files that a batch writes for all parts: no part is named so.
const TAKEN: [&str; 3] = ["summary", "index", "files"];

/// The name of a file's part where it is alone: the file's without its ending, or with it where a batch has such a file.
pub fn name_of(file: &Path) -> String {
    let words = |part: Option<&OsStr>| part.unwrap_or_default().to_string_lossy().into_owned();
    let stem = words(file.file_stem());
    if TAKEN.contains(&stem.to_lowercase().as_str()) {
        words(file.file_name())
    } else {
        stem
    }
}

/// A name for each file, such that no two parts have a file of one name: without its ending, with it where that would be
/// another one's, and with a number where that would be too.
fn names(files: &[PathBuf]) -> Vec<String> {
    let whole = |file: &PathBuf| {
        file.file_name()
            .unwrap_or_default()
            .to_string_lossy()
            .into_owned()
    };
    let mut names: Vec<String> = files.iter().map(|file| name_of(file)).collect();
    loop {
        let clashes = |place: usize| {
            let others = (0..names.len()).filter(|&other| other != place);
            others
                .into_iter()
                .any(|other| clash(&names[place], &names[other]))
        };
        let longer: Vec<usize> = (0..names.len())
            .filter(|&place| names[place] != whole(&files[place]) && clashes(place))
            .collect();
        if longer.is_empty() {
            break;
        }
        for place in longer {
            names[place] = whole(&files[place]);
        }
    }
    for place in 1..names.len() {
        let mut number = 2;
        let plain = names[place].clone();
        while (0..place).any(|other| clash(&names[place], &names[other])) {
            names[place] = format!("{plain}~{number}");
            number += 1;
        }
    }
    names
}

/// Whether parts of two names may have a file of one name: letters may be small or large, and the parts of a file that holds
/// several are numbered.
fn clash(one: &str, other: &str) -> bool {
    let (one, other) = (one.to_lowercase(), other.to_lowercase());
    let is_number = |rest: &str| !rest.is_empty() && rest.bytes().all(|byte| byte.is_ascii_digit());
    let numbers = |short: &str, long: &str| {
        let rest = long
            .strip_prefix(short)
            .and_then(|rest| rest.strip_prefix('-'));
        rest.is_some_and(is_number)
    };
    one == other || numbers(&one, &other) || numbers(&other, &one)
}

/// What becomes of a file; an error where a result cannot be written.
fn outcome(job: &Job, written: &Written, file: &Path, name: &str) -> Result<Outcome, String> {
    let drawing = match read(job, file) {
        Ok(drawing) => drawing,
        Err(why) => return Ok(Outcome::Unread(why)),
    };
    let refused = |why| Ok(Outcome::Refused(format!("a cast was {why}")));
    let report = match drawing.recognise(&job.options) {
        Ok(report) if job.from_corner => from_corner(&report),
        Ok(report) => report,
        Err(why) => return refused(why),
    };
    let pictures = match drawing.pictures(&report, name) {
        Ok(pictures) => pictures,
        Err(why) => return refused(why),
    };
    let listing = Listing {
        name: name.into(),
        ..Listing::default()
    };
    let files = write_all(written, name, &report, &listing, &pictures)?;
    Ok(Outcome::Listed {
        report,
        pictures,
        files,
    })
}

/// The parts of a file.
fn read(job: &Job, file: &Path) -> Result<Drawing, String> {
    match fs::metadata(file) {
        Ok(facts) if facts.is_file() => {}
        Ok(_) => return Err("this is not a file".into()),
        Err(_) if file.is_symlink() => return Err("a link to a file that is not there".into()),
        Err(why) => return Err(why.to_string()),
    }
    let path = file.to_str().ok_or("its name is not UTF-8")?;
    let read = Drawing::load(path, job.options.unit);
    read.map_err(|why| why.replacen(&format!("{path}: "), "", 1))
}
