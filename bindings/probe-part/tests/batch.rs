//! A folder in one command: the statuses, the summary, and the page.
mod board;

use board::{binary, board as made, Cut, Side};
use std::path::PathBuf;
use std::process::Command;
use std::{env, fs};

/// A folder that is gone at the end of the test.
struct Folder(PathBuf);

impl Folder {
    fn new(name: &str) -> Folder {
        let path = env::temp_dir().join(format!("probe-part-batch-{name}-{}", std::process::id()));
        fs::create_dir_all(path.join("parts")).unwrap();
        Folder(path)
    }

    fn part(&self, name: &str, bytes: &[u8]) {
        fs::write(self.0.join("parts").join(name), bytes).unwrap();
    }

    fn read(&self, name: &str) -> String {
        fs::read_to_string(self.0.join("out").join(name)).unwrap()
    }

    /// Exit status, standard output and standard error.
    fn batch(&self, words: &[&str]) -> (i32, String, String) {
        let temporary = self.0.join("temporary");
        fs::create_dir_all(&temporary).unwrap();
        let output = Command::new(env!("CARGO_BIN_EXE_probe-part"))
            .env("TMPDIR", &temporary)
            .arg("batch")
            .arg(self.0.join("parts"))
            .arg("--out")
            .arg(self.0.join("out"))
            .args(words)
            .output()
            .unwrap();
        let left = fs::read_dir(&temporary).unwrap().count();
        assert_eq!(left, 0, "files on the way were left");
        let text = |bytes: Vec<u8>| String::from_utf8(bytes).unwrap();
        (
            output.status.code().unwrap(),
            text(output.stdout),
            text(output.stderr),
        )
    }
}

impl Drop for Folder {
    fn drop(&mut self) {
        let _ = fs::remove_dir_all(&self.0);
    }
}

/// A board with a bore of 8, 12 deep, right of the middle.
fn good() -> Vec<u8> {
    binary(&made(
        [300.0, 200.0, 18.0],
        &[Cut::bore(Side::Top, [220.0, 60.0], 8.0, 12.0)],
    ))
}

/// A board whose upper face has a dent of four slanted sides, which is no bore or pocket.
fn dented() -> Vec<u8> {
    let [x, y, z] = [300.0, 200.0, 18.0];
    let mut facets = made(
        [x, y, z],
        &[Cut::new(
            Side::Top,
            board::rectangle([100.0, 100.0], [60.0, 40.0]),
            [100.0, 100.0],
            9.0,
        )],
    );
    // the floor's corners move to its middle: the walls become the sides of a pyramid
    for corner in facets.as_flattened_mut() {
        if corner[2] == z - 9.0 {
            *corner = [100.0, 100.0, z - 9.0];
        }
    }
    binary(&facets)
}

#[test]
fn a_good_one_one_that_is_not_understood_and_a_broken_one() {
    let folder = Folder::new("three");
    folder.part("good.stl", &good());
    folder.part("dented.STL", &dented());
    let bytes = good();
    folder.part("broken.stl", &bytes[..bytes.len() - 7]);
    folder.part("notes.txt", b"no part");
    let (status, out, err) = folder.batch(&[]);
    assert_eq!((status, err.as_str()), (2, ""));
    let lines: Vec<&str> = out.lines().collect();
    assert_eq!(lines.len(), 4, "{out}");
    assert!(
        lines[0].starts_with("! broken: cannot be read, cut short: a binary file of "),
        "{out}"
    );
    assert!(
        lines[1].starts_with("! dented: may be incomplete, 300.00 x 200.00 x 18.00 mm, 0 rows, "),
        "{out}"
    );
    assert_eq!(
        lines[2],
        "good: complete, 300.00 x 200.00 x 18.00 mm, 1 row"
    );
    assert!(
        lines[3]
            .ends_with("index.html: 3 parts, 1 complete, 1 may be incomplete, 1 cannot be read"),
        "{out}"
    );
    let summary = folder.read("summary.csv");
    let summary: Vec<&str> = summary.lines().collect();
    assert_eq!(summary[0], "part,file,size_x,size_y,size_z,rows,status,why");
    assert!(
        summary[1].starts_with("broken,broken.stl,,,,,cannot be read,"),
        "{summary:?}"
    );
    assert!(
        summary[2].starts_with("dented,dented.STL,300.000,200.000,18.000,0,may be incomplete,"),
        "{summary:?}"
    );
    assert_eq!(
        summary[3],
        "good,good.stl,300.000,200.000,18.000,1,complete,"
    );
    assert!(folder
        .read("good.csv")
        .lines()
        .nth(1)
        .unwrap()
        .starts_with("good,1,1,top,bore,circle,8.000,"));
    for name in [
        "good.txt",
        "good.json",
        "good-top.dxf",
        "good-top.svg",
        "dented.json",
    ] {
        assert!(!folder.read(name).is_empty(), "{name}");
    }
    assert!(!folder.0.join("out/broken.csv").exists());
}

#[test]
fn the_page_names_every_part_and_marks_what_needs_a_look() {
    let folder = Folder::new("page");
    folder.part("good.stl", &good());
    folder.part("dented & more.stl", &dented());
    let (status, ..) = folder.batch(&["--threads", "1"]);
    assert_eq!(status, 3);
    let page = folder.read("index.html");
    assert!(page.contains("<h1>1 part needs a look</h1>"));
    assert!(page.contains("<h2>dented &amp; more</h2>") && page.contains("<h2>good</h2>"));
    // what needs a look stands first, and its face has a red box
    let [look, fine] = ["<h2>dented", "<h2>good"].map(|words| page.find(words).unwrap());
    assert!(look < fine);
    let red = "fill=\"#d00000\" fill-opacity=\"0.25\"";
    let boxes = |card: &str| -> usize {
        let after = |part: &str| part.split("</g>").next().unwrap().matches("<rect").count();
        card.split(red).skip(1).map(after).sum()
    };
    assert!(boxes(&page[look..fine]) >= 1);
    assert_eq!(boxes(&page[fine..]), 0);
    assert_eq!(page.matches("<section class=\"card look\"").count(), 1);
    // nothing is fetched from elsewhere, and nothing runs
    for word in ["http-equiv", "<script", "<link", "src=", "url(", "@import"] {
        assert!(!page.contains(word), "{word}");
    }
    assert!(!page
        .replace("http://www.w3.org/2000/svg", "")
        .contains("http"));
}

#[test]
fn all_complete_is_0() {
    let folder = Folder::new("complete");
    folder.part("one.stl", &good());
    folder.part("two.stl", &good());
    let (status, out, err) = folder.batch(&["--threads", "2", "--from-corner"]);
    assert_eq!((status, err.as_str()), (0, ""), "{out}");
    assert!(folder
        .read("index.html")
        .contains("<h1>Every list is complete</h1>"));
}

/// Of a STEP file that is none it is said so, or that probe-step, which reads it, is not installed; the other file is done.
#[test]
fn a_step_file_that_is_none() {
    let folder = Folder::new("step");
    folder.part("part.step", b"ISO-10303-21;\nnothing\n");
    folder.part("part.stl", &good());
    let (status, out, _) = folder.batch(&[]);
    assert_eq!(status, 2);
    assert!(out.contains("! part.step: cannot be read, "), "{out}");
    assert!(out.contains("gmsh"), "{out}");
    assert!(out.contains("OpenCASCADE"), "{out}");
    assert!(out.contains("part.stl: complete, "), "{out}");
}

#[test]
fn calls_that_are_not_right() {
    let folder = Folder::new("calls");
    let (status, _, err) = folder.batch(&[]);
    assert_eq!(status, 2);
    assert!(err.contains("no file ends in .stl, .step or .stp"), "{err}");
    for (words, said) in [
        (
            &["--threads", "0"][..],
            "--threads takes a number above 0, not \"0\"",
        ),
        (&["--unit", "ft"], "--unit takes mm, cm, m or in"),
        (&["more"], "unexpected argument \"more\""),
    ] {
        let (status, _, err) = folder.batch(words);
        assert_eq!(status, 2);
        assert!(err.contains(said), "{err}");
    }
    let output = Command::new(env!("CARGO_BIN_EXE_probe-part"))
        .args(["batch", "/no/such"])
        .output()
        .unwrap();
    assert_eq!(output.status.code(), Some(2));
    assert!(String::from_utf8_lossy(&output.stderr).contains("--out DIR is required"));
}

/// A board of a length, with a bore of 8 in each of some faces.
fn board_of(long: f64, sides: &[Side]) -> Vec<u8> {
    let cut = |&side: &Side| {
        let middle = match side {
            Side::Top | Side::Bottom => [50.0, 60.0],
            _ => [60.0, 9.0],
        };
        Cut::bore(side, middle, 8.0, 7.0)
    };
    let cuts: Vec<Cut> = sides.iter().map(cut).collect();
    binary(&made([long, 200.0, 18.0], &cuts))
}

/// The names of a folder's files.
fn names(folder: &Folder) -> Vec<String> {
    let entries = fs::read_dir(folder.0.join("out")).unwrap();
    let name = |entry: fs::DirEntry| entry.file_name().into_string().unwrap();
    let mut names: Vec<String> = entries.map(|entry| name(entry.unwrap())).collect();
    names.sort();
    names
}

/// The files of parts with the faces that have rows, and those of every batch; and some that are no batch's.
fn expected(parts: &[(&str, &[&str])], more: &[&str]) -> Vec<String> {
    let mut names: Vec<String> = more.iter().map(|name| name.to_string()).collect();
    for (part, faces) in parts {
        names.extend(["txt", "csv", "json"].map(|ending| format!("{part}.{ending}")));
        for face in *faces {
            names.extend(["dxf", "svg"].map(|ending| format!("{part}-{face}.{ending}")));
        }
    }
    names.extend(["summary.csv", "index.html", "files.csv"].map(String::from));
    names.sort();
    names
}

/// A later run leaves its own files and those that no run wrote: an old revision's drawing is gone, and so is a part that is
/// not there or cannot be read any more.
#[test]
fn a_folder_that_has_files() {
    let folder = Folder::new("again");
    folder.part("door.stl", &board_of(300.0, &[Side::Top, Side::Left]));
    folder.part("shelf.stl", &board_of(400.0, &[Side::Top]));
    folder.part("plinth.stl", &board_of(500.0, &[Side::Bottom]));
    assert_eq!(folder.batch(&[]).0, 0);
    let first: [(&str, &[&str]); 3] = [
        ("door", &["top", "left"]),
        ("shelf", &["top"]),
        ("plinth", &["bottom"]),
    ];
    assert_eq!(names(&folder), expected(&first, &[]));
    let out = folder.0.join("out");
    fs::write(out.join("door-right.dxf"), "mine").unwrap();
    fs::write(folder.0.join("keep.txt"), "mine").unwrap();
    // a line that a run does not write is not followed out of the folder
    let list = folder.read("files.csv") + "door,../keep.txt\ndoor,notes.odt\n";
    fs::write(out.join("files.csv"), list).unwrap();
    fs::write(out.join("notes.odt"), "mine").unwrap();

    folder.part("door.stl", &board_of(300.0, &[Side::Top]));
    folder.part("plinth.stl", b"not a part");
    fs::remove_file(folder.0.join("parts/shelf.stl")).unwrap();
    assert_eq!(folder.batch(&[]).0, 2);
    let left: [(&str, &[&str]); 1] = [("door", &["top"])];
    let mine = ["door-right.dxf", "notes.odt"];
    assert_eq!(names(&folder), expected(&left, &mine));
    assert_eq!(
        fs::read_to_string(folder.0.join("keep.txt")).unwrap(),
        "mine"
    );
    // the list has what this run wrote
    let listed = folder.read("files.csv");
    let mut listed: Vec<&str> = listed
        .lines()
        .skip(1)
        .map(|line| line.split_once(',').unwrap().1)
        .collect();
    listed.extend(mine.iter().chain(&["files.csv"]));
    listed.sort();
    assert_eq!(listed, names(&folder));

    // of one part alone, the others stay
    folder.part("shelf.stl", &board_of(400.0, &[Side::Top, Side::Left]));
    assert_eq!(folder.batch(&[]).0, 2);
    folder.part("shelf.stl", &board_of(400.0, &[Side::Left]));
    let alone = Command::new(env!("CARGO_BIN_EXE_probe-part"))
        .arg("bores")
        .arg(folder.0.join("parts/shelf.stl"))
        .arg("--out")
        .arg(&out)
        .output()
        .unwrap();
    assert_eq!(alone.status.code(), Some(0), "{alone:?}");
    let both: [(&str, &[&str]); 2] = [("door", &["top"]), ("shelf", &["left"])];
    assert_eq!(names(&folder), expected(&both, &mine));
}

/// Parts of one name, parts named as the batch's own files or as the parts of a file of two, and a link to nothing: each has
/// its own files, or its own line.
#[test]
fn names_that_are_alike() {
    let folder = Folder::new("alike");
    let boards = [
        ("summary.stl", "summary.stl", 310.0),
        ("index.stl", "index.stl", 320.0),
        ("Files.stl", "Files.stl", 330.0),
        // which differ in no letter where small and large ones are one
        ("a.STL", "a.STL", 350.0),
        ("a.stl", "a.stl~2", 340.0),
        ("a.stl.stl", "a.stl.stl", 360.0),
        ("b-1.stl", "b-1.stl", 370.0),
        ("plain.stl", "plain", 380.0),
    ];
    for (file, _, long) in boards {
        folder.part(file, &board_of(long, &[Side::Top]));
    }
    let two = [
        made([410.0, 200.0, 18.0], &[]),
        board::moved(&made([420.0, 200.0, 18.0], &[]), [0.0, 500.0, 0.0]),
    ];
    folder.part("b.stl", &binary(&two.concat()));
    std::os::unix::fs::symlink("nowhere.stl", folder.0.join("parts/gone.stl")).unwrap();
    let (status, out, _) = folder.batch(&["--shells"]);
    assert_eq!(status, 2, "{out}");
    assert!(
        out.contains("! gone: cannot be read, a link to a file that is not there\n"),
        "{out}"
    );
    let summary = folder.read("summary.csv");
    // the first line, eight boards, two in one file, and the link
    assert_eq!(summary.lines().count(), 12, "{summary}");
    let of = |file: &str| {
        let cells = |line: &str| line.split(',').map(String::from).collect::<Vec<_>>();
        let rows = summary.lines().map(cells).filter(|cells| cells[1] == file);
        rows.map(|cells| (cells[0].clone(), cells[2].clone()))
            .collect::<Vec<_>>()
    };
    let mut taken = Vec::new();
    for (file, name, long) in boards {
        let found = of(file);
        let [(part, wide)] = found.as_slice() else {
            panic!("{file}: {found:?}")
        };
        assert_eq!(wide, &format!("{long:.3}"));
        assert_eq!(part, name);
        let list = folder.read(&format!("{part}.csv"));
        assert!(
            list.contains(&format!(",{long:.3},200.000,18.000,18.000\n")),
            "{list}"
        );
        taken.push(part.to_lowercase());
    }
    assert_eq!(of("b.stl").len(), 2);
    taken.sort();
    taken.dedup();
    assert_eq!(taken.len(), boards.len());
}
