//! The program `probe-part` as it is called. What rays hit at examples/panel.stl was found by hand (examples/panel.rays);
//! other expectations are said where they stand.
mod board;

use board::{binary, board as made, finer, Cut, Side};
use std::io::Write;
use std::path::PathBuf;
use std::process::{Command, Output, Stdio};
use std::{env, fs};

const PANEL: &str = concat!(env!("CARGO_MANIFEST_DIR"), "/../../examples/panel.stl");

fn run(words: &[&str], input: &[u8]) -> Output {
    let mut child = Command::new(env!("CARGO_BIN_EXE_probe-part"))
        .args(words)
        .stdin(Stdio::piped())
        .stdout(Stdio::piped())
        .stderr(Stdio::piped())
        .spawn()
        .unwrap();
    let mut stdin = child.stdin.take().unwrap();
    let input = input.to_vec();
    // a program that ends without reading closes the pipe
    let writer = std::thread::spawn(move || stdin.write_all(&input).is_ok());
    let output = child.wait_with_output().unwrap();
    let _ = writer.join();
    output
}

/// The exit status, standard output and standard error.
fn said(words: &[&str], input: &[u8]) -> (i32, String, String) {
    let output = run(words, input);
    let text = |bytes: Vec<u8>| String::from_utf8(bytes).unwrap();
    (
        output.status.code().unwrap(),
        text(output.stdout),
        text(output.stderr),
    )
}

/// A folder that is gone at the end of the test.
struct Folder(PathBuf);

impl Folder {
    fn new(name: &str) -> Folder {
        let path = env::temp_dir().join(format!("probe-part-{name}-{}", std::process::id()));
        fs::create_dir_all(&path).unwrap();
        Folder(path)
    }

    fn file(&self, name: &str, bytes: &[u8]) -> String {
        let path = self.0.join(name);
        fs::write(&path, bytes).unwrap();
        path.to_str().unwrap().into()
    }

    fn path(&self, name: &str) -> String {
        self.0.join(name).to_str().unwrap().into()
    }
}

impl Drop for Folder {
    fn drop(&mut self) {
        let _ = fs::remove_dir_all(&self.0);
    }
}

#[test]
fn help_names_every_command() {
    for words in [&["--help"][..], &["cast", "--help"], &["-h"], &["help"]] {
        let (status, out, err) = said(words, b"");
        assert_eq!((status, err.as_str()), (0, ""));
        for word in [
            "probe-part cast",
            "probe-part drill",
            "probe-part bores",
            "probe-part check",
            "probe-part batch",
            "probe-part depth",
            "--rays",
        ] {
            assert!(out.contains(word), "{word}");
        }
    }
    let (status, out, err) = said(&[], b"");
    assert_eq!((status, out.as_str()), (2, ""));
    assert!(err.contains("probe-part bores"));
}

#[test]
fn calls_that_are_not_right() {
    let wrong: [(&[&str], &str); 15] = [
        (
            &["mill", PANEL],
            "unknown command \"mill\": use cast, bores, batch or depth",
        ),
        (&["cast"], "no file is given"),
        (
            &["cast", PANEL, "1", "2"],
            "a ray is seven numbers (origin, direction, maximum), but 2 are given",
        ),
        (
            &["cast", PANEL, "1", "2", "3", "0", "0", "x", "9"],
            "not a number: x",
        ),
        (&["cast", PANEL, "--every"], "unknown option --every"),
        (
            &["cast", PANEL, "--all", "--rounded"],
            "cannot be used together",
        ),
        (&["cast", PANEL, "--rays"], "--rays takes a value"),
        (
            &["cast", "/no/such/file.stl"],
            "/no/such/file.stl: No such file",
        ),
        (&["bores", PANEL, "7"], "unexpected argument \"7\""),
        (
            &["depth", PANEL, "--face", "top", "--svg", "x", "--step", "0"],
            "--step takes millimetres above 0, not \"0\"",
        ),
        (
            &[
                "depth", PANEL, "--face", "top", "--svg", "x", "--step", "0.0001",
            ],
            "needs 2000000000000 probes of the top face",
        ),
        (
            &["bores", PANEL, "--unit", "ft"],
            "--unit takes mm, cm, m or in, not \"ft\"",
        ),
        (
            &["bores", PANEL, "--face", "upper"],
            "\"upper\" is not a face",
        ),
        (
            &["depth", PANEL, "--png", "x.png"],
            "depth needs one --face",
        ),
        (&["depth", PANEL, "--face", "top"], "is required"),
    ];
    for (words, why) in wrong {
        let (status, out, err) = said(words, b"");
        assert_eq!((status, out.as_str()), (2, ""), "{words:?}");
        assert!(
            err.starts_with("probe-part: ") && err.contains(why),
            "{words:?}: {err}"
        );
    }
}

/// The first bytes of files as their formats' own documents have them.
#[test]
fn a_file_that_is_no_stl_is_named() {
    let folder = Folder::new("kinds");
    let obj = b"# Blender\nmtllib cube.mtl\no Cube\nv 1.0 1.0 -1.0\nf 1 2 3\n";
    let iges = format!("{:72}S      1\n{:72}G      1\n", "a part", "1H,,1H;");
    let zip = |member: &str| [b"PK\x03\x04\x14\x00\x00\x00", member.as_bytes()].concat();
    let files: [(&str, Vec<u8>, &str, &str); 22] = [
        (
            "a.step",
            b"ISO-10303-21;\nHEADER;\n".to_vec(),
            "a STEP file",
            "gmsh",
        ),
        (
            "b.stp",
            b"\xef\xbb\xbf\r\nISO-10303-21;\r\n".to_vec(),
            "a STEP file",
            "docs/STEP.md",
        ),
        ("c.igs", iges.into_bytes(), "an IGES file", "gmsh"),
        ("d.obj", obj.to_vec(), "an OBJ file", "STL"),
        (
            "e.3mf",
            zip("[Content_Types].xml ... 3D/3dmodel.model"),
            "a 3MF file",
            "slicer",
        ),
        ("f.zip", zip("part.stl"), "a zip archive", "unpack"),
        (
            "g.ply",
            b"ply\nformat ascii 1.0\n".to_vec(),
            "a PLY file",
            "STL",
        ),
        (
            "h.gz",
            b"\x1f\x8b\x08\x00".to_vec(),
            "compressed with gzip",
            "gunzip",
        ),
        (
            "i.xz",
            b"\xfd7zXZ\x00\x00".to_vec(),
            "compressed with xz",
            "unxz",
        ),
        ("j.off", b"OFF\n8 6 12\n".to_vec(), "an OFF file", "STL"),
        (
            "k.amf",
            b"<?xml version=\"1.0\"?>\n<amf unit=\"millimeter\">".to_vec(),
            "an AMF file",
            "STL",
        ),
        (
            "l.dxf",
            b"  0\r\nSECTION\r\n  2\r\nHEADER\r\n".to_vec(),
            "a DXF drawing",
            "no solid",
        ),
        ("m.dwg", b"AC1032\x00\x00".to_vec(), "a DWG drawing", "CAD"),
        (
            "n.sldprt",
            b"\xd0\xcf\x11\xe0\xa1\xb1\x1a\xe1".to_vec(),
            "CAD or office",
            "STEP",
        ),
        ("o.brep", b"DBRep_DrawableShape\n".to_vec(), "BREP", "gmsh"),
        (
            "p.msh",
            b"$MeshFormat\n4.1 0 8\n".to_vec(),
            "gmsh mesh",
            "gmsh",
        ),
        ("q.glb", b"glTF\x02\x00\x00\x00".to_vec(), "glTF", "STL"),
        (
            "r.html",
            b"<!DOCTYPE html>\n<html>".to_vec(),
            "a web page",
            "download",
        ),
        (
            "s.pdf",
            b"%PDF-1.7\n".to_vec(),
            "a PDF document",
            "no solid",
        ),
        ("t.FCStd", zip("Document.xml"), "a FreeCAD document", "CAD"),
        ("u.stl", b"".to_vec(), "empty", "export"),
        ("v.wrl", b"#VRML V2.0 utf8\n".to_vec(), "a VRML file", "STL"),
    ];
    for (name, bytes, kind, advice) in files {
        let file = folder.file(name, &bytes);
        let (status, out, err) = said(&["bores", &file], b"");
        assert_eq!((status, out.as_str()), (2, ""), "{name}");
        let start = format!("probe-part: {file}: this is ");
        assert!(err.starts_with(&start), "{name}: {err}");
        assert!(err.contains(kind) && err.contains(advice), "{name}: {err}");
        // a STEP file is read by OpenCASCADE, or would be
        if kind == "a STEP file" {
            assert!(err.contains("OpenCASCADE"), "{name}: {err}");
        }
    }
    // what is not known is said as before, and a folder is one
    let file = folder.file("w.stl", b"nothing that anybody knows");
    let (_, _, err) = said(&["cast", &file], b"");
    assert!(
        err.contains("not an STL file: 26 bytes that do not begin with 'solid'"),
        "{err}"
    );
    let (status, _, err) = said(&["cast", folder.0.to_str().unwrap()], b"");
    assert!(status == 2 && err.contains("directory"), "{err}");
}

/// examples/panel.rays, on the command line, from a file and from standard input, and what stands in panel.hits.
#[test]
fn rays_from_words_a_file_and_standard_input() {
    let folder = concat!(env!("CARGO_MANIFEST_DIR"), "/../../examples");
    let read = |name: &str| fs::read_to_string(format!("{folder}/{name}")).unwrap();
    let rays = read("panel.rays");
    // the files have the crate's words on refusal 1; the tool says which test the ray fails
    let told = |name: &str| {
        read(name).replace(
            "the ray or the query box is not valid",
            "the maximum is below 0",
        )
    };
    let hits = told("panel.hits");
    let words: Vec<&str> = rays
        .lines()
        .map(|line| line.split('#').next().unwrap())
        .flat_map(str::split_whitespace)
        .collect();
    let (status, out, _) = said(&[&["cast", PANEL], words.as_slice()].concat(), b"");
    assert_eq!((status, out.as_str()), (1, hits.as_str()));
    let file = format!("{folder}/panel.rays");
    let (status, out, _) = said(&["cast", PANEL, "--rays", &file], b"");
    assert_eq!((status, out.as_str()), (1, hits.as_str()));
    let commas = rays.replace("  ", ", ").into_bytes();
    let (status, out, _) = said(&["cast", "--rays", "-", PANEL], &commas);
    assert_eq!((status, out.as_str()), (1, hits.as_str()));
    let depths = told("panel.depths");
    let (status, out, _) = said(
        &[
            "cast",
            PANEL,
            "--all",
            "--rays",
            &format!("{folder}/panel.bores"),
        ],
        b"",
    );
    assert_eq!((status, out.as_str()), (1, depths.as_str()));
    let (status, out, _) = said(&["cast", "--rounded", PANEL, "--rays", "-"], &commas);
    assert_eq!((status, out.as_str()), (1, hits.as_str()));
}

/// docs/DIFFERENCES.md, 'Found in the Rust', 2: the diagonal of a square of 31 is the side opposite the first corner of both
/// its triangles, and from (1, 30) the rounded cast passes there. (1, 2, 4) + 5 · (0.6, 0, -0.8) is (4, 2, 0).
#[test]
fn casts_are_exact() {
    let folder = Folder::new("exact");
    let square = |side: f64| {
        let (near, far) = ([side, 0.0, 0.0], [0.0, side, 0.0]);
        [[[0.0; 3], near, far], [[side, side, 0.0], far, near]]
    };
    let rays = b"1 30 1  0 0 -1  10\n-5 0 0  1 0 0  10\n40 30 1  0 0 -1  10\n1 30 2  0 0 -1  1\n\
        1 2 4  3 0 -4  10\n1 30 1  0 0 -1  -1\n";
    let at = |place: &str, triangle: u32| {
        format!("hit at {place}, normal (0.000, 0.000, 1.000), triangle {triangle}")
    };
    let told = [
        at("1.000 mm, point (1.000, 30.000, 0.000)", 0),
        // along the outline, from 5 before it
        at("5.000 mm, point (0.000, 0.000, 0.000)", 0),
        "none".into(),
        "none".into(),
        at("5.000 mm, point (4.000, 2.000, 0.000)", 0),
        "refused 1, invalid input: the maximum is below 0".into(),
    ];
    let lines = |facets: &[_], switches: &[&str], rays: &[u8]| -> Vec<String> {
        let file = folder.file("square.stl", &binary(facets));
        let (_, out, err) = said(&[&["cast", &file, "--rays", "-"], switches].concat(), rays);
        assert_eq!(err, "");
        let after = |line: &str| line.split_once(": ").map_or(line, |two| two.1).to_string();
        out.lines().skip(1).map(after).collect()
    };
    assert_eq!(lines(&square(31.0), &[], rays), told);
    // the rounded cast passes on the diagonal, and misses a triangle that the ray lies in
    let rounded = lines(&square(31.0), &["--rounded"], rays);
    assert_eq!(rounded[..2], ["none", "none"]);
    assert_eq!(rounded[2..], told[2..]);
    // on the diagonal both triangles are listed
    let diagonal = b"1 30 1  0 0 -1  10\n".as_slice();
    let both = lines(&square(31.0), &["--all"], diagonal);
    assert_eq!((both[0].as_str(), both.len()), ("2 hits", 3));
    // a part out of range is refused
    let first = b"1 2 4  0 0 -1  10\n".as_slice();
    assert_eq!(lines(&square(31.0), &["--all"], first)[0], "1 hit");
    assert!(lines(&square(8193.0), &[], first)[0].starts_with("refused 12"));
    for side in [8193.0, 16_400.0] {
        let far = lines(&square(side), &["--all"], first);
        assert!(far[0].starts_with("refused 12"), "{far:?}");
    }
    // of 8,192 triangles, whose corners are not on whole millimetres
    let of = lines(&finer(&square(32.0), 6), &[], first);
    assert!(of[0].starts_with("hit at 4.000 mm"), "{of:?}");
}

/// A ray from outside into a closed board hits it, also over its outline and over the edges between its triangles.
#[test]
fn every_ray_into_a_board_hits() {
    let folder = Folder::new("closed");
    let file = folder.file("board.stl", &binary(&made([60.0, 40.0, 18.0], &[])));
    let rays: String = (0..61 * 41)
        .map(|n| format!("{} {} 30  0 0 -1  100\n", n % 61, n / 61))
        .collect();
    let (status, out, _) = said(&["cast", &file, "--rays", "-"], rays.as_bytes());
    assert_eq!((status, out.lines().count()), (0, 2502));
    for line in out.lines().skip(1) {
        assert!(line.contains(": hit at 12.000 mm"), "{line}");
    }
}

/// 250,000 rays, more than a command line holds and than one block: over the panel's top, at 32 mm.
#[test]
fn a_quarter_of_a_million_rays() {
    let count = 250_000;
    let ray = |n: u32| {
        format!(
            "{} 5 50 0 0 -1 100\n",
            1.0 + f64::from(n) * 98.0 / f64::from(count)
        )
    };
    let text: String = (0..count).map(ray).collect();
    let (status, out, _) = said(&["cast", PANEL, "--rays", "-"], text.as_bytes());
    assert_eq!(status, 0);
    let lines: Vec<&str> = out.lines().skip(1).collect();
    assert_eq!(lines.len(), count as usize);
    for (place, line) in lines.iter().enumerate() {
        assert!(
            line.starts_with(&format!("ray {}: hit at 32.000 mm", place + 1)),
            "{line}"
        );
    }
}

#[test]
fn a_line_that_is_no_ray_is_named() {
    let text = b"# rays\n\n47 52 50 0 0 -1 100\n47 52 50 0 0 -1\n";
    let (status, out, err) = said(&["cast", PANEL, "--rays", "-"], text);
    assert_eq!(status, 2);
    assert!(out.is_empty() || out.starts_with("120 triangles"));
    assert!(
        err.contains("standard input, line 4: a ray is seven numbers"),
        "{err}"
    );
}

/// The octagons of examples/panel_stl.py: 35 across the flats is 2 · √(17.5² + 7.25²) = 37.885 across the corners, and
/// 8 is 2 · √(4² + 1.625²) = 8.635.
#[test]
fn the_panels_bores() {
    let (status, out, err) = said(&["bores", PANEL], b"");
    assert_eq!((status, err.as_str()), (0, ""));
    let table = "\
200.00 x 100.00 x 18.00 mm, 120 triangles
no  face  kind  outline   size  entry    depth       x      y      z
 1  top   bore  circle   37.88   0.00    13.00   50.00  50.00  18.00  of 8 sides
 2  top   bore  circle    8.63   0.00  through  150.00  50.00  18.00  of 8 sides
complete: all of the surface is accounted for, and every row is confirmed
";
    assert_eq!(out, table);
    let (status, out, err) = said(&["bores", PANEL, "--csv", "--face", "top"], b"");
    assert_eq!((status, err.as_str()), (0, ""));
    let lines: Vec<&str> = out.lines().collect();
    assert_eq!(
        lines[1..],
        [
            "1,1,1,top,bore,circle,37.885,37.885,,,8,0.000,13.000,,floor,50.000,50.000,18.000,0.000000,0.000000,-1.000000,,,yes,of 8 sides,200.000,100.000,18.000,18.000",
            "1,2,2,top,bore,circle,8.635,8.635,,,8,0.000,18.000,,through,150.000,50.000,18.000,0.000000,0.000000,-1.000000,,,yes,of 8 sides,200.000,100.000,18.000,18.000"
        ]
    );
    assert_eq!(lines[0].split(',').count(), lines[1].split(',').count());
    let (status, out, _) = said(&["bores", PANEL, "--csv", "--face", "bottom"], b"");
    assert_eq!((status, out.lines().count()), (0, 1));
}

/// A board elsewhere: from its own corner its bores are where they were drawn.
#[test]
fn from_the_corner() {
    let folder = Folder::new("corner");
    let facets = made(
        [120.0, 80.0, 18.0],
        &[Cut::bore(Side::Top, [30.0, 20.0], 10.0, 6.0)],
    );
    let facets = board::moved(&facets, [-500.0, 250.0, 40.0]);
    let file = folder.file("board.stl", &binary(&facets));
    let place = |words: &[&str]| -> Vec<String> {
        let (status, out, _) = said(words, b"");
        assert_eq!(status, 0);
        let line = out.lines().last().unwrap().to_string();
        assert!(
            line.starts_with("1,1,1,top,bore,circle,10.000,10.000,,,32,0.000,6.000,,floor,"),
            "{line}"
        );
        line.split(',').skip(15).take(3).map(String::from).collect()
    };
    let drawn = place(&["bores", &file, "--csv"]);
    assert_eq!(drawn, ["-470.000", "270.000", "58.000"]);
    let from_corner = place(&["bores", &file, "--csv", "--from-corner"]);
    assert_eq!(from_corner, ["30.000", "20.000", "18.000"]);
}

/// More than 65,536 triangles: the same answers as of the same surfaces of few, in pieces.
#[test]
fn a_part_of_many_triangles() {
    let folder = Folder::new("many");
    let cuts = [
        Cut::bore(Side::Top, [40.0, 50.0], 35.0, 13.0),
        Cut::bore(Side::Left, [50.0, 9.0], 8.0, 20.0),
    ];
    let few = made([200.0, 100.0, 18.0], &cuts);
    let many = finer(&few, 4);
    assert!(many.len() > 65_536);
    let (few, many) = (
        folder.file("few.stl", &binary(&few)),
        folder.file("many.stl", &binary(&many)),
    );
    let mut rays = String::new();
    for x in 0..40 {
        for y in 0..20 {
            rays += &format!("{} {} 60 0 0 -1 100\n", 5 * x + 2, 5 * y + 2);
            rays += &format!("-10 {}.3 {} 1 0.01 0.02 300\n", 5 * y, (x % 18) + 1);
        }
    }
    // triangles have other numbers, and where a ray meets an edge each triangle there is told
    let of = |file: &str, switch: &str| {
        let (status, out, _) = said(&["cast", file, switch, "--rays", "-"], rays.as_bytes());
        assert_eq!(status, 0);
        out
    };
    let first = |out: &str| -> Vec<String> {
        let before = |line: &str| line.split(", triangle").next().unwrap().to_string();
        out.lines().skip(1).map(before).collect()
    };
    let (one, other) = (of(&few, "--rounded"), of(&many, "--rounded"));
    assert!(!one.lines().next().unwrap().contains("pieces"));
    assert!(other.lines().next().unwrap().ends_with(" pieces"));
    assert_eq!(first(&one), first(&other));
    assert_eq!(first(&one).len(), 1600);
    // the different depths along each ray
    let depths = |out: &str| -> Vec<Vec<String>> {
        let mut all: Vec<Vec<String>> = Vec::new();
        for line in out.lines().skip(1) {
            match line.strip_prefix("  at ") {
                None => all.push(Vec::new()),
                Some(rest) => all
                    .last_mut()
                    .unwrap()
                    .push(rest.split(" mm").next().unwrap().into()),
            }
        }
        all.iter_mut().for_each(|depths| depths.dedup());
        all
    };
    let (one, other) = (depths(&of(&few, "--all")), depths(&of(&many, "--all")));
    assert_eq!(one.len(), 1600);
    assert!(one.iter().any(|depths| depths.len() >= 4));
    let same = one.iter().zip(&other).filter(|(a, b)| a == b).count();
    assert_eq!(same, 1600);
    let table = |file: &str| -> Vec<String> {
        said(&["bores", file, "--csv"], b"")
            .1
            .lines()
            .map(String::from)
            .collect()
    };
    let bores = table(&many);
    assert_eq!(bores.len(), 3);
    assert!(
        bores[1].starts_with("1,1,1,top,bore,circle,35.000,"),
        "{bores:?}"
    );
    assert!(
        bores[2].starts_with("1,2,2,left,bore,circle,8.000,"),
        "{bores:?}"
    );
}

/// The pictures are files of their kinds; tests/bindings.sh reads them with another program's eyes.
#[test]
fn pictures_are_written() {
    let folder = Folder::new("pictures");
    let (png, svg) = (folder.path("top.png"), folder.path("top.svg"));
    let (status, out, err) = said(
        &[
            "depth", PANEL, "--face", "top", "--png", &png, "--svg", &svg,
        ],
        b"",
    );
    assert_eq!((status, err.as_str()), (0, ""));
    assert_eq!(out.lines().count(), 2);
    assert!(fs::read(&png).unwrap().starts_with(b"\x89PNG\r\n\x1a\n"));
    assert!(fs::read_to_string(&svg).unwrap().starts_with("<svg "));
    let (status, _, err) = said(
        &[
            "depth",
            PANEL,
            "--face",
            "top",
            "--png",
            "/no/such/folder/x.png",
        ],
        b"",
    );
    assert!(status == 2 && err.contains("/no/such/folder/x.png"));
}
