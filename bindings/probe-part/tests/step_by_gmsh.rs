//! Boards drawn as solids, cut by gmsh (OpenCASCADE) and triangulated as docs/STEP.md says. The rows are written from the
//! drawings' measures. Where gmsh is not installed each test says that it is skipped.
mod board;
mod known;
mod solids;

use probe_part::model::Report;
use probe_part::recognise::{recognise, Options};
use probe_part::shape::Shape;
use probe_rays::stl::{self, Corners};
use solids::gmsh;
use std::{env, fs};

/// The facets and the report of a body and what is cut from it, each a volume of its own from 2 on; none without gmsh.
fn cut(name: &str, body: &str, tools: &[&str]) -> Option<(Vec<Corners>, Report)> {
    let last = tools.len() + 1;
    let text = format!(
        "SetFactory(\"OpenCASCADE\");\n{body}\n{}\n\
        BooleanDifference(1000) = {{ Volume{{1}}; Delete; }}{{ Volume{{2:{last}}}; Delete; }};\n",
        tools.join("\n")
    );
    let folder = env::temp_dir().join(format!("probe-part-step-{name}-{}", std::process::id()));
    fs::create_dir_all(&folder).unwrap();
    let file = |name: &str| folder.join(name);
    fs::write(file("part.geo"), text).unwrap();
    let drawn = gmsh(&file("part.geo"), &["-o"], &file("part.step"));
    let facets = drawn.map(|()| {
        let settings = [
            ["-setnumber", "Mesh.StlLinearDeflection", "0.05"],
            ["-setnumber", "Mesh.StlAngularDeflection", "0.35"],
        ];
        let mut words: Vec<&str> = settings.concat();
        words.extend(["-format", "stl", "-bin", "-o"]);
        gmsh(&file("part.step"), &words, &file("part.stl")).unwrap();
        stl::facets(&fs::read(file("part.stl")).unwrap()).unwrap()
    });
    fs::remove_dir_all(&folder).unwrap();
    let Some(facets) = facets else {
        println!("SKIPPED: {name}, since gmsh is not installed (apt-get install gmsh)");
        return None;
    };
    let shape = Shape::of(&facets).unwrap();
    let report = recognise(&shape, &Options::default()).unwrap();
    Some((facets, report))
}
