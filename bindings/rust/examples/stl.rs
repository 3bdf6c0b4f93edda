//! Casts rays at the mesh of an STL file, binary or ASCII, and prints what each one hits.
//!
//! usage: stl [--all] FILE [X Y Z  DX DY DZ  MAX]...
//!
//! --all prints every depth along a ray, not only the first hit. A ray is seven numbers: its origin, its direction (of any
//! length) and its maximum distance. An STL file has no unit; millimetres are assumed, as most programs write them. Triangles
//! are counted from 0, in the file's order. Equal vertices are merged. The program `probe-part` does more (docs/TOOL.md).
//!
//! Exit status: 0 if every ray was a hit or a miss, 1 if one was refused, 2 if the command line or the file is wrong.
use probe_rays::stl::{self, Corners};
use probe_rays::{Cast, Mesh, MeshHit, Ray, Refusal, MAX_COUNT};
use std::process::ExitCode;
use std::{env, fs};

const USAGE: &str = "usage: stl [--all] FILE [X Y Z  DX DY DZ  MAX]...
casts rays (origin, direction of any length, maximum, in millimetres) at the mesh of an STL file;
--all prints every depth along a ray";

fn main() -> ExitCode {
    let words: Vec<String> = env::args().skip(1).collect();
    match run(&words) {
        Ok(true) => ExitCode::SUCCESS,
        Ok(false) => ExitCode::from(1),
        Err(why) => {
            eprintln!("stl: {why}");
            ExitCode::from(2)
        }
    }
}

/// Casts what the words ask; whether no ray was refused.
fn run(words: &[String]) -> Result<bool, String> {
    let (all, words) = match words.split_first() {
        Some((first, rest)) if first == "--all" => (true, rest),
        _ => (false, words),
    };
    let Some((file, numbers)) = words.split_first() else {
        return Err(USAGE.into());
    };
    let rays = rays(numbers)?;
    let bytes = fs::read(file).map_err(|why| format!("{file}: {why}"))?;
    let facets = stl::facets(&bytes).map_err(|why| format!("{file}: {why}"))?;
    let mut mesh = merged(&facets).map_err(|why| format!("{file}: {why}"))?;
    println!(
        "{} triangles, {} vertices, {} nodes",
        mesh.triangles().len(),
        mesh.vertices().len(),
        mesh.tree().nodes
    );
    let mut answered = true;
    for (number, ray) in rays.iter().enumerate() {
        let told = if all {
            let hits = mesh.cast_all(ray);
            answered &= hits.is_ok();
            all_told(ray, &hits)
        } else {
            let cast = mesh.cast(ray);
            answered &= !matches!(cast, Cast::Refused(_));
            told(ray, &cast)
        };
        println!("ray {}: {told}", number + 1);
    }
    Ok(answered)
}

/// The rays, seven numbers each.
fn rays(words: &[String]) -> Result<Vec<Ray>, String> {
    if words.len() % 7 != 0 {
        return Err(format!(
            "a ray is seven numbers, but {} are given\n{USAGE}",
            words.len()
        ));
    }
    let numbers: Vec<f64> = words
        .iter()
        .map(|word| word.parse().map_err(|_| format!("not a number: {word}")))
        .collect::<Result<_, _>>()?;
    let ray = |n: &[f64]| Ray::toward([n[0], n[1], n[2]], [n[3], n[4], n[5]], n[6]);
    Ok(numbers.chunks_exact(7).map(ray).collect())
}

/// An answer in words.
fn told(ray: &Ray, cast: &Cast<MeshHit>) -> String {
    match cast {
        Cast::Hit(hit) => format!("hit {}", place(ray, hit)),
        Cast::None => "none".into(),
        Cast::Refused(refusal) => refusal.to_string(),
    }
}

/// A listing in words: how many hits, and a line for each.
fn all_told(ray: &Ray, hits: &Result<Vec<MeshHit>, Refusal>) -> String {
    match hits {
        Ok(hits) if hits.is_empty() => "none".into(),
        Ok(hits) => {
            let lines = hits
                .iter()
                .map(|hit| format!("\n  {}", place(ray, hit)))
                .collect::<String>();
            let noun = if hits.len() == 1 { "hit" } else { "hits" };
            format!("{} {noun}{lines}", hits.len())
        }
        Err(refusal) => refusal.to_string(),
    }
}

fn place(ray: &Ray, hit: &MeshHit) -> String {
    format!(
        "at {} mm, point {}, normal {}, triangle {}",
        fixed(hit.distance),
        vector(ray.at(hit.distance)),
        vector(hit.normal),
        hit.triangle
    )
}

/// A number with three places; what rounds to zero has no sign.
fn fixed(number: f64) -> String {
    let text = format!("{number:.3}");
    if text == "-0.000" {
        "0.000".into()
    } else {
        text
    }
}

fn vector(parts: [f64; 3]) -> String {
    format!("({})", parts.map(fixed).join(", "))
}

/// The mesh of the facets, equal vertices merged, with its tree.
fn merged(facets: &[Corners]) -> Result<Mesh, String> {
    if facets.is_empty() {
        return Err("no triangles".into());
    }
    let (vertices, triangles) = stl::merged(facets);
    for (count, what) in [
        (triangles.len(), "triangles"),
        (vertices.len(), "different vertices"),
    ] {
        if count > MAX_COUNT {
            return Err(format!("{count} {what}: at most {MAX_COUNT} are allowed"));
        }
    }
    Mesh::build(vertices, triangles).map_err(|refusal| refusal.to_string())
}
