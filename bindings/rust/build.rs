//! Links the static library: the one that `tools/build library` writes in the repository, or that of an installed folder.
//! It is looked for in the folder that PROBE_RAYS_LIB names, else in the repository's target/staticlib, else in the folder
//! of libraries that this crate was installed with.
use std::env;
use std::path::{Path, PathBuf};
use std::process::exit;

/// The library as it is called where it was installed, and where it was built.
const NAMES: [&str; 2] = ["probe_rays", "exports"];

fn main() {
    println!("cargo:rerun-if-env-changed=PROBE_RAYS_LIB");
    let here = PathBuf::from(env::var_os("CARGO_MANIFEST_DIR").unwrap());
    let folders = match env::var_os("PROBE_RAYS_LIB") {
        Some(folder) => vec![PathBuf::from(folder)],
        None => vec![
            here.join("../../target/staticlib"),
            here.join("../../../lib"),
        ],
    };
    let found = folders.iter().find_map(|folder| {
        NAMES
            .iter()
            .find(|name| archive(folder, name).exists())
            .map(|name| (folder, name))
    });
    let Some((folder, name)) = found else {
        // no panic: its last line would be a note on backtraces, and the last line is what is read
        eprintln!("error: the crate probe-rays finds its library, libprobe_rays.a or libexports.a, in none of these folders:");
        for folder in &folders {
            eprintln!("  {}", folder.display());
        }
        eprintln!("help: run `tools/build library` in the repository, or set PROBE_RAYS_LIB to the folder of libprobe_rays.a");
        exit(1);
    };
    println!("cargo:rerun-if-changed={}", archive(folder, name).display());
    println!("cargo:rustc-link-search=native={}", folder.display());
    println!("cargo:rustc-link-lib=static={name}");
}

fn archive(folder: &Path, name: &str) -> PathBuf {
    folder.join(format!("lib{name}.a"))
}
