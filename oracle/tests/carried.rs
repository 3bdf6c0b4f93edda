//! The carried files are the published ones, byte for byte.

use std::{path::Path, process::Command};

fn files_under(folder: &Path, found: &mut Vec<String>) {
    for entry in std::fs::read_dir(folder).unwrap() {
        let path = entry.unwrap().path();
        if path.is_dir() {
            files_under(&path, found);
        } else {
            found.push(path.to_str().unwrap().to_owned());
        }
    }
}

#[test]
fn checksums_hold() {
    let root = Path::new(env!("CARGO_MANIFEST_DIR"));
    let status = Command::new("sha256sum")
        .args(["--check", "--strict", "--quiet", "CHECKSUMS"])
        .current_dir(root)
        .status()
        .expect("sha256sum");
    assert!(status.success());
}

#[test]
fn every_carried_file_is_listed() {
    let root = Path::new(env!("CARGO_MANIFEST_DIR"));
    let listed = std::fs::read_to_string(root.join("CHECKSUMS")).unwrap();
    let mut found = Vec::new();
    files_under(&root.join("kapitsa"), &mut found);
    assert!(!found.is_empty());
    for path in found {
        let name = path.strip_prefix(root.to_str().unwrap()).unwrap();
        let name = name.trim_start_matches('/');
        assert!(
            listed.lines().any(|l| l.ends_with(&format!("  {name}"))),
            "{name}"
        );
    }
}
