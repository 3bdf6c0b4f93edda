//! Writes the conformance file to standard output, and how many cases it has to standard error.
//! usage: conformance > tests/conformance.json
fn main() {
    let (file, cases) = differential::conformance::file();
    print!("{file}");
    eprintln!("{cases} cases");
}
