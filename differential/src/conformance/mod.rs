//! The conformance file, tests/conformance.json: cases as data for the runners of all languages. A case names a call, its arguments
//! and the answer, every float by its bits. An answer is the plain model's, and the library's own must equal it: else nothing is
//! written.

mod book;
mod cabinets;
mod casts;
mod drills;
mod facts;
mod json;
mod meshes;
mod rays;
mod records;
mod shapes;
mod trees;

/// The file, and how many cases it has.
pub fn file() -> (String, usize) {
    let mut book = book::Book::new();
    shapes::write(&mut book);
    casts::write(&mut book);
    trees::write(&mut book);
    cabinets::write(&mut book);
    drills::write(&mut book);
    records::write(&mut book);
    facts::write(&mut book);
    (book.file(), book.len())
}
