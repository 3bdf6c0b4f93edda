//! Reads mesh records and prints the trees that the Rust builds: for each record its
//! number, then a line for the node count, one for each node (index, kind, its two
//! words, box), the order and one for each triangle box; or the build's refusal.
//! Floats are printed as their bits. Records of other kinds are passed over.

use oracle::{
    record::{Shape, read_all},
    tree,
};
use std::io::{BufWriter, Read, Write};

fn main() {
    let mut input = Vec::new();
    std::io::stdin()
        .read_to_end(&mut input)
        .expect("standard input");
    let Some(records) = read_all(&input) else {
        eprintln!("oracle-tree: a record is malformed");
        std::process::exit(2);
    };
    let mut out = BufWriter::new(std::io::stdout().lock());
    for (number, record) in records.iter().enumerate() {
        if let Shape::Mesh { vertices, indices } = &record.shape {
            let text = match tree::build(vertices, indices) {
                Ok(tree) => tree.text(),
                Err(refusal) => format!("refused {refusal}\n"),
            };
            write!(out, "record {}\n{text}", number + 1).expect("standard output");
        }
    }
    out.flush().expect("standard output");
}
