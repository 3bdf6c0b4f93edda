//! The merge of two boards. The Rust has none.

use crate::{
    areas::{self, Tree},
    clock, inputs,
    rows::{Both, Planned, plan},
    timing::Row,
};
use probe_rays::sys::{DONE, YES};
use std::hint::black_box;

/// The time is a triangle's; the result passes the check.
fn merge(name: &str, columns: usize, rows: usize) -> Row {
    let board = Both::of(inputs::sheet(columns, rows));
    let n = 2 * board.mesh.count();
    let mut mesh = areas::Mesh {
        vertices: vec![0.0; 2 * board.mesh.vertices.len()],
        triangles: vec![0; 3 * n],
    };
    let (mut tree, mut marks) = (Tree::for_triangles(n), vec![0; 3 * n]);
    let pair = [(&board.mesh, &board.tree); 2];
    assert_eq!(areas::merge(pair, &mut mesh, &mut tree, &mut marks), DONE);
    assert_eq!(areas::check(&mesh, &tree, &mut marks), YES, "{name}");
    Row {
        name: name.to_owned(),
        units: n as f64,
        clock: clock::thread,
        ours: Box::new(move || {
            let pair = [(&board.mesh, &board.tree); 2];
            black_box(areas::merge(
                black_box(pair),
                &mut mesh,
                &mut tree,
                &mut marks,
            ));
            black_box((&mut mesh, &mut tree));
        }),
        rust: None,
    }
}

pub fn rows() -> Vec<Planned> {
    vec![
        plan("merge, twice 1,000 triangles (sheet), a triangle", |name| {
            merge(name, 25, 20)
        }),
        plan(
            "merge, twice 32,768 triangles (sheet), a triangle",
            |name| merge(name, 128, 128),
        ),
    ]
}
