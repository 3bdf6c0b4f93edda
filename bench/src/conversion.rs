//! One record converted to floats of 4 bytes and back. The Rust has no records; what comes out is the oracle's own writing.

use crate::{
    clock, inputs,
    rows::{Planned, plan},
    timing::Row,
};
use oracle::{
    answer::Ray,
    record::{Record, Shape},
};
use probe_rays::{calls, sys::DONE};
use std::hint::black_box;

type Convert = fn(&[u8], &mut [u8], &mut [usize]) -> u32;

/// A mesh of 288 triangles on whole millimetres, which is about what a record holds, in one version.
fn record(version: u8) -> Vec<u8> {
    let mesh = inputs::plates(12, 6);
    let record = Record {
        version,
        ray: Ray {
            origin: [300.0, 70.0, 60.0],
            direction: [0.0, 0.0, -1.0],
            maximum: 100.0,
            near: 0.0,
        },
        shape: Shape::Mesh {
            vertices: mesh.vertices.iter().map(|x| x.floor()).collect(),
            indices: mesh.triangles,
        },
    };
    record.write()
}

fn row(name: &str, given: Vec<u8>, expected: &[u8], convert: Convert) -> Row {
    let (mut out, mut written) = (vec![0; 8_192], [0]);
    assert_eq!(convert(&given, &mut out, &mut written), DONE, "{name}");
    assert!(out[..written[0]] == *expected, "{name}");
    Row {
        name: name.to_owned(),
        units: 1.0,
        clock: clock::thread,
        ours: Box::new(move || {
            black_box(convert(black_box(&given), &mut out, &mut written));
            black_box(&mut out);
        }),
        rust: None,
    }
}

pub fn rows() -> Vec<Planned> {
    vec![
        plan(
            "conversion, a mesh of 288 triangles, to version 3",
            |name| row(name, record(2), &record(3), calls::record_to_short),
        ),
        plan(
            "conversion, a mesh of 288 triangles, to version 2",
            |name| row(name, record(3), &record(2), calls::record_to_long),
        ),
    ]
}
