//! The marked answers K1 to K13 and the worked example of document 01.

use oracle::{
    answer::{self, Answer, Ray},
    record::{self, Record, Shape},
    tree,
};

const DOWN: [f64; 3] = [0.0, 0.0, -1.0];
const UP: [f64; 3] = [0.0, 0.0, 1.0];
const T: [[f64; 3]; 3] = [[0.0, 0.0, 0.0], [1.0, 0.0, 0.0], [0.0, 1.0, 0.0]];

fn down(origin: [f64; 3], maximum: f64) -> Ray {
    Ray {
        origin,
        direction: DOWN,
        maximum,
        near: 0.0,
    }
}

fn distance(answer: Answer) -> f64 {
    match answer {
        Answer::Hit { distance, .. } => distance,
        other => panic!("{other:?} is no hit"),
    }
}

fn many(times: usize) -> (Vec<f64>, Vec<u32>) {
    (T.as_flattened().to_vec(), [0, 1, 2].repeat(times))
}

#[test]
fn k1_to_k3_plane() {
    let mut ray = down([0.0, 0.0, 2.0], 2.0);
    assert_eq!(distance(answer::plane(&ray, UP, 0.0)), 2.0);
    ray.maximum = 1.0;
    assert_eq!(answer::plane(&ray, UP, 0.0), Answer::None);
    ray.direction = [1.0, 0.0, 0.0];
    assert_eq!(answer::plane(&ray, UP, 0.0), Answer::None);
}

#[test]
fn k4_to_k6_triangle() {
    assert_eq!(
        distance(answer::triangle(&down([0.25, 0.25, 1.0], 1.0), T)),
        1.0
    );
    assert_eq!(
        distance(answer::triangle(&down([0.5, 0.5, 1.0], 1.0), T)),
        1.0
    );
    assert_eq!(
        answer::triangle(&down([0.75, 0.5, 1.0], 1.0), T),
        Answer::None
    );
}

#[test]
fn k7_k8_extreme_triangles() {
    let wide = [[0.0; 3], [1e160, 0.0, 0.0], [0.0, 1.0, 0.0]];
    let ray = down([2.5e159, 0.25, 1.0], 10.0);
    assert_eq!(answer::triangle(&ray, wide), Answer::Refused(7));
    let thin = [[0.0; 3], [1e160, 1e160, 0.0], [0.0, 1e-7, 0.0]];
    let ray = down([5e159, 5e159, 1.0], 10.0);
    assert!(distance(answer::triangle(&ray, thin)).is_nan());
}

#[test]
fn k9_to_k11_mesh() {
    let (vertices, indices) = many(2);
    let cast = answer::mesh(&down([0.25, 0.25, 1.0], 1.0), &vertices, &indices);
    assert!(matches!(cast, Answer::Hit { index: Some(0), .. }));
    assert_eq!(tree::build(&[], &[]), Err(5));
    for (times, nodes) in [(4, 1), (5, 3)] {
        let (vertices, indices) = many(times);
        assert_eq!(tree::build(&vertices, &indices).unwrap().node_count, nodes);
    }
}

#[test]
fn k12_k13_grids() {
    let ray = down([0.75, 0.25, 1.0], 2.0);
    let heights = answer::height_field(&ray, 2, 2, [1.0; 2], &[0.0; 4]);
    assert_eq!(distance(heights), 1.0);
    let ray = down([0.5, 0.5, 2.0], 5.0);
    let grid = answer::level_set(&ray, [2; 3], [0.0; 3], [1.0; 3], &[0.0; 8]);
    assert_eq!(grid, Answer::Refused(8));
}

#[test]
fn worked_example_byte_for_byte() {
    let mut stream = Vec::new();
    for (z, maximum) in [(-1.0, 5.0), (-1.0, 1.0), (-2.0, 5.0)] {
        let ray = Ray {
            origin: [0.0, 0.0, 2.0],
            direction: [0.0, 0.0, z],
            maximum,
            near: 0.0,
        };
        let shape = Shape::Plane {
            normal: UP,
            distance: 0.0,
        };
        let record = Record {
            version: 1,
            ray,
            shape,
        }
        .write();
        assert_eq!(record[..4], 90u32.to_be_bytes());
        stream.extend(record);
    }
    let mut output = String::new();
    record::probe(&stream, |line, _| output += &format!("{line}\n"));
    assert_eq!(
        output,
        "1 hit 0000000000000000 0000000000000000 3ff0000000000000 4000000000000000\n\
         2 none\n\
         3 refused 1\n"
    );
}
