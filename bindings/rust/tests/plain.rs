//! The mesh cast without a tree (document 02, M-100): what it refuses, in which order, and that nothing is written then.
//! Expected answers are read off document 02 and the geometry.
use probe_rays::{calls, sys, Cast, Mesh, PlainMesh, Ray, Refusal};

/// Document 01's T, (0,0,0), (1,0,0), (0,1,0), and the same far off at x = 100.
const VERTICES: [f64; 18] = [
    0.0, 0.0, 0.0, 1.0, 0.0, 0.0, 0.0, 1.0, 0.0, 100.0, 0.0, 0.0, 101.0, 0.0, 0.0, 100.0, 1.0, 0.0,
];

/// K4's ray: straight down from (0.25, 0.25, 1), maximum 1.
fn down() -> Ray {
    Ray::new([0.25, 0.25, 1.0], [0.0, 0.0, -1.0], 1.0)
}

/// The number, with result slices that must be unchanged unless it is a hit.
fn cast(ray: &Ray, vertices: &[f64], triangles: &[u32], places: usize, indices: usize) -> u32 {
    let (mut hit, mut index) = ([7.0; 6], [7; 2]);
    let number = calls::ray_mesh_plain(
        ray,
        vertices,
        triangles,
        &mut hit[..places],
        &mut index[..indices],
    );
    let written = if number == sys::HIT { (4, 1) } else { (0, 0) };
    assert!(hit[written.0..].iter().all(|&place| place == 7.0));
    assert!(index[written.1..].iter().all(|&place| place == 7));
    number
}

#[test]
fn one_before_two_before_three_before_the_rest() {
    let long = Ray::new([0.25, 0.25, 1.0], [0.0, 0.0, -2.0], 1.0);
    let far = Ray::new([f64::MAX, 0.0, 0.0], [1.0, 0.0, 0.0], f64::MAX);
    let ragged = &VERTICES[..17];
    let (sound, past) = ([0, 1, 2], [0, 1, 9]);
    assert_eq!(cast(&long, ragged, &past, 3, 0), 1);
    assert_eq!(cast(&far, ragged, &past, 3, 0), 2);
    assert_eq!(cast(&far, &VERTICES, &past[..2], 3, 0), 2);
    assert_eq!(cast(&far, &VERTICES, &past, 3, 1), 3);
    assert_eq!(cast(&far, &VERTICES, &past, 4, 0), 3);
    assert_eq!(cast(&far, &VERTICES, &past, 4, 1), 6);
    assert_eq!(cast(&down(), &VERTICES, &past, 4, 1), 5);
    assert_eq!(cast(&down(), &VERTICES, &sound, 4, 1), sys::HIT);
    assert_eq!(cast(&down(), &VERTICES, &sound, 6, 2), sys::HIT);
}

/// 5 is found before any triangle is cast at, touching or not: K4's hit, or K7's triangle, stands before it in the mesh.
#[test]
fn a_triangle_without_a_valid_box_goes_before_all_casts() {
    assert_eq!(cast(&down(), &VERTICES, &[0, 1, 2, 3, 4, 6], 4, 1), 5);
    let mut endless = VERTICES;
    endless[9] = f64::INFINITY;
    assert_eq!(cast(&down(), &endless, &[0, 1, 2, 3, 4, 5], 4, 1), 5);
    let wide = [
        0.0,
        0.0,
        0.0,
        1e160,
        0.0,
        0.0,
        0.0,
        1.0,
        0.0,
        f64::NAN,
        9.0,
        9.0,
    ];
    let ray = Ray::new([2.5e159, 0.25, 1.0], [0.0, 0.0, -1.0], 10.0);
    assert_eq!(cast(&ray, &wide, &[0, 1, 2, 3, 3, 3], 4, 1), 5);
}

/// Minimum and maximum pass a NaN over, so one NaN coordinate leaves a box; a component of nothing else has none.
#[test]
fn one_nan_coordinate_is_no_five() {
    let mut one = VERTICES;
    one[9] = f64::NAN;
    assert_eq!(cast(&down(), &one, &[0, 1, 2, 3, 4, 5], 4, 1), sys::HIT);
    one[12] = f64::NAN;
    one[15] = f64::NAN;
    assert_eq!(cast(&down(), &one, &[0, 1, 2, 3, 4, 5], 4, 1), 5);
}

#[test]
fn no_triangles_is_none() {
    assert_eq!(cast(&down(), &VERTICES, &[], 4, 1), sys::NONE);
    assert_eq!(cast(&down(), &[], &[], 4, 1), sys::NONE);
    assert_eq!(PlainMesh::default().cast(&down()), Cast::None);
    assert_eq!(
        PlainMesh::default().build().unwrap_err(),
        Refusal::OutOfBounds
    );
}

/// The lowest index of equally near ones (K9), and the tree cast's own answer.
#[test]
fn the_lowest_of_equals_as_with_a_tree() {
    let corners = [[0.0, 0.0, 0.0], [1.0, 0.0, 0.0], [0.0, 1.0, 0.0]];
    let twice = PlainMesh::new(corners, [[0, 1, 2], [0, 1, 2]]);
    let Cast::Hit(hit) = twice.cast(&down()) else {
        panic!("K9 is a hit")
    };
    assert_eq!((hit.distance, hit.triangle), (1.0, 0));
    let mut tree = Mesh::build(corners, [[0, 1, 2], [0, 1, 2]]).unwrap();
    assert_eq!(tree.cast(&down()), twice.cast(&down()));
}
