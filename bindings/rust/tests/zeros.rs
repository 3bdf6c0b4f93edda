//! Zero keeps its sign. The bits are worked out by hand from document 01's formulas, each operation in its order: a
//! product of zeros is negative where one factor is, a sum only where both are, and x - x is +0.
use probe_rays::{
    ray_height_field, ray_level_set, ray_plane, ray_triangle, Cast, HeightField, Hit, LevelSet,
    Mesh, Plane, Ray,
};

const DOWN: [f64; 3] = [0.0, 0.0, -1.0];
const UP: [f64; 3] = [0.0, 0.0, 1.0];
const T: [[f64; 3]; 3] = [[0.0, 0.0, 0.0], [1.0, 0.0, 0.0], [0.0, 1.0, 0.0]];

/// That the numbers are these, to the bit.
fn same(found: &[f64], expected: &[f64]) {
    let bits = |numbers: &[f64]| numbers.iter().map(|x| x.to_bits()).collect::<Vec<_>>();
    assert_eq!(bits(found), bits(expected), "{found:?} for {expected:?}");
}

fn hit(cast: Cast) -> Hit {
    match cast {
        Cast::Hit(hit) => hit,
        other => panic!("{other:?}"),
    }
}

fn is_hit(cast: Cast, normal: [f64; 3], distance: f64) {
    let hit = hit(cast);
    same(&hit.normal, &normal);
    same(&[hit.distance], &[distance]);
}

#[test]
fn a_plane_normal_as_given_keeps_its_zeros() {
    let plane = |normal| Plane {
        normal,
        distance: 0.0,
    };
    let ray = Ray::new([0.0, 0.0, 2.0], DOWN, 5.0);
    is_hit(
        ray_plane(&ray, &plane([0.0, -0.0, 1.0])),
        [0.0, -0.0, 1.0],
        2.0,
    );
    is_hit(
        ray_plane(&ray, &plane([-0.0, 0.0, 1.0])),
        [-0.0, 0.0, 1.0],
        2.0,
    );
}

#[test]
fn a_plane_normal_that_is_turned_turns_its_zeros() {
    let plane = Plane {
        normal: [0.0, -0.0, 1.0],
        distance: 0.0,
    };
    is_hit(
        ray_plane(&Ray::new([0.0, 0.0, -2.0], UP, 5.0), &plane),
        [-0.0, 0.0, -1.0],
        2.0,
    );
}

#[test]
fn zero_over_a_negative_is_a_negative_distance_and_no_miss() {
    let plane = Plane {
        normal: UP,
        distance: 0.0,
    };
    is_hit(ray_plane(&Ray::new([0.0; 3], DOWN, 5.0), &plane), UP, -0.0);
    is_hit(
        ray_plane(&Ray::new([0.0; 3], UP, 5.0), &plane),
        [-0.0, -0.0, -1.0],
        0.0,
    );
}

#[test]
fn a_triangle_from_behind_has_negative_zeros_and_a_negative_distance() {
    let ray = Ray::new([0.25, 0.25, 0.0], UP, 1.0);
    is_hit(ray_triangle(&ray, &T), [-0.0, -0.0, -1.0], -0.0);
}

#[test]
fn so_has_a_mesh() {
    let mut mesh = Mesh::build(T, [[0, 1, 2]]).unwrap();
    let Cast::Hit(hit) = mesh.cast(&Ray::new([0.25, 0.25, 0.0], UP, 1.0)) else {
        panic!("no hit");
    };
    same(&hit.normal, &[-0.0, -0.0, -1.0]);
    same(&[hit.distance], &[-0.0]);
}

/// Of two distances that are equal, +0 and -0, the lower index keeps its own sign.
#[test]
fn zeros_are_a_tie_in_a_mesh() {
    let corners = [[0.0, 0.0, 0.0], [1.0, 0.0, 0.0], [0.0, 1.0, 0.0]];
    let first = |triangles: [[u32; 3]; 2]| {
        let mut mesh = Mesh::build(corners, triangles).unwrap();
        match mesh.cast(&Ray::new([0.25, 0.25, 0.0], UP, 1.0)) {
            Cast::Hit(hit) => (hit.triangle, hit.distance),
            other => panic!("{other:?}"),
        }
    };
    // [0, 2, 1] is the same triangle the other way round: its determinant is 1, so its distance is +0
    let (front, back) = ([0, 2, 1], [0, 1, 2]);
    assert_eq!(first([back, front]).0, 0);
    assert_eq!(first([front, back]).0, 0);
    same(
        &[first([back, front]).1, first([front, back]).1],
        &[-0.0, 0.0],
    );
}

#[test]
fn so_has_a_height_grid() {
    let field = HeightField {
        rows: 2,
        columns: 2,
        spacing: [1.0; 2],
        heights: &[0.0; 4],
    };
    let ray = Ray::new([0.75, 0.25, 0.0], UP, 2.0);
    is_hit(ray_height_field(&ray, &field), [-0.0, -0.0, -1.0], -0.0);
}

/// The slope along x is -2^-53 or -2^-54 over 1e308, which is nearer to 0 than to the least number: -0.
#[test]
fn a_distance_grid_s_normal_has_a_negative_zero() {
    let next =
        |x: f64, up: bool| f64::from_bits(if up { x.to_bits() + 1 } else { x.to_bits() - 1 });
    let (low, high) = (next(-0.5, true), next(0.5, false));
    let grid = LevelSet {
        sides: [2; 3],
        origin: [0.0; 3],
        spacing: [1e308, 1.0, 1.0],
        values: &[-0.5, low, -0.5, low, 0.5, high, 0.5, high],
    };
    let hit = hit(ray_level_set(
        &Ray::new([5e307, 0.5, 2.0], DOWN, 5.0),
        &grid,
    ));
    same(&hit.normal, &[-0.0, 0.0, 1.0]);
    assert_eq!(hit.distance, 1.5);
}

/// Minimum and maximum give the first operand if equal: a box side has the sign of the first corner that it equals.
#[test]
fn a_built_box_has_the_first_corner_s_zero() {
    let sides = |first: f64, second: f64| {
        let corners = [[first, 0.0, 0.0], [second, 1.0, 0.0], [second, 0.0, 1.0]];
        let mesh = Mesh::build(corners, [[0, 1, 2]]).unwrap();
        let tree = mesh.tree();
        same(&tree.node_boxes[..6], &tree.triangle_boxes[..6]);
        [tree.triangle_boxes[0], tree.triangle_boxes[3]]
    };
    same(&sides(-0.0, 0.0), &[-0.0, -0.0]);
    same(&sides(0.0, -0.0), &[0.0, 0.0]);
}

/// An exporter's +0 for -0 does not fail a tree: boxes are equal as IEEE 754 has it.
#[test]
fn a_tree_passes_with_the_other_zero() {
    let mesh = Mesh::build(
        [[-0.0, 0.0, 0.0], [0.0, 1.0, 0.0], [0.0, 0.0, 1.0]],
        [[0, 1, 2]],
    )
    .unwrap();
    let mut tree = mesh.tree().clone();
    tree.triangle_boxes[0] = 0.0;
    tree.node_boxes[0] = 0.0;
    let corners = [[-0.0, 0.0, 0.0], [0.0, 1.0, 0.0], [0.0, 0.0, 1.0]];
    assert!(Mesh::with_tree(corners, [[0, 1, 2]], tree).is_ok());
}
