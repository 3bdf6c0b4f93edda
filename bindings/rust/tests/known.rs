//! The marked answers of document 01, K1 to K13, through the safe interface. K14 and K15 are of functions that the
//! library does not offer. Directions are (0,0,-1) unless given, and T is the triangle (0,0,0), (1,0,0), (0,1,0).
use probe_rays::{
    ray_height_field, ray_level_set, ray_plane, ray_triangle, Cast, HeightField, Hit, LevelSet,
    Mesh, MeshHit, Plane, Ray, Refusal,
};

/// Equal, and printed alike, so that every number has the same bits, a zero its sign.
macro_rules! same {
    ($found:expr, $expected:expr $(,)?) => {
        match (&$found, &$expected) {
            (found, expected) => {
                assert_eq!(found, expected);
                assert_eq!(format!("{found:?}"), format!("{expected:?}"));
            }
        }
    };
}

const DOWN: [f64; 3] = [0.0, 0.0, -1.0];
const UP: [f64; 3] = [0.0, 0.0, 1.0];
const T: [[f64; 3]; 3] = [[0.0, 0.0, 0.0], [1.0, 0.0, 0.0], [0.0, 1.0, 0.0]];
const FLOOR: Plane = Plane {
    normal: UP,
    distance: 0.0,
};

fn down(origin: [f64; 3], max_distance: f64) -> Ray {
    Ray::new(origin, DOWN, max_distance)
}

fn hit_at(distance: f64) -> Cast {
    Cast::Hit(Hit {
        normal: UP,
        distance,
    })
}

/// T, as often as asked for.
fn layers(count: usize) -> Result<Mesh, Refusal> {
    Mesh::build(T, vec![[0, 1, 2]; count])
}

#[test]
fn k1_plane_hit_at_the_maximum() {
    same!(ray_plane(&down([0.0, 0.0, 2.0], 2.0), &FLOOR), hit_at(2.0));
}

#[test]
fn k2_plane_past_the_maximum() {
    same!(ray_plane(&down([0.0, 0.0, 2.0], 1.0), &FLOOR), Cast::None);
}

#[test]
fn k3_plane_parallel() {
    let along = Ray::new([0.0, 0.0, 2.0], [1.0, 0.0, 0.0], 2.0);
    same!(ray_plane(&along, &FLOOR), Cast::None);
}

#[test]
fn k4_triangle_hit() {
    same!(ray_triangle(&down([0.25, 0.25, 1.0], 1.0), &T), hit_at(1.0));
}

#[test]
fn k5_triangle_hit_on_the_side() {
    same!(ray_triangle(&down([0.5, 0.5, 1.0], 1.0), &T), hit_at(1.0));
}

#[test]
fn k6_triangle_missed() {
    same!(ray_triangle(&down([0.75, 0.5, 1.0], 1.0), &T), Cast::None);
}

#[test]
fn k7_large_triangle_hit() {
    let corners = [[0.0, 0.0, 0.0], [1e160, 0.0, 0.0], [0.0, 1.0, 0.0]];
    let ray = down([2.5e159, 0.25, 1.0], 10.0);
    same!(ray_triangle(&ray, &corners), hit_at(1.0));
}

/// The cross of the edges is infinite, and the determinant is not.
#[test]
fn triangle_without_a_normal() {
    let (x, y, p) = (2f64.powi(610), 2f64.powi(210), 2f64.powi(-10));
    let corners = [[0.0, 0.0, 0.0], [x, 0.0, p], [0.0, x, 0.0]];
    let ray = Ray::new([x / 4.0, y, p / 4.0], [1.0, 0.0, 0.0], 1.0);
    same!(
        ray_triangle(&ray, &corners),
        Cast::Refused(Refusal::NoNormal)
    );
    same!(Refusal::NoNormal.number(), 7);
}

#[test]
fn k8_triangle_with_a_distance_that_is_not_a_number() {
    let corners = [[0.0, 0.0, 0.0], [1e160, 1e160, 0.0], [0.0, 1e-7, 0.0]];
    assert_eq!(
        ray_triangle(&down([5e159, 5e159, 1.0], 10.0), &corners),
        Cast::Refused(Refusal::Overflow)
    );
}

#[test]
fn k9_mesh_of_two_equal_triangles() {
    let cast = layers(2).unwrap().cast(&down([0.25, 0.25, 1.0], 1.0));
    let expected = MeshHit {
        normal: UP,
        distance: 1.0,
        triangle: 0,
    };
    same!(cast, Cast::Hit(expected));
}

#[test]
fn k10_build_of_no_triangle() {
    same!(layers(0).unwrap_err(), Refusal::OutOfBounds);
    same!(Refusal::OutOfBounds.number(), 5);
}

#[test]
fn k11_nodes_of_four_and_five_triangles() {
    same!(layers(4).unwrap().tree().nodes, 1);
    same!(layers(5).unwrap().tree().nodes, 3);
}

#[test]
fn k12_height_grid_hit() {
    let field = HeightField {
        rows: 2,
        columns: 2,
        spacing: [1.0, 1.0],
        heights: &[0.0; 4],
    };
    same!(
        ray_height_field(&down([0.75, 0.25, 1.0], 2.0), &field),
        hit_at(1.0)
    );
}

#[test]
fn k13_distance_grid_without_a_gradient() {
    let grid = LevelSet {
        sides: [2; 3],
        origin: [0.0; 3],
        spacing: [1.0; 3],
        values: &[0.0; 8],
    };
    let cast = ray_level_set(&down([0.5, 0.5, 2.0], 5.0), &grid);
    same!(cast, Cast::Refused(Refusal::NotConvergent));
    same!(Refusal::NotConvergent.number(), 8);
}

/// The three records of document 01's printed result.
#[test]
fn printed_result() {
    same!(ray_plane(&down([0.0, 0.0, 2.0], 5.0), &FLOOR), hit_at(2.0));
    same!(ray_plane(&down([0.0, 0.0, 2.0], 1.0), &FLOOR), Cast::None);
    let long = Ray::new([0.0, 0.0, 2.0], [0.0, 0.0, -2.0], 5.0);
    same!(
        ray_plane(&long, &FLOOR),
        Cast::Refused(Refusal::InvalidInput)
    );
}
