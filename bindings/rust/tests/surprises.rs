//! What a caller would not expect: the inputs that docs/DIFFERENCES.md lists as found in the Rust. The answers are
//! those that the unchanged Rust gave (oracle/tests/surprises.rs), and the definitions say the same, but for s6.
use probe_rays::{
    ray_height_field, ray_level_set, ray_triangle, Cast, HeightField, LevelSet, Mesh, Ray, Refusal,
};

fn down(origin: [f64; 3], max_distance: f64) -> Ray {
    Ray::new(origin, [0.0, 0.0, -1.0], max_distance)
}

fn is_hit<H>(cast: Cast<H>) -> bool {
    matches!(cast, Cast::Hit(_))
}

/// A grid of one cell across with these values, a layer of four after another.
fn one_cell(layers: u32, height: f64, values: &[f64], ray: &Ray) -> Cast {
    let grid = LevelSet {
        sides: [2, 2, layers],
        origin: [0.0; 3],
        spacing: [1.0, 1.0, height],
        values,
    };
    ray_level_set(ray, &grid)
}

/// The same with values layer - 0.5: every vertical ray through it crosses the surface in the lowest cell.
fn lowest_cell(height: f64, layers: u32, from: f64) -> Cast {
    let values: Vec<f64> = (0..4 * layers).map(|k| f64::from(k / 4) - 0.5).collect();
    one_cell(layers, height, &values, &down([0.5, 0.5, from], 2.0 * from))
}

#[test]
fn s1_a_distance_grid_is_missed_from_afar() {
    let third = 1.0 / 3.0;
    assert!((1..65).all(|from| is_hit(lowest_cell(third, 4, f64::from(from)))));
    assert_eq!(lowest_cell(third, 4, 65.0), Cast::None);
}

#[test]
fn s2_a_square_of_two_triangles_is_missed_on_its_diagonal() {
    let corners = [
        [0.0, 0.0, 0.0],
        [31.0, 0.0, 0.0],
        [0.0, 31.0, 0.0],
        [31.0, 31.0, 0.0],
    ];
    let cast = |x, second| {
        let mut mesh = Mesh::build(corners, [[0, 1, 2], second]).unwrap();
        mesh.cast(&down([x, 31.0 - x, 1.0], 2.0))
    };
    assert_eq!(cast(1.0, [3, 2, 1]), Cast::None);
    assert!(is_hit(cast(2.0, [3, 2, 1])));
    assert!(is_hit(cast(1.0, [2, 1, 3])));
}

#[test]
fn s3_a_flat_height_grid_is_missed_between_two_cells() {
    let field = HeightField {
        rows: 2,
        columns: 5,
        spacing: [0.95, 1.0],
        heights: &[0.0; 10],
    };
    let ray = down([3.0 * 0.95, 0.09375, 1.0], 2.0);
    assert_eq!(ray_height_field(&ray, &field), Cast::None);
}

#[test]
fn s4_a_small_triangle_is_never_hit() {
    let cast = |edge: f64| {
        let corners = [[0.0; 3], [edge, 0.0, 0.0], [0.0, edge, 0.0]];
        ray_triangle(&down([edge / 4.0, edge / 4.0, 1.0], 2.0), &corners)
    };
    assert_eq!(cast(8.4e-8), Cast::None);
    assert!(is_hit(cast(8.5e-8)));
}

#[test]
fn s5_a_mesh_of_one_triangle_misses_what_the_triangle_cast_hits() {
    let corners = [[-50.0, -50.0, 0.0], [60.0, -50.0, 0.0], [0.0, 50.0, 0.0]];
    let below = f64::from_bits(0.1_f64.to_bits() - 1);
    let ray = down([0.0, 0.0, 0.1], below);
    assert!(is_hit(ray_triangle(&ray, &corners)));
    assert_eq!(
        Mesh::build(corners, [[0, 1, 2]]).unwrap().cast(&ray),
        Cast::None
    );
}

#[test]
fn s6_a_sample_a_hair_outside_a_distance_grid_is_drawn_onto_it() {
    // The Rust refuses with 5; document 02's M-103 asks for the hit. The surface is at half the lowest cell.
    let Cast::Hit(hit) = lowest_cell(0.1, 3, 3.0) else {
        panic!("no hit");
    };
    assert_eq!(hit.normal, [0.0, 0.0, 1.0]);
    assert!((hit.distance - 2.95).abs() < 1e-14);
}

#[test]
fn s7_a_distance_grid_refuses_a_direction_that_its_slab_test_takes_as_parallel() {
    let values: Vec<f64> = (0..8).map(|k| f64::from(k / 4) - 0.5).collect();
    let mut ray = down([0.5, 0.5, 2.0], 5.0);
    assert!(is_hit(one_cell(2, 1.0, &values, &ray)));
    ray.direction[0] = 5e-324;
    assert_eq!(
        one_cell(2, 1.0, &values, &ray),
        Cast::Refused(Refusal::Overflow)
    );
}

#[test]
fn s8_a_distance_grid_above_zero_everywhere_is_hit_where_its_values_are_tiny() {
    let values: Vec<f64> = (0..8).map(|k| f64::from(1 + k / 4) * 1e-15).collect();
    assert!(is_hit(one_cell(
        2,
        1.0,
        &values,
        &down([0.5, 0.5, 2.0], 5.0)
    )));
}

#[test]
fn s9_a_corner_that_is_not_a_number_has_a_box_and_refuses_the_cast() {
    let corners = [[0.0, 0.0, 0.0], [1.0, f64::NAN, 0.0], [0.0, 1.0, 0.0]];
    let mut mesh = Mesh::build(corners, [[0, 1, 2]]).unwrap();
    let cast = mesh.cast(&down([0.25, 0.25, 1.0], 2.0));
    assert_eq!(cast, Cast::Refused(Refusal::Overflow));
}

#[test]
fn s10_a_hit_at_a_distance_grid_lies_off_its_surface_behind_an_edge_of_cells() {
    // the surface in the cell of the hit is y = 2.5
    let node = |k: u32| [k % 5, k / 5 % 5, k / 25].map(f64::from);
    let value = |[x, y, z]: [f64; 3]| (x - 0.5).abs() + (y - 3.0).abs() + (z - 2.5).abs() - 1.5;
    let values: Vec<f64> = (0..125).map(|k| value(node(k))).collect();
    let grid = LevelSet {
        sides: [5; 3],
        origin: [0.0; 3],
        spacing: [1.0; 3],
        values: &values,
    };
    let length = 29.0_f64.sqrt();
    let along = 4.0 / length;
    let ray = Ray::new(
        [2.75, -2.0, 6.0],
        [-2.0 / length, along, -3.0 / length],
        40.0,
    );
    let Cast::Hit(hit) = ray_level_set(&ray, &grid) else {
        panic!("no hit");
    };
    let y = -2.0 + along * hit.distance;
    assert!(2.488 < y && y < 2.49);
}

#[test]
fn s11_a_hit_at_a_distance_grid_lies_past_the_maximum() {
    let step = f64::EPSILON;
    let values: Vec<f64> = (0..8).map(|k| 1.0 - f64::from(2 * (k % 2))).collect();
    let grid = LevelSet {
        sides: [2; 3],
        origin: [0.0; 3],
        spacing: [2.0; 3],
        values: &values,
    };
    let maximum = 1.0 + 3.0 * step;
    let ray = Ray::new([-1.5 * step, 0.5, 0.5], [1.0, 0.0, 0.0], maximum);
    let Cast::Hit(hit) = ray_level_set(&ray, &grid) else {
        panic!("no hit");
    };
    assert_eq!(hit.distance, 1.0 + 4.0 * step);
    assert!(hit.distance > maximum);
}
