//! What the Rust does that a reader would not expect, each on a small input. The
//! definitions follow document 01 and the Rust here; these answers are not wishes.

use oracle::answer::{self, Answer, Ray};

fn down(origin: [f64; 3], maximum: f64) -> Ray {
    Ray {
        origin,
        direction: [0.0, 0.0, -1.0],
        maximum,
        near: 0.0,
    }
}

fn is_hit(answer: Answer) -> bool {
    matches!(answer, Answer::Hit { .. })
}

/// A grid of one cell across and `layers` - 1 cells high, values layer - 0.5: every
/// vertical ray through it crosses the surface in the lowest cell.
fn lowest_cell(height: f64, layers: u32, from: f64) -> Answer {
    let values: Vec<f64> = (0..4 * layers).map(|k| f64::from(k / 4) - 0.5).collect();
    let ray = down([0.5, 0.5, from], 2.0 * from);
    answer::level_set(&ray, [2, 2, layers], [0.0; 3], [1.0, 1.0, height], &values)
}

#[test]
fn a_distance_grid_is_missed_from_afar() {
    // The step to the next cell is below the last place of the distance so far, and
    // the walk takes that for the end of the grid.
    let third = 1.0 / 3.0;
    assert!((1..65).all(|from| is_hit(lowest_cell(third, 4, f64::from(from)))));
    assert_eq!(lowest_cell(third, 4, 65.0), Answer::None);
    let missed = |from: &u32| lowest_cell(third, 4, f64::from(*from)) == Answer::None;
    assert_eq!((1..4_000).filter(missed).count(), 3_935);
}

#[test]
fn a_distance_grid_is_refused_for_a_sample_a_hair_outside() {
    assert_eq!(lowest_cell(0.1, 3, 3.0), Answer::Refused(5));
}

#[test]
fn a_distance_grid_refuses_a_direction_that_its_slab_test_takes_as_parallel() {
    let values: Vec<f64> = (0..8).map(|k| f64::from(k / 4) - 0.5).collect();
    let mut ray = down([0.5, 0.5, 2.0], 5.0);
    let cast = |ray: &Ray| answer::level_set(ray, [2; 3], [0.0; 3], [1.0; 3], &values);
    assert!(is_hit(cast(&ray)));
    ray.direction[0] = 5e-324;
    assert_eq!(cast(&ray), Answer::Refused(6));
}

#[test]
fn a_distance_grid_above_zero_everywhere_is_hit_where_its_values_are_tiny() {
    let values: Vec<f64> = (0..8).map(|k| f64::from(1 + k / 4) * 1e-15).collect();
    let ray = down([0.5, 0.5, 2.0], 5.0);
    assert!(is_hit(answer::level_set(
        &ray, [2; 3], [0.0; 3], [1.0; 3], &values
    )));
}

#[test]
fn a_hit_at_a_distance_grid_lies_off_its_surface_behind_an_edge_of_cells() {
    // The ray passes y = 2 and z = 3 at once. In the cell behind that edge, x from 0 to 1
    // and y and z from 2 to 3, the values between the nodes are 2.5 - y.
    let node = |k: u32| [k % 5, k / 5 % 5, k / 25].map(f64::from);
    let value = |[x, y, z]: [f64; 3]| (x - 0.5).abs() + (y - 3.0).abs() + (z - 2.5).abs() - 1.5;
    let values: Vec<f64> = (0..125).map(|k| value(node(k))).collect();
    let length = 29.0_f64.sqrt();
    let ray = Ray {
        origin: [2.75, -2.0, 6.0],
        direction: [-2.0 / length, 4.0 / length, -3.0 / length],
        maximum: 40.0,
        near: 0.0,
    };
    let cast = answer::level_set(&ray, [5; 3], [0.0; 3], [1.0; 3], &values);
    let Answer::Hit { distance, .. } = cast else {
        panic!("{cast:?}");
    };
    let y = ray.origin[1] + ray.direction[1] * distance;
    assert!(2.488 < y && y < 2.49);
}

#[test]
fn a_hit_at_a_distance_grid_lies_past_the_maximum() {
    // The walk enters at 1.5 steps of 2^-52 and ends at the maximum, 1 and 3 steps. The way between is a tie, rounded up
    // to 1 and 2 steps; at its end the sum is a tie again, rounded up to 1 and 4.
    let step = f64::EPSILON;
    let ray = Ray {
        origin: [-1.5 * step, 0.5, 0.5],
        direction: [1.0, 0.0, 0.0],
        maximum: 1.0 + 3.0 * step,
        near: 0.0,
    };
    let values: Vec<f64> = (0..8).map(|k| 1.0 - f64::from(2 * (k % 2))).collect();
    let cast = answer::level_set(&ray, [2; 3], [0.0; 3], [2.0; 3], &values);
    let Answer::Hit { distance, .. } = cast else {
        panic!("{cast:?}");
    };
    assert_eq!(distance, 1.0 + 4.0 * step);
    assert!(distance > ray.maximum);
}

#[test]
fn the_normal_of_a_distance_grid_does_not_face_the_ray() {
    let values: Vec<f64> = (0..8).map(|k| f64::from(k / 4) - 0.5).collect();
    let ray = Ray {
        origin: [0.5, 0.5, 0.25],
        direction: [0.0, 0.0, 1.0],
        maximum: 5.0,
        near: 0.0,
    };
    let cast = answer::level_set(&ray, [2; 3], [0.0; 3], [1.0; 3], &values);
    assert!(matches!(cast, Answer::Hit { normal: [x, y, z], .. } if [x, y, z] == [0.0, 0.0, 1.0]));
}

#[test]
fn a_square_of_two_triangles_is_missed_on_its_diagonal() {
    // Whole coordinates; the diagonal is the side opposite both first corners.
    let vertices = [
        [0.0, 0.0, 0.0],
        [31.0, 0.0, 0.0],
        [0.0, 31.0, 0.0],
        [31.0, 31.0, 0.0],
    ];
    let cast = |x, indices: &[u32]| {
        answer::mesh(
            &down([x, 31.0 - x, 1.0], 2.0),
            vertices.as_flattened(),
            indices,
        )
    };
    assert_eq!(cast(1.0, &[0, 1, 2, 3, 2, 1]), Answer::None);
    assert!(is_hit(cast(2.0, &[0, 1, 2, 3, 2, 1])));
    assert!(is_hit(cast(1.0, &[0, 1, 2, 2, 1, 3])));
}

#[test]
fn a_flat_height_grid_is_missed_between_two_cells() {
    let ray = down([3.0 * 0.95, 0.09375, 1.0], 2.0);
    let cast = answer::height_field(&ray, 2, 5, [0.95, 1.0], &[0.0; 10]);
    assert_eq!(cast, Answer::None);
}

#[test]
fn a_small_triangle_is_never_hit() {
    // The determinant is held against 32·EPS as if the edges had length 1.
    let cast = |edge: f64| {
        let corners = [[0.0; 3], [edge, 0.0, 0.0], [0.0, edge, 0.0]];
        answer::triangle(&down([edge / 4.0, edge / 4.0, 1.0], 2.0), corners)
    };
    assert_eq!(cast(8.4e-8), Answer::None);
    assert!(is_hit(cast(8.5e-8)));
}

#[test]
fn a_mesh_of_one_triangle_misses_what_the_triangle_cast_hits() {
    // The distance is rounded down, so the segment ends before the triangle's box.
    let corners = [[-50.0, -50.0, 0.0], [60.0, -50.0, 0.0], [0.0, 50.0, 0.0]];
    let ray = down([0.0, 0.0, 0.1], 0.1f64.next_down());
    assert!(is_hit(answer::triangle(&ray, corners)));
    assert_eq!(
        answer::mesh(&ray, corners.as_flattened(), &[0, 1, 2]),
        Answer::None
    );
}

#[test]
fn a_corner_that_is_not_a_number_has_a_box_and_refuses_the_cast() {
    let vertices = [0.0, 0.0, 0.0, 1.0, f64::NAN, 0.0, 0.0, 1.0, 0.0];
    let ray = down([0.25, 0.25, 1.0], 2.0);
    assert_eq!(
        answer::mesh(&ray, &vertices, &[0, 1, 2]),
        Answer::Refused(6)
    );
}
