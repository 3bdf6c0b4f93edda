//! Rays with a near distance, and refusals in document 01's order. The answers are worked out by hand.

use probe_rays::{
    calls, ray_height_field, ray_level_set, ray_plane, ray_triangle, sys, Cast, HeightField, Hit,
    LevelSet, Mesh, Plane, Ray, Refusal,
};

const UP: [f64; 3] = [0.0, 0.0, 1.0];
const GROUND: Plane = Plane {
    normal: UP,
    distance: 0.0,
};
const T: [[f64; 3]; 3] = [[0.0, 0.0, 0.0], [1.0, 0.0, 0.0], [0.0, 1.0, 0.0]];

fn down(height: f64, max_distance: f64) -> Ray {
    Ray::new([0.25, 0.25, height], [0.0, 0.0, -1.0], max_distance)
}

fn at(cast: Cast<Hit>) -> Option<f64> {
    match cast {
        Cast::Hit(hit) => Some(hit.distance),
        Cast::None => None,
        Cast::Refused(refusal) => panic!("{refusal}"),
    }
}

#[test]
fn a_surface_at_near_is_hit_and_a_nearer_one_is_not() {
    let ray = down(2.0, 5.0);
    for near in [0.0, -0.0, 1.0, 2.0] {
        assert_eq!(at(ray_plane(&ray.with_near(near), &GROUND)), Some(2.0));
        assert_eq!(at(ray_triangle(&ray.with_near(near), &T)), Some(2.0));
    }
    for near in [2.0_f64.next_up(), 3.0, 5.0] {
        assert_eq!(at(ray_plane(&ray.with_near(near), &GROUND)), None);
        assert_eq!(at(ray_triangle(&ray.with_near(near), &T)), None);
    }
    // near equal to the maximum, and to the distance
    let reach = down(2.0, 2.0).with_near(2.0);
    assert_eq!(at(ray_plane(&reach, &GROUND)), Some(2.0));
}

#[test]
fn near_is_finite_and_from_0_to_the_maximum() {
    let refused = Cast::Refused(Refusal::InvalidInput);
    for near in [-1.0, -5e-324, 5.5, f64::INFINITY, f64::NAN] {
        assert_eq!(ray_plane(&down(2.0, 5.0).with_near(near), &GROUND), refused);
    }
    // a maximum of -0 admits a near distance of 0
    assert_eq!(
        at(ray_plane(&down(0.0, -0.0).with_near(0.0), &GROUND)),
        Some(0.0)
    );
}

/// Two layers, at heights 1 and 0: the first is passed over, and its index with it.
#[test]
fn the_least_hit_of_a_mesh_is_the_least_not_below_near() {
    let layers = [T.map(|[x, y, _]| [x, y, 1.0]), T].concat();
    let mut mesh = Mesh::build(layers, [[0, 1, 2], [3, 4, 5]]).unwrap();
    let mut hit = |near: f64| match mesh.cast(&down(3.0, 10.0).with_near(near)) {
        Cast::Hit(hit) => Some((hit.distance, hit.triangle)),
        Cast::None => None,
        Cast::Refused(refusal) => panic!("{refusal}"),
    };
    assert_eq!(hit(0.0), Some((2.0, 0)));
    assert_eq!(hit(2.0), Some((2.0, 0)));
    assert_eq!(hit(2.5), Some((3.0, 1)));
    assert_eq!(hit(3.5), None);
}

#[test]
fn the_grids_pass_over_what_is_nearer() {
    let heights = [0.0; 4];
    let field = HeightField {
        rows: 2,
        columns: 2,
        spacing: [1.0; 2],
        heights: &heights,
    };
    let ray = down(2.0, 5.0);
    assert_eq!(at(ray_height_field(&ray.with_near(2.0), &field)), Some(2.0));
    assert_eq!(at(ray_height_field(&ray.with_near(2.5), &field)), None);
    // the height less a half: the surface is at half the grid's height
    let values = [-0.5, -0.5, -0.5, -0.5, 0.5, 0.5, 0.5, 0.5];
    let grid = LevelSet {
        sides: [2; 3],
        origin: [0.0; 3],
        spacing: [1.0; 3],
        values: &values,
    };
    for near in [0.0, 1.25] {
        let distance = at(ray_level_set(&ray.with_near(near), &grid)).expect("a hit");
        assert!((distance - 1.5).abs() < 1e-9, "{distance}");
    }
    // from below the surface on the grid has no further one
    assert_eq!(at(ray_level_set(&ray.with_near(1.75), &grid)), None);
}

/// The calls of seven numbers are those of eight with a near distance of 0.
#[test]
fn the_calls_of_seven_numbers_stay() {
    let mut hits = [[0.0; 4]; 2];
    let [old, new] = &mut hits;
    // SAFETY: each pointer and length is an array's.
    let answers = unsafe {
        [
            sys::probe_ray_plane(
                0.0,
                0.0,
                2.0,
                0.0,
                0.0,
                -1.0,
                5.0,
                0.0,
                0.0,
                1.0,
                0.0,
                old.as_mut_ptr(),
                4,
            ),
            sys::probe_ray_plane_near(
                0.0,
                0.0,
                2.0,
                0.0,
                0.0,
                -1.0,
                5.0,
                0.0,
                0.0,
                0.0,
                1.0,
                0.0,
                new.as_mut_ptr(),
                4,
            ),
        ]
    };
    assert_eq!(answers, [sys::HIT; 2]);
    assert_eq!(hits, [[0.0, 0.0, 1.0, 2.0]; 2]);
}

/// A bad ray with a short result slice is 1, a bad shape 2, and else the slice 3.
#[test]
fn refusals_1_and_2_go_before_a_short_result_slice() {
    let tilted = Plane {
        normal: [0.0, 0.0, 2.0],
        distance: 0.0,
    };
    let (good, bad) = (down(2.0, 5.0), down(2.0, -1.0));
    let short = &mut [7.0; 3];
    assert_eq!(calls::ray_plane(&bad, &tilted, short), 1);
    assert_eq!(calls::ray_plane(&good, &tilted, short), 2);
    assert_eq!(calls::ray_plane(&good, &GROUND, short), 3);
    assert_eq!(*short, [7.0; 3]);
}
