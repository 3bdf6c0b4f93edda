//! The casts whose ray and shape are slices: they answer what the casts by numbers answer, and test lengths in the order
//! of the refusals.

use probe_rays::{calls, sys, Plane, Ray};

const RAY: [f64; 8] = [0.25, 0.25, 2.0, 0.0, 0.0, -1.0, 5.0, 0.0];
const GROUND: [f64; 4] = [0.0, 0.0, 1.0, 0.0];
const CORNERS: [f64; 9] = [0.0, 0.0, 0.0, 1.0, 0.0, 0.0, 0.0, 1.0, 0.0];

type Call = fn(&[f64], &[f64], &mut [f64]) -> u32;

/// Both calls, each with a shape that `RAY` hits at 2.
const CALLS: [(Call, &[f64]); 2] = [
    (calls::ray_plane_slices, &GROUND),
    (calls::ray_triangle_slices, &CORNERS),
];

/// A slice one shorter, as it is, and one longer.
fn lengths(numbers: &[f64]) -> [Vec<f64>; 3] {
    let longer = [numbers, &[0.0]].concat();
    [
        numbers[..numbers.len() - 1].to_vec(),
        numbers.to_vec(),
        longer,
    ]
}

fn changed(place: usize, number: f64) -> [f64; 8] {
    let mut ray = RAY;
    ray[place] = number;
    ray
}

#[test]
fn a_hit_is_written() {
    for (call, shape) in CALLS {
        let mut hit = [9.0; 5];
        assert_eq!(call(&RAY, shape, &mut hit), sys::HIT);
        assert_eq!(hit, [0.0, 0.0, 1.0, 2.0, 9.0]);
        assert_eq!(call(&changed(7, 2.0), shape, &mut hit), sys::HIT);
        // passed over by the near distance, and short of the maximum
        for none in [changed(7, 2.5), changed(6, 1.5)] {
            let mut hit = [9.0; 4];
            assert_eq!(call(&none, shape, &mut hit), sys::NONE);
            assert_eq!(hit, [9.0; 4]);
        }
    }
}

#[test]
fn lengths_are_tested_in_the_order_of_the_refusals() {
    let bad = changed(5, -2.0);
    for (call, shape) in CALLS {
        for (k, ray) in lengths(&RAY).iter().enumerate() {
            for (m, shape) in lengths(shape).iter().enumerate() {
                for room in 0..6 {
                    let mut hit = vec![9.0; room];
                    let expected = match (k, m, room) {
                        (0 | 2, _, _) => 1,
                        (_, 0 | 2, _) => 2,
                        (_, _, 0..4) => 3,
                        _ => sys::HIT,
                    };
                    assert_eq!(call(ray, shape, &mut hit), expected, "{k} {m} {room}");
                    assert!(expected == sys::HIT || hit.iter().all(|place| *place == 9.0));
                    // a ray that is not admitted goes before all others
                    assert_eq!(call(&bad, shape, &mut hit[..]), 1);
                }
            }
        }
        assert_eq!(call(&[], &[], &mut []), 1);
        assert_eq!(call(&RAY, &[], &mut []), 2);
    }
    let tilted = [0.0, 0.5, 1.0, 0.0];
    assert_eq!(calls::ray_plane_slices(&RAY, &tilted, &mut []), 2);
}

#[test]
fn the_answers_are_those_of_the_casts_by_numbers() {
    let values = [
        0.0,
        -0.0,
        0.25,
        1.0,
        -1.0,
        2.0,
        5.0,
        f64::NAN,
        f64::INFINITY,
    ];
    let (plane, corners) = (
        Plane {
            normal: [0.0, 0.0, 1.0],
            distance: 0.0,
        },
        [[0.0, 0.0, 0.0], [1.0, 0.0, 0.0], [0.0, 1.0, 0.0]],
    );
    for place in 0..8 {
        for value in values {
            let ray = changed(place, value);
            let by_numbers = Ray::new([ray[0], ray[1], ray[2]], [ray[3], ray[4], ray[5]], ray[6])
                .with_near(ray[7]);
            let (mut a, mut b) = ([9.0; 4], [9.0; 4]);
            let numbers = calls::ray_plane(&by_numbers, &plane, &mut a);
            assert_eq!(calls::ray_plane_slices(&ray, &GROUND, &mut b), numbers);
            assert_eq!(a.map(f64::to_bits), b.map(f64::to_bits));
            let numbers = calls::ray_triangle(&by_numbers, &corners, &mut a);
            assert_eq!(calls::ray_triangle_slices(&ray, &CORNERS, &mut b), numbers);
            assert_eq!(a.map(f64::to_bits), b.map(f64::to_bits));
        }
    }
}
