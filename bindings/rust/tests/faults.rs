//! A ray that a cast refuses with 1 is told the test that it fails, and no other ray is.
use probe_rays::{ray_plane, Cast, Plane, Ray, Refusal};

const UP: [f64; 3] = [0.0, 0.0, 1.0];

/// Whether a cast refuses the ray with 1.
fn is_refused(ray: &Ray) -> bool {
    let plane = Plane {
        normal: UP,
        distance: 0.0,
    };
    ray_plane(ray, &plane) == Cast::Refused(Refusal::InvalidInput)
}

#[test]
fn every_test_has_its_words() {
    let nan = f64::NAN;
    let far = f64::INFINITY;
    let ray = |origin, direction, most, near| Ray::new(origin, direction, most).with_near(near);
    let zero = [0.0; 3];
    let cases = [
        (ray([nan, 0.0, 0.0], UP, 1.0, 0.0), "the origin has a NaN"),
        (
            ray([0.0, -far, 0.0], UP, 1.0, 0.0),
            "the origin is infinite",
        ),
        (
            ray(zero, [0.0, nan, 1.0], 1.0, 0.0),
            "the direction has a NaN",
        ),
        (
            ray(zero, [far, 0.0, 0.0], 1.0, 0.0),
            "the direction is infinite",
        ),
        (
            ray(zero, [0.0, -0.0, 0.0], 1.0, 0.0),
            "the direction is zero",
        ),
        (
            ray(zero, [0.0, 0.0, 2.0], 1.0, 0.0),
            "the direction's length is not 1",
        ),
        (
            ray(zero, [1e200, 0.0, 0.0], 1.0, 0.0),
            "the direction's length is not 1",
        ),
        (ray(zero, UP, nan, 0.0), "the maximum is NaN"),
        (ray(zero, UP, far, 0.0), "the maximum is infinite"),
        (ray(zero, UP, -1.0, 0.0), "the maximum is below 0"),
        (ray(zero, UP, -far, 0.0), "the maximum is below 0"),
        (ray(zero, UP, 1.0, nan), "the near distance is NaN"),
        (ray(zero, UP, 1.0, -0.5), "the near distance is below 0"),
        (
            ray(zero, UP, 1.0, 1.5),
            "the near distance is above the maximum",
        ),
        (
            ray(zero, UP, 1.0, far),
            "the near distance is above the maximum",
        ),
    ];
    for (ray, words) in cases {
        assert!(is_refused(&ray), "{ray:?}");
        assert_eq!(ray.fault(), Some(words), "{ray:?}");
        let told = Refusal::InvalidInput.explained(&ray);
        assert_eq!(told, format!("refused 1, invalid input: {words}"));
        // another refusal has nothing to do with the ray
        assert_eq!(Refusal::NoRoom.explained(&ray), Refusal::NoRoom.to_string());
    }
    let admitted = ray(zero, UP, 0.0, -0.0);
    assert!(!is_refused(&admitted));
    assert_eq!(admitted.fault(), None);
}

/// Directions whose lengths lie about the ends of what is admitted, a few floats apart.
#[test]
fn lengths_near_the_ends() {
    let mut refused = 0;
    for end in [1.0 - 1e-12, 1.0 + 1e-12] {
        for (x, y) in [(0.0, 0.0), (0.6, 0.0), (0.36, 0.48)] {
            let z = (1.0_f64 - x * x - y * y).sqrt();
            for step in -40..=40 {
                let length = end + f64::from(step) * 2.0 * f64::EPSILON;
                let ray = Ray::new([0.0; 3], [x * length, y * length, z * length], 1.0);
                assert_eq!(ray.fault().is_some(), is_refused(&ray), "{ray:?}");
                refused += usize::from(is_refused(&ray));
            }
        }
    }
    assert!((100..386).contains(&refused), "{refused}");
}
