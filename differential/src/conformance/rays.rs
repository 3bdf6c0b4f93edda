//! Rays of the cases.
use oracle::answer::Ray;

/// Straight down.
pub fn down(x: f64, y: f64, z: f64, maximum: f64) -> Ray {
    Ray {
        origin: [x, y, z],
        direction: [0.0, 0.0, -1.0],
        maximum,
        near: 0.0,
    }
}

pub fn up(x: f64, y: f64, z: f64, maximum: f64) -> Ray {
    Ray {
        direction: [0.0, 0.0, 1.0],
        ..down(x, y, z, maximum)
    }
}

/// Along (2, 3, -6) / 7: no two components are equal.
pub fn aslant(x: f64, y: f64, z: f64, maximum: f64) -> Ray {
    Ray {
        direction: [2.0 / 7.0, 3.0 / 7.0, -6.0 / 7.0],
        ..down(x, y, z, maximum)
    }
}

pub fn from(ray: Ray, near: f64) -> Ray {
    Ray { near, ..ray }
}

/// The ray as the library takes it.
pub fn lent(ray: &Ray) -> probe_rays::Ray {
    crate::library::ray(ray)
}
