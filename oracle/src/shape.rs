//! The shapes: five carried files, each with a way past its constructor, and
//! stand-ins for the rest, which no cast reaches.

use crate::{aabb::Aabb, transform::Transform};

#[derive(Clone, Copy, Debug, PartialEq, Eq)]
pub enum ShapeError {
    NonFiniteParameter,
    ArithmeticOverflow,
    DegenerateGeometry,
    InvalidTopology,
    InvalidGridDimensions,
    DataLengthMismatch,
    InvalidDimension,
}

#[derive(Clone, Copy, Debug, PartialEq, Eq)]
pub enum BoundsError {
    InvalidBounds(crate::aabb::AabbError),
    InvalidGeometry,
}

pub mod plane {
    include!("../kapitsa/crates/kapitsa-core/src/shape/plane.rs");

    pub fn unchecked(normal: Vec3, distance: f64) -> Plane {
        Plane { normal, distance }
    }
}

pub mod triangle {
    include!("../kapitsa/crates/kapitsa-core/src/shape/triangle.rs");
}

pub mod triangle_mesh {
    include!("../kapitsa/crates/kapitsa-core/src/shape/triangle_mesh.rs");

    pub fn unchecked(vertices: Vec<Vec3>, triangles: Vec<[usize; 3]>) -> TriangleMesh {
        TriangleMesh {
            vertices,
            triangles,
        }
    }
}

pub mod height_field {
    include!("../kapitsa/crates/kapitsa-core/src/shape/height_field.rs");

    pub fn unchecked(
        rows: usize,
        columns: usize,
        grid_spacing: Vec2,
        heights: Vec<f64>,
    ) -> HeightField {
        HeightField {
            rows,
            columns,
            grid_spacing,
            heights,
        }
    }
}

pub mod level_set {
    include!("../kapitsa/crates/kapitsa-core/src/shape/level_set.rs");

    pub fn unchecked(
        origin: Vec3,
        dimensions: [usize; 3],
        grid_spacing: Vec3,
        signed_distances: Vec<f64>,
    ) -> LevelSet {
        LevelSet {
            origin,
            dimensions,
            grid_spacing,
            signed_distances,
        }
    }
}

pub use height_field::HeightField;
pub use level_set::LevelSet;
pub use plane::Plane;
pub use triangle::Triangle;
pub use triangle_mesh::TriangleMesh;

/// Stands for a convex shape, which is left out.
pub enum Convex {}

/// Stands for the skinned mesh, which is left out.
pub enum SkinnedTriangleMesh {}

impl SkinnedTriangleMesh {
    pub fn mesh(&self) -> &TriangleMesh {
        match *self {}
    }
}

/// The cases that query.rs names.
#[allow(dead_code)]
pub enum Shape {
    Sphere(Convex),
    Cuboid(Convex),
    Plane(Plane),
    Capsule(Convex),
    Cylinder(Convex),
    TaperedCapsule(Convex),
    TaperedCylinder(Convex),
    Triangle(Triangle),
    Convex(Convex),
    TriangleMesh(TriangleMesh),
    HeightField(HeightField),
    LevelSet(LevelSet),
    SkinnedTriangleMesh(SkinnedTriangleMesh),
}

impl Shape {
    pub fn is_convex(&self) -> bool {
        unreachable!("no cast asks")
    }

    pub fn local_bounds(&self) -> Result<Option<Aabb>, BoundsError> {
        unreachable!("no cast asks")
    }

    pub fn world_bounds(&self, _: &Transform) -> Result<Option<Aabb>, BoundsError> {
        unreachable!("no cast asks")
    }
}
