//! Stand-ins for the parts of the repository that query.rs and mesh.rs name and
//! that no cast reaches. Each function panics if reached.

pub mod transform {
    use crate::math::Vec3;

    #[derive(Clone, Copy, Debug, PartialEq)]
    pub struct Transform;

    #[derive(Clone, Copy, Debug, PartialEq)]
    pub struct Quat;

    #[derive(Debug)]
    pub struct TransformError;

    impl Transform {
        pub fn new(_: Vec3, _: Quat) -> Result<Self, TransformError> {
            unreachable!("casts stand in the shape's own frame")
        }

        pub fn translation(&self) -> Vec3 {
            unreachable!("casts stand in the shape's own frame")
        }

        pub fn rotation(&self) -> Quat {
            unreachable!("casts stand in the shape's own frame")
        }

        pub fn inverse(&self) -> Result<Self, TransformError> {
            unreachable!("casts stand in the shape's own frame")
        }

        pub fn transform_point(&self, _: Vec3) -> Vec3 {
            unreachable!("casts stand in the shape's own frame")
        }

        pub fn transform_vector(&self, _: Vec3) -> Vec3 {
            unreachable!("casts stand in the shape's own frame")
        }
    }
}

pub mod collider {
    #[derive(Clone, Copy, Debug, PartialEq, Eq)]
    pub struct CollisionFilter;

    #[allow(dead_code)]
    #[derive(Clone, Copy, Debug, PartialEq, Eq)]
    pub enum CollisionMode {
        Solid,
        Sensor,
    }

    impl CollisionFilter {
        pub fn mask(self) -> u32 {
            unreachable!("no cast filters")
        }

        pub fn layers(self) -> u32 {
            unreachable!("no cast filters")
        }
    }
}

pub mod world {
    #[derive(Clone, Copy, Debug, PartialEq, Eq)]
    pub struct BodyId;

    #[derive(Clone, Copy, Debug, PartialEq, Eq)]
    pub struct ColliderId;
}

pub mod ccd {
    use crate::{
        collision::{
            CollisionError,
            height_field::HeightFieldTriangle,
            level_set::LevelSetCell,
            mesh::{MeshQueryWorkspace, TriangleBvh},
        },
        math::Vec3,
        shape::{HeightField, LevelSet, Plane, Shape, TriangleMesh},
        stubs::transform::Transform,
    };

    pub struct CcdHit;

    type Toi = Result<Option<CcdHit>, CollisionError>;

    #[allow(clippy::too_many_arguments)]
    pub fn plane_toi(
        _: &Shape,
        _: Transform,
        _: Transform,
        _: &Plane,
        _: Transform,
        _: Transform,
        _: bool,
        _: bool,
    ) -> Toi {
        unreachable!("no cast sweeps")
    }

    pub fn convex_toi(
        _: &Shape,
        _: Transform,
        _: Transform,
        _: &Shape,
        _: Transform,
        _: Transform,
    ) -> Toi {
        unreachable!("no cast sweeps")
    }

    #[allow(clippy::too_many_arguments)]
    pub fn triangle_mesh_toi(
        _: &Shape,
        _: Transform,
        _: Transform,
        _: &TriangleMesh,
        _: Option<&[Vec3]>,
        _: &TriangleBvh,
        _: Transform,
        _: Transform,
        _: &mut MeshQueryWorkspace,
        _: &mut Vec<usize>,
    ) -> Toi {
        unreachable!("no cast sweeps")
    }

    pub fn height_field_toi(
        _: &Shape,
        _: Transform,
        _: Transform,
        _: &HeightField,
        _: Transform,
        _: Transform,
        _: &mut Vec<HeightFieldTriangle>,
    ) -> Toi {
        unreachable!("no cast sweeps")
    }

    pub fn level_set_toi(
        _: &Shape,
        _: Transform,
        _: Transform,
        _: &LevelSet,
        _: Transform,
        _: Transform,
        _: &mut Vec<LevelSetCell>,
    ) -> Toi {
        unreachable!("no cast sweeps")
    }
}

pub mod support {
    use crate::{collision::CollisionError, math::Vec3, shape::Shape, stubs::transform::Transform};

    pub fn support_world(_: &Shape, _: &Transform, _: Vec3) -> Result<(Vec3, u64), CollisionError> {
        unreachable!("no cast asks for a support point")
    }
}

pub mod gjk {
    use crate::{collision::CollisionError, math::Vec3, shape::Shape, stubs::transform::Transform};

    pub struct GjkResult {
        pub intersects: bool,
    }

    pub struct GjkDistance {
        pub intersects: bool,
        pub lower_bound: f64,
        pub normal: Vec3,
        pub point_a: Vec3,
    }

    pub fn intersect(
        _: &Shape,
        _: &Transform,
        _: &Shape,
        _: &Transform,
    ) -> Result<GjkResult, CollisionError> {
        unreachable!("convex shapes are left out")
    }

    pub fn distance_to_point(
        _: &Shape,
        _: &Transform,
        _: Vec3,
    ) -> Result<GjkDistance, CollisionError> {
        unreachable!("convex shapes are left out")
    }
}
