//! The carried collision files, as the oracle compiles them, with the calls that are timed:
//! `Ray::validate`, then the Rust's private function, with the scratch of a batch of queries.
//! Each is one call that is not inlined, as ours is; below it the compiler inlines as it likes.

pub(crate) use crate::stubs::{ccd, gjk, support};

pub mod error {
    include!("../../oracle/kapitsa/crates/kapitsa-core/src/collision/error.rs");
}

pub use error::{CollisionError, QueryError};

pub mod height_field {
    include!("../../oracle/kapitsa/crates/kapitsa-core/src/collision/height_field.rs");
}

pub mod level_set {
    include!("../../oracle/kapitsa/crates/kapitsa-core/src/collision/level_set.rs");
}

pub mod mesh {
    include!("../../oracle/kapitsa/crates/kapitsa-core/src/collision/mesh.rs");

    use crate::areas::Tree;

    #[inline(never)]
    pub(crate) fn build(mesh: &TriangleMesh) -> Result<TriangleBvh, CollisionError> {
        TriangleBvh::build(mesh)
    }

    #[inline(never)]
    pub(crate) fn query(
        bvh: &TriangleBvh,
        bounds: Aabb,
        workspace: &mut MeshQueryWorkspace,
        output: &mut Vec<usize>,
    ) -> Result<(), CollisionError> {
        bvh.query(bounds, workspace, output)
    }

    /// The Rust's tree in the layout of the lent areas.
    pub(crate) fn areas(bvh: &TriangleBvh) -> Tree {
        let mut tree = Tree::for_triangles(bvh.triangle_count);
        tree.nodes = bvh.nodes.len();
        for (index, node) in bvh.nodes.iter().enumerate() {
            tree.node_boxes[6 * index..6 * index + 6].copy_from_slice(&node.bounds.to_array());
            let words = match node.kind {
                NodeKind::Leaf { start, count } => [0, start as u32, count as u32],
                NodeKind::Branch { left, right } => [1, left as u32, right as u32],
            };
            tree.node_words[3 * index..3 * index + 3].copy_from_slice(&words);
        }
        for (index, bounds) in bvh.triangle_bounds.iter().enumerate() {
            tree.triangle_boxes[6 * index..6 * index + 6].copy_from_slice(&bounds.to_array());
        }
        for (place, &triangle) in tree.order.iter_mut().zip(&bvh.triangles) {
            *place = triangle as u32;
        }
        tree
    }
}

pub mod query {
    include!("../../oracle/kapitsa/crates/kapitsa-core/src/collision/query.rs");

    pub(crate) mod timed {
        use super::*;
        use crate::shape::HeightField;

        pub(crate) type Cast = Result<(Option<Vec3>, f64), QueryError>;

        pub(crate) fn ray(origin: Vec3, direction: Vec3, max_distance: f64) -> Ray {
            Ray {
                origin,
                direction,
                max_distance,
            }
        }

        /// The ray in the frame of a part at an origin.
        pub(crate) fn moved(ray: Ray, origin: Vec3) -> Ray {
            Ray {
                origin: ray.origin - origin,
                ..ray
            }
        }

        #[inline(never)]
        pub(crate) fn plane(ray: Ray, plane: &Plane) -> Cast {
            ray.validate()?;
            ray_plane(plane, ray.origin, ray.direction, ray.max_distance)
        }

        #[inline(never)]
        pub(crate) fn triangle(ray: Ray, vertices: [Vec3; 3]) -> Cast {
            ray.validate()?;
            ray_triangle(ray.origin, ray.direction, ray.max_distance, vertices)
        }

        #[inline(never)]
        pub(crate) fn mesh(
            ray: Ray,
            mesh: &TriangleMesh,
            bvh: &TriangleBvh,
            scratch: &mut QueryScratch,
        ) -> Cast {
            ray.validate()?;
            ray_mesh(
                mesh,
                mesh.vertices(),
                bvh,
                ray.origin,
                ray.direction,
                ray.max_distance,
                scratch,
            )
        }

        #[inline(never)]
        pub(crate) fn height_field(
            ray: Ray,
            field: &HeightField,
            scratch: &mut QueryScratch,
        ) -> Cast {
            ray.validate()?;
            ray_height_field(
                field,
                ray.origin,
                ray.direction,
                ray.max_distance,
                &mut scratch.height_cells,
            )
        }

        #[inline(never)]
        pub(crate) fn level_set(ray: Ray, field: &LevelSet) -> Cast {
            ray.validate()?;
            ray_level_set(field, ray.origin, ray.direction, ray.max_distance)
        }
    }
}
