//! The carried collision files, each in a module of its own together with the
//! functions of ours that must see its private parts.

pub(crate) use crate::stubs::{ccd, gjk, support};

#[allow(dead_code)]
pub mod error {
    include!("../kapitsa/crates/kapitsa-core/src/collision/error.rs");
}

pub use error::{CollisionError, QueryError};

#[allow(dead_code)]
pub mod height_field {
    include!("../kapitsa/crates/kapitsa-core/src/collision/height_field.rs");

    /// The Rust's own listing, its triangles' corners in a new vector.
    pub(crate) fn listed(
        field: &HeightField,
        bounds: Aabb,
    ) -> Result<Vec<[Vec3; 3]>, CollisionError> {
        let mut output = Vec::new();
        query_triangles(field, bounds, &mut output)?;
        Ok(output.iter().map(|triangle| triangle.vertices).collect())
    }

    /// The rows and columns of the cells that `query_triangles` visits, in its order; none
    /// where a span is not finite.
    pub(crate) fn visited(
        rows: usize,
        columns: usize,
        spacing: [f64; 2],
        bounds: &[f64; 6],
    ) -> Option<Vec<[usize; 2]>> {
        let span = [columns, rows].map(|side| side - 1);
        let spans = [0, 1].map(|k| spacing[k] * span[k] as f64);
        if !spans.iter().all(|span| span.is_finite()) {
            return None;
        }
        let range = |k: usize| cell_range(bounds[k], bounds[k + 3], spacing[k], spans[k], span[k]);
        let (Some((left, right)), Some((first, last))) = (range(0), range(1)) else {
            return Some(Vec::new());
        };
        let row = |row| (left..=right).map(move |column| [row, column]);
        Some((first..=last).flat_map(row).collect())
    }

    /// The features that the Rust lists for a box, which are none where it refuses.
    pub(crate) fn features(
        rows: usize,
        columns: usize,
        spacing: [f64; 2],
        heights: &[f64],
        bounds: &[f64; 6],
    ) -> Vec<u32> {
        let spacing = Vec2::new(spacing[0], spacing[1]);
        let heights = heights.to_vec();
        let field = crate::shape::height_field::unchecked(rows, columns, spacing, heights);
        let mut listed = Vec::new();
        match query_triangles(&field, Aabb::unchecked(bounds), &mut listed) {
            Ok(()) => listed.iter().map(|found| found.feature_id as u32).collect(),
            Err(_) => Vec::new(),
        }
    }
}

#[allow(dead_code)]
pub mod level_set {
    include!("../kapitsa/crates/kapitsa-core/src/collision/level_set.rs");
}

#[allow(dead_code)]
pub mod mesh {
    include!("../kapitsa/crates/kapitsa-core/src/collision/mesh.rs");

    use crate::tree::FlatTree;

    /// The Rust's tree in the layout of the lent areas.
    pub(crate) fn to_flat(bvh: &TriangleBvh) -> FlatTree {
        let words = |node: &Node| match node.kind {
            NodeKind::Leaf { start, count } => [0, start as u32, count as u32],
            NodeKind::Branch { left, right } => [1, left as u32, right as u32],
        };
        let boxes = |bounds: &Aabb| bounds.to_array();
        FlatTree {
            node_boxes: bvh
                .nodes
                .iter()
                .flat_map(|node| boxes(&node.bounds))
                .collect(),
            triangle_boxes: bvh.triangle_bounds.iter().flat_map(boxes).collect(),
            node_words: bvh.nodes.iter().flat_map(words).collect(),
            order: bvh.triangles.iter().map(|&t| t as u32).collect(),
            node_count: bvh.nodes.len(),
        }
    }

    /// A tree of another builder as the Rust would hold it. A kind that the Rust does
    /// not have becomes a leaf that its query refuses with `GeometryBounds`.
    pub(crate) fn from_flat(tree: &FlatTree, triangle_count: usize) -> TriangleBvh {
        let node = |index: usize| {
            let [kind, first, second] = [0, 1, 2].map(|k| tree.node_words[3 * index + k] as usize);
            Node {
                bounds: Aabb::unchecked(&tree.node_boxes[6 * index..]),
                kind: match kind {
                    0 => NodeKind::Leaf {
                        start: first,
                        count: second,
                    },
                    1 => NodeKind::Branch {
                        left: first,
                        right: second,
                    },
                    _ => NodeKind::Leaf {
                        start: usize::MAX,
                        count: 1,
                    },
                },
            }
        };
        TriangleBvh {
            nodes: (0..tree.node_count).map(node).collect(),
            triangles: tree.order[..triangle_count]
                .iter()
                .map(|&t| t as usize)
                .collect(),
            triangle_bounds: (0..triangle_count)
                .map(|t| Aabb::unchecked(&tree.triangle_boxes[6 * t..]))
                .collect(),
            triangle_count,
        }
    }

    /// The Rust's own query, its list in a new vector.
    pub(crate) fn listed(bvh: &TriangleBvh, bounds: Aabb) -> Result<Vec<usize>, CollisionError> {
        let mut output = Vec::new();
        bvh.query(bounds, &mut MeshQueryWorkspace::new(), &mut output)?;
        Ok(output)
    }
}

#[allow(dead_code)]
pub mod query {
    include!("../kapitsa/crates/kapitsa-core/src/collision/query.rs");

    /// The casts of query.rs, which are private there, and a ray as it was given.
    pub(crate) mod open {
        use super::*;

        pub(crate) type Cast = Result<(Option<Vec3>, f64), QueryError>;

        pub(crate) fn ray(origin: Vec3, direction: Vec3, max_distance: f64) -> Ray {
            Ray {
                origin,
                direction,
                max_distance,
            }
        }

        pub(crate) fn plane(plane: &Plane, ray: Ray) -> Cast {
            ray_plane(plane, ray.origin, ray.direction, ray.max_distance)
        }

        pub(crate) fn triangle(vertices: [Vec3; 3], ray: Ray) -> Cast {
            ray_triangle(ray.origin, ray.direction, ray.max_distance, vertices)
        }

        pub(crate) fn mesh(
            mesh: &TriangleMesh,
            vertices: &[Vec3],
            bvh: &TriangleBvh,
            ray: Ray,
        ) -> Cast {
            ray_mesh(
                mesh,
                vertices,
                bvh,
                ray.origin,
                ray.direction,
                ray.max_distance,
                &mut QueryScratch::default(),
            )
        }

        pub(crate) fn height_field(field: &crate::shape::HeightField, ray: Ray) -> Cast {
            ray_height_field(
                field,
                ray.origin,
                ray.direction,
                ray.max_distance,
                &mut Vec::new(),
            )
        }

        pub(crate) fn level_set(field: &LevelSet, ray: Ray) -> Cast {
            ray_level_set(field, ray.origin, ray.direction, ray.max_distance)
        }
    }
}
