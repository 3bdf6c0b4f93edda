//! Each call of the library over slices, its result slices included. It returns the library's number: a refusal's, or a code
//! of [`sys`](crate::sys). Pointers are made here alone. [`lent`](crate::lent) and the casts of this crate turn the number
//! into a result; a test or a measurement may want the number itself.
//!
//! ```
//! use probe_rays::{calls, sys, Plane, Ray};
//!
//! let ray = Ray::new([0.0, 0.0, 2.0], [0.0, 0.0, -1.0], 5.0);
//! let plane = Plane { normal: [0.0, 0.0, 1.0], distance: 0.0 };
//! let mut hit = [0.0; 4];
//! assert_eq!(calls::ray_plane(&ray, &plane, &mut hit), sys::HIT);
//! assert_eq!(hit, [0.0, 0.0, 1.0, 2.0]);
//! // a result slice that is too short is refused with 3
//! assert_eq!(calls::ray_plane(&ray, &plane, &mut hit[..3]), 3);
//! ```
use crate::lent::{BoardRef, TreeAreas, TreeRef};
use crate::ranges::HeightRanges;
use crate::shapes::{HeightField, LevelSet, Plane};
use crate::Ray;

/// Calls the library. `ray` passes a ray's eight numbers, `value` passes numbers, `read` and `write` pass each slice as a pointer
/// and a length, and `tree` passes a tree's node count and its four slices.
macro_rules! call {
    (@ $name:ident [$($passed:expr,)*]) => {
        // SAFETY: every pointer and length is a slice's, and Rust lets no mutable one overlap another.
        unsafe { $crate::sys::$name($($passed),*) }
    };
    (@ $name:ident [$($passed:expr,)*] ray $ray:expr; $($rest:tt)*) => {
        call!(@ $name [
            $($passed,)*
            $ray.origin[0], $ray.origin[1], $ray.origin[2],
            $ray.direction[0], $ray.direction[1], $ray.direction[2],
            $ray.max_distance, $ray.near_distance,
        ] $($rest)*)
    };
    (@ $name:ident [$($passed:expr,)*] value $($value:expr),+; $($rest:tt)*) => {
        call!(@ $name [$($passed,)* $($value,)+] $($rest)*)
    };
    (@ $name:ident [$($passed:expr,)*] read $($slice:expr),+; $($rest:tt)*) => {
        call!(@ $name [$($passed,)* $($slice.as_ptr(), $slice.len(),)+] $($rest)*)
    };
    (@ $name:ident [$($passed:expr,)*] write $($slice:expr),+; $($rest:tt)*) => {
        call!(@ $name [$($passed,)* $($slice.as_mut_ptr(), $slice.len(),)+] $($rest)*)
    };
    (@ $name:ident [$($passed:expr,)*] tree $tree:expr; $($rest:tt)*) => {
        call!(@ $name [$($passed,)*]
            value $tree.nodes; read $tree.node_boxes, $tree.triangle_boxes, $tree.node_words, $tree.order; $($rest)*)
    };
    ($name:ident: $($arguments:tt)*) => {
        call!(@ $name [] $($arguments)*)
    };
}
pub(crate) use call;

/// The cast at a plane; `hit` has four places, normal x, y, z and the distance.
#[inline]
pub fn ray_plane(ray: &Ray, plane: &Plane, hit: &mut [f64]) -> u32 {
    call! { probe_ray_plane_near:
        ray ray;
        value plane.normal[0], plane.normal[1], plane.normal[2], plane.distance;
        write hit;
    }
}

/// The cast at a triangle.
#[inline]
pub fn ray_triangle(ray: &Ray, corners: &[[f64; 3]; 3], hit: &mut [f64]) -> u32 {
    call! { probe_ray_triangle_near:
        ray ray;
        value corners[0][0], corners[0][1], corners[0][2], corners[1][0], corners[1][1], corners[1][2],
            corners[2][0], corners[2][1], corners[2][2];
        write hit;
    }
}

/// The cast at a height grid.
#[inline]
pub fn ray_height_field(ray: &Ray, field: &HeightField<'_>, hit: &mut [f64]) -> u32 {
    call! { probe_ray_height_field_near:
        ray ray;
        value field.rows, field.columns, field.spacing[0], field.spacing[1];
        read field.heights;
        write hit;
    }
}

/// The cast at a height grid with a low and a high for each node; `cell` has one place.
#[inline]
pub fn ray_height_ranges(ray: &Ray, ranges: &HeightRanges<'_>, cell: &mut [u32]) -> u32 {
    call! { probe_ray_height_ranges:
        ray ray;
        value ranges.rows, ranges.columns, ranges.spacing[0], ranges.spacing[1];
        read ranges.lows, ranges.highs;
        write cell;
    }
}

/// The cast at a distance grid.
#[inline]
pub fn ray_level_set(ray: &Ray, grid: &LevelSet<'_>, hit: &mut [f64]) -> u32 {
    call! { probe_ray_level_set_near:
        ray ray;
        value grid.sides[0], grid.sides[1], grid.sides[2], grid.origin[0], grid.origin[1], grid.origin[2],
            grid.spacing[0], grid.spacing[1], grid.spacing[2];
        read grid.values;
        write hit;
    }
}

/// The cast at a plane, with the numbers of both in slices: eight for a ray (origin, direction, maximum, near), otherwise 1;
/// four for a plane (normal, distance), otherwise 2. Faster than [`ray_plane`] if the numbers are in memory, and slower if
/// they were computed just before.
///
/// ```
/// use probe_rays::{calls, sys};
///
/// let (ray, plane) = ([0.0, 0.0, 2.0, 0.0, 0.0, -1.0, 5.0, 0.0], [0.0, 0.0, 1.0, 0.0]);
/// let mut hit = [0.0; 4];
/// assert_eq!(calls::ray_plane_slices(&ray, &plane, &mut hit), sys::HIT);
/// assert_eq!(hit, [0.0, 0.0, 1.0, 2.0]);
/// assert_eq!(calls::ray_plane_slices(&ray[..7], &plane, &mut hit), 1);
/// assert_eq!(calls::ray_plane_slices(&ray, &plane[..3], &mut hit), 2);
/// ```
#[inline]
pub fn ray_plane_slices(ray: &[f64], plane: &[f64], hit: &mut [f64]) -> u32 {
    call! { probe_ray_plane_slices:
        read ray, plane;
        write hit;
    }
}

/// The cast at a triangle, with the numbers of both in slices: eight for a ray, otherwise 1; nine for a triangle, corner after
/// corner, otherwise 2.
#[inline]
pub fn ray_triangle_slices(ray: &[f64], triangle: &[f64], hit: &mut [f64]) -> u32 {
    call! { probe_ray_triangle_slices:
        read ray, triangle;
        write hit;
    }
}

/// The mesh cast; `index` has one place.
#[allow(clippy::too_many_arguments)]
#[inline]
pub fn ray_mesh(
    ray: &Ray,
    vertices: &[f64],
    triangles: &[u32],
    pose: &[f64],
    tree: &TreeRef<'_>,
    list: &mut [u32],
    stack: &mut [u32],
    hit: &mut [f64],
    index: &mut [u32],
) -> u32 {
    call! { probe_ray_mesh_near:
        ray ray;
        read vertices, triangles, pose;
        tree tree;
        write list, stack, hit, index;
    }
}

/// The mesh cast without a tree; `index` has one place.
#[inline]
pub fn ray_mesh_plain(
    ray: &Ray,
    vertices: &[f64],
    triangles: &[u32],
    hit: &mut [f64],
    index: &mut [u32],
) -> u32 {
    call! { probe_ray_mesh_plain:
        ray ray;
        read vertices, triangles;
        write hit, index;
    }
}

/// The exact mesh cast without a tree; `index` has one place.
#[inline]
pub fn ray_mesh_exact_plain(
    ray: &Ray,
    vertices: &[f64],
    triangles: &[u32],
    hit: &mut [f64],
    index: &mut [u32],
) -> u32 {
    call! { probe_ray_mesh_exact_plain:
        ray ray;
        read vertices, triangles;
        write hit, index;
    }
}

/// The exact mesh cast through a tree; `index` has one place.
#[allow(clippy::too_many_arguments)]
#[inline]
pub fn ray_mesh_exact(
    ray: &Ray,
    vertices: &[f64],
    triangles: &[u32],
    pose: &[f64],
    tree: &TreeRef<'_>,
    stack: &mut [u32],
    hit: &mut [f64],
    index: &mut [u32],
) -> u32 {
    call! { probe_ray_mesh_exact:
        ray ray;
        read vertices, triangles, pose;
        tree tree;
        write stack, hit, index;
    }
}

/// The mesh cast of many rays, eight numbers each (origin, direction, maximum, near); `codes` and `indices` have one place a
/// ray, `hits` four.
#[allow(clippy::too_many_arguments)]
#[inline]
pub fn ray_mesh_many(
    rays: &[f64],
    vertices: &[f64],
    triangles: &[u32],
    pose: &[f64],
    tree: &TreeRef<'_>,
    list: &mut [u32],
    stack: &mut [u32],
    codes: &mut [u32],
    hits: &mut [f64],
    indices: &mut [u32],
) -> u32 {
    call! { probe_ray_mesh_many:
        read rays, vertices, triangles, pose;
        tree tree;
        write list, stack, codes, hits, indices;
    }
}

/// The exact mesh cast of many rays, in the same way.
#[allow(clippy::too_many_arguments)]
#[inline]
pub fn ray_mesh_exact_many(
    rays: &[f64],
    vertices: &[f64],
    triangles: &[u32],
    pose: &[f64],
    tree: &TreeRef<'_>,
    stack: &mut [u32],
    codes: &mut [u32],
    hits: &mut [f64],
    indices: &mut [u32],
) -> u32 {
    call! { probe_ray_mesh_exact_many:
        read rays, vertices, triangles, pose;
        tree tree;
        write stack, codes, hits, indices;
    }
}

/// The drill without a tree; `index` has one place.
#[inline]
pub fn drill_plain(
    ray: &Ray,
    radius: f64,
    vertices: &[f64],
    triangles: &[u32],
    index: &mut [u32],
) -> u32 {
    call! { probe_drill_plain:
        ray ray;
        value radius;
        read vertices, triangles;
        write index;
    }
}

/// The drill through a tree; `index` has one place.
#[allow(clippy::too_many_arguments)]
#[inline]
pub fn drill(
    ray: &Ray,
    radius: f64,
    vertices: &[f64],
    triangles: &[u32],
    tree: &TreeRef<'_>,
    list: &mut [u32],
    stack: &mut [u32],
    index: &mut [u32],
) -> u32 {
    call! { probe_drill:
        ray ray;
        value radius;
        read vertices, triangles;
        tree tree;
        write list, stack, index;
    }
}

/// Many drills, nine numbers each (origin, direction, maximum, near, radius); `codes` and `indices` have one place a drill.
#[allow(clippy::too_many_arguments)]
#[inline]
pub fn drill_many(
    drills: &[f64],
    vertices: &[f64],
    triangles: &[u32],
    tree: &TreeRef<'_>,
    list: &mut [u32],
    stack: &mut [u32],
    codes: &mut [u32],
    indices: &mut [u32],
) -> u32 {
    call! { probe_drill_many:
        read drills, vertices, triangles;
        tree tree;
        write list, stack, codes, indices;
    }
}

/// The build; `nodes` has one place, the node count.
#[inline]
pub fn build(
    vertices: &[f64],
    triangles: &[u32],
    areas: TreeAreas<'_>,
    work: &mut [u32],
    nodes: &mut [usize],
) -> u32 {
    call! { probe_build:
        read vertices, triangles;
        write areas.node_boxes, areas.triangle_boxes, areas.node_words, areas.order, work, nodes;
    }
}

/// The query of n triangles; `found` has one place, the number of triangles listed.
#[inline]
pub fn query(
    min: [f64; 3],
    max: [f64; 3],
    n: usize,
    tree: &TreeRef<'_>,
    list: &mut [u32],
    stack: &mut [u32],
    found: &mut [usize],
) -> u32 {
    call! { probe_query:
        value min[0], min[1], min[2], max[0], max[1], max[2], n;
        tree tree;
        write list, stack, found;
    }
}

/// The merge of two boards; `nodes` has one place, the node count.
#[inline]
pub fn merge(
    first: &BoardRef<'_>,
    second: &BoardRef<'_>,
    vertices: &mut [f64],
    triangles: &mut [u32],
    areas: TreeAreas<'_>,
    marks: &mut [u32],
    nodes: &mut [usize],
) -> u32 {
    call! { probe_merge:
        read first.vertices, first.triangles;
        tree first.tree;
        read second.vertices, second.triangles;
        tree second.tree;
        write vertices, triangles, areas.node_boxes, areas.triangle_boxes, areas.node_words, areas.order,
            marks, nodes;
    }
}

/// The tree check.
#[inline]
pub fn tree_check(
    vertices: &[f64],
    triangles: &[u32],
    tree: &TreeRef<'_>,
    marks: &mut [u32],
) -> u32 {
    call! { probe_tree_check:
        read vertices, triangles;
        tree tree;
        write marks;
    }
}

/// Whether every corner of every triangle of a mesh is three numbers.
#[inline]
pub fn mesh_has_numbers(vertices: &[f64], triangles: &[u32]) -> u32 {
    call! { probe_mesh_has_numbers: read vertices, triangles; }
}

/// The listing of all hits; `found` has one place, the number of hits.
#[allow(clippy::too_many_arguments)]
#[inline]
pub fn ray_mesh_all(
    ray: &Ray,
    vertices: &[f64],
    triangles: &[u32],
    pose: &[f64],
    tree: &TreeRef<'_>,
    list: &mut [u32],
    stack: &mut [u32],
    indices: &mut [u32],
    numbers: &mut [f64],
    found: &mut [usize],
) -> u32 {
    call! { probe_ray_mesh_all:
        ray ray;
        read vertices, triangles, pose;
        tree tree;
        write list, stack, indices, numbers, found;
    }
}

/// The listing of all exact hits; `found` has one place, the number of hits.
#[allow(clippy::too_many_arguments)]
#[inline]
pub fn ray_mesh_exact_all(
    ray: &Ray,
    vertices: &[f64],
    triangles: &[u32],
    pose: &[f64],
    tree: &TreeRef<'_>,
    list: &mut [u32],
    stack: &mut [u32],
    indices: &mut [u32],
    numbers: &mut [f64],
    found: &mut [usize],
) -> u32 {
    call! { probe_ray_mesh_exact_all:
        ray ray;
        read vertices, triangles, pose;
        tree tree;
        write list, stack, indices, numbers, found;
    }
}

/// Converts a record of version 2 to version 3, at the start of `out`; `written` has one place, for its length.
#[inline]
pub fn record_to_short(bytes: &[u8], out: &mut [u8], written: &mut [usize]) -> u32 {
    call! { probe_record_to_short:
        read bytes;
        write out, written;
    }
}

/// Converts a record of version 3 to version 2, in the same way.
#[inline]
pub fn record_to_long(bytes: &[u8], out: &mut [u8], written: &mut [usize]) -> u32 {
    call! { probe_record_to_long:
        read bytes;
        write out, written;
    }
}
