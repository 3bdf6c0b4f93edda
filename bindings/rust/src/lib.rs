//! Ray casts at a plane, a triangle, a triangle mesh with its bounding box tree, a height grid and a distance grid.
//!
//! The casts and the tree's build, query and check are proved, in Rattle: they return exactly what their definitions say,
//! they terminate, and they stay within the slices that they are given (the repository's README.md and docs/PROOFS.md). This
//! crate links them, has no dependencies, and adds slices, enums and owned buffers. What it adds is ordinary Rust: it is
//! tested, not proved.
//!
//! A cast returns a hit, a miss ('none') or a refusal ([`Cast`]). A refusal is not a miss: nothing is known of the surface
//! then.
//!
//! ```
//! use probe_rays::{ray_plane, Cast, Plane, Ray};
//!
//! let floor = Plane { normal: [0.0, 0.0, 1.0], distance: 0.0 };
//! let down = Ray::new([0.0, 0.0, 2.0], [0.0, 0.0, -1.0], 5.0);
//! match ray_plane(&down, &floor) {
//!     Cast::Hit(hit) => assert_eq!((hit.distance, hit.normal), (2.0, [0.0, 0.0, 1.0])),
//!     Cast::None => panic!("the floor is two below"),
//!     Cast::Refused(refusal) => panic!("{refusal}"),
//! }
//! ```
//!
//! A [`PlainMesh`] has no tree, for parts of few triangles. A [`Mesh`] owns a mesh and a tree that fits it:
//!
//! ```
//! use probe_rays::{Cast, Mesh, Ray, Refusal};
//!
//! let corners = [[0.0, 0.0, 0.0], [1.0, 0.0, 0.0], [0.0, 1.0, 0.0]];
//! let mut mesh = Mesh::build(corners, [[0, 1, 2]])?;
//! let hit = mesh.cast(&Ray::new([0.25, 0.25, 1.0], [0.0, 0.0, -1.0], 10.0)).into_result()?;
//! assert_eq!(hit.unwrap().triangle, 0);
//! # Ok::<(), Refusal>(())
//! ```
//!
//! [`Mesh::cast_exact`] decides in integers, so a miss is certain. [`Mesh::drill`] asks, as certainly, whether a drill of a
//! radius touches anything. [`Mesh::cast_many`] casts many rays in several threads.
//! [`stl`] reads STL files. A [`LargeMesh`] has any number of triangles, and [`facts`] finds a mesh's bounding box, open edges
//! and shells.
//!
//! [`lent`] has the same calls over the caller's buffers, without any allocation. [`calls`] returns the library's numbers, and
//! [`sys`] has the declarations as C sees them.
#![deny(missing_docs)]
#![deny(unsafe_op_in_unsafe_fn)]

mod answer;
mod batch;
pub mod cabinet;
pub mod calls;
mod drill;
pub mod facts;
mod large;
pub mod lent;
mod mesh;
mod plain;
mod ranges;
mod ray;
mod records;
mod shapes;
pub mod stl;
pub mod sys;

pub use answer::{Cast, Hit, MeshHit, Refusal};
pub use batch::{Batch, Progress};
pub use cabinet::{Cabinet, CabinetCast, PartHit};
pub use drill::Drill;
pub use large::LargeMesh;
pub use mesh::{Mesh, Scratch, Tree, TreeError};
pub use plain::PlainMesh;
pub use ranges::{ray_height_ranges, Clearance, HeightRanges};
pub use ray::Ray;
pub use records::{record_to_long, record_to_short, MAX_RECORD};
pub use shapes::{
    ray_height_field, ray_level_set, ray_plane, ray_triangle, HeightField, LevelSet, Plane,
};

/// The greatest number of vertices, and of triangles, of a mesh.
pub const MAX_COUNT: usize = 65_536;

// The Rust in the repository's docs/RUST.md is run as a doc example.
#[cfg(doctest)]
#[doc = include_str!("../../../docs/RUST.md")]
struct RustPage;

/// The version of the linked library. It is [`sys::VERSION`] if this crate belongs to that library.
///
/// ```
/// assert_eq!(probe_rays::version(), probe_rays::sys::VERSION);
/// ```
pub fn version() -> u32 {
    // SAFETY: takes nothing.
    unsafe { sys::probe_version() }
}

// The Rust in the repository's README.md is run as a doc example; its other code has a language.
#[cfg(doctest)]
#[doc = include_str!("../../../README.md")]
struct Readme;

#[cfg(doctest)]
#[doc = include_str!("../../../docs/TOOL.md")]
struct ToolPage;
