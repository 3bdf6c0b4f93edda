//! The published Rust of Kapitsa-Physics, unchanged, over the arithmetic that
//! document 01 fixes, as the reference of the differential runs.

// The carried files name this crate's vectors by the repository's crate name.
extern crate self as kapitsa_math;
pub(crate) use math::{Vec2, Vec3};

pub mod aabb;
pub mod agree;
pub mod answer;
pub mod big;
pub mod cabinet;
pub mod cases;
pub(crate) mod collision;
pub mod drill;
pub mod generate;
pub mod height_ranges;
pub mod listing;
pub mod math;
pub mod merge;
pub mod mesh_exact;
pub mod mesh_plain;
pub mod model;
pub mod plain;
pub mod random;
pub mod record;
pub mod shape;
pub mod shrink;
pub mod slips;
pub(crate) mod stubs;
pub mod telling;
pub mod tree;
pub mod trees;

pub(crate) use stubs::{collider, transform, world};
