//! The static library beside the unchanged Rust and beside the model of what document
//! 01 adds to it, on seeded inputs.

pub mod boards;
pub mod cabinets;
pub mod calls;
pub mod conformance;
pub mod drill;
pub mod drill_boards;
pub mod drill_many;
pub mod drill_tree;
pub mod exact;
pub mod exact_listing;
pub mod exact_tree;
pub mod lent;
pub mod library;
pub mod listing;
pub mod log;
pub mod many;
pub mod merge;
pub mod other_trees;
pub mod panel;
pub mod plain;
pub mod ranges;
pub mod run;
pub mod shapes;
pub mod slices;
pub mod solids;
