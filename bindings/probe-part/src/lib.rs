//! What `probe-part` does: it loads the part of an STL file, probes it by the casts of `probe_rays`, and recognises its bores
//! and pockets.
//!
//! The casts are proved. All that is here is ordinary Rust, tested and not proved: the reading of the file, the recognition
//! ([`recognise()`] gives a [`model::Report`]), which says what it does not understand, and the pictures.
//!
//! The recognition, in the order in which it works: `topology` welds corners and takes shells apart; `planes` and `loops` have
//! flat regions and the polygons around them; `rounds`, `revolve` and `cylinder` grow cylinders and cones over them; `frames`
//! and `outer` have the part's own frame and its outer faces; `bosses`, `drilled`, `pockets`, `floors`, `islands` and
//! `notches` find rows, whose outlines `outline` fits; `confirm` probes them, `drills` drills into them, `features` compares
//! volumes, `assemble` orders the list, and `outlines` draws around the faces.
#![deny(missing_docs)]

mod assemble;
mod base64;
pub mod batch;
mod bent;
pub mod boring_list;
mod bosses;
mod boxes;
pub mod check;
mod circles;
pub mod confirm;
pub mod corner;
mod crossed;
pub mod csv;
mod cylinder;
pub mod deflate;
pub mod drawing;
mod drilled;
pub mod drills;
pub mod dxf;
pub mod faces;
mod features;
pub mod files;
mod fit;
mod floors;
mod frames;
pub mod geometry;
mod islands;
pub mod json;
pub mod kinds;
mod letters;
mod loops;
pub mod model;
mod notches;
mod outer;
mod outline;
mod outlines;
pub mod page;
pub mod pictures;
mod planes;
pub mod plans;
pub mod png;
mod pockets;
mod polytope;
pub mod raster;
pub mod rays;
pub mod recognise;
mod revolve;
mod rims;
mod rounds;
pub mod shape;
pub mod step;
mod steps;
pub mod summary;
pub mod svg;
pub mod tables;
mod topology;
mod walls;
pub mod words;
mod work;
pub mod written;

pub use recognise::{recognise, Options};
