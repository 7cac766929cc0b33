//! The unchanged Rust, and what the driver shares with `../differential` and
//! `../exhaustive`. A program brings these modules into its root, where they look for each
//! other.

pub mod answer;
pub mod many;
// The file is kept as published: not all of it is called, and formatting must not
// touch it.
#[allow(dead_code)]
#[rustfmt::skip]
pub mod mips;
pub mod model;
pub mod record;
pub mod smallest;
pub mod vectors;
