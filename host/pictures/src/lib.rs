//! What pictures of this repository are drawn with.

pub mod small_grid;
pub mod svg;
