//! Stands in for a vector filter of the Rust: forwards to its scalar one.

pub use super::scalar::filter_vec_in_place;
