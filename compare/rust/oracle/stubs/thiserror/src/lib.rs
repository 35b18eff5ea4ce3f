//! Stands in for thiserror. An error shows itself as its Debug text.

pub use derives::Error;
