//! The reference's files under one root. The published folder holds no root, no `mod.rs` of its folders but one, and
//! not the parts in `absent`; these are ours. The warnings are the reference's and of no interest here.

#![allow(warnings)]

mod absent;
pub mod constants;
pub mod error;
pub mod model;
pub mod simulation;
pub mod solver;
pub mod utils;
