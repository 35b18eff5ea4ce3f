pub mod hydraulicsolver;
pub mod matrix;
pub mod state;

pub mod result {
    pub use crate::absent::SolverResult;
}
