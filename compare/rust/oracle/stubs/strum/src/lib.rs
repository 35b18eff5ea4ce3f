//! Stands in for strum: the derives that the reference names.

pub use derives::{Display, EnumString};
