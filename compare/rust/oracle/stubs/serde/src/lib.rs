//! Stands in for serde: the traits and derives that the reference names. Nothing is read or written through them.

pub use derives::{Deserialize, Serialize};

pub trait Serialize {}

pub trait Deserializer<'de> {
    type Error;
}

pub trait Deserialize<'de>: Sized {
    fn deserialize<D: Deserializer<'de>>(deserializer: D) -> Result<Self, D::Error>;
}
