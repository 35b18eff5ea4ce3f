//! Stands in for hashbrown, whose maps are the standard library's. The reference never goes by their order.

pub use std::collections::{HashMap, HashSet};
