//! A load, read from document 01: every link's flow, then every junction's head.

use crate::image::{Fault, middle_bits, payload_words};
use crate::input::numbers;

const SHAPE: Fault = 7;
const VALUE: Fault = 8;

/// Flows and heads lie within plus and minus this.
pub const MOST_FLOW_OR_HEAD: f64 = 1e12;

pub struct Load {
    pub flows: Vec<f64>,
    pub heads: Vec<f64>,
}

/// The words of a load for so many links and junctions, header and all.
pub fn load_words(links: usize, junctions: usize) -> usize {
    1 + 2 * (links + junctions)
}

/// The number of a header at fault.
pub fn judge_header(header: u32, links: usize, junctions: usize) -> Result<(), Fault> {
    let size = load_words(links, junctions) - 1;
    if header >> 28 == 15 && middle_bits(header) == 0 && payload_words(header) == size { Ok(()) } else { Err(SHAPE) }
}

/// A load's words, header and all. Every 7 comes before its first 8.
pub fn decode(words: &[u32], links: usize, junctions: usize) -> Result<Load, Fault> {
    let (&header, payload) = words.split_first().ok_or(SHAPE)?;
    judge_header(header, links, junctions)?;
    if words.len() != load_words(links, junctions) {
        return Err(SHAPE);
    }
    let numbers = numbers(payload);
    if !numbers.iter().all(|number| number.abs() <= MOST_FLOW_OR_HEAD) {
        return Err(VALUE);
    }
    let (flows, heads) = numbers.split_at(links);
    Ok(Load { flows: flows.to_vec(), heads: heads.to_vec() })
}
