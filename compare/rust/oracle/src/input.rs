//! Bytes as little-endian words, and the image at the front of an input.

use crate::image::{self, Fault, MOST_WORDS};
use crate::project::Project;

const NO_IMAGE: Fault = 1;

/// What is left of an input.
pub struct Input<'a> {
    bytes: &'a [u8],
}

impl<'a> Input<'a> {
    pub fn new(bytes: &'a [u8]) -> Self {
        Input { bytes }
    }

    pub fn is_empty(&self) -> bool {
        self.bytes.is_empty()
    }

    /// The next word, left where it is; none where fewer than four bytes are left.
    pub fn peek(&self) -> Option<u32> {
        self.bytes.first_chunk().map(|bytes| u32::from_le_bytes(*bytes))
    }

    pub fn word(&mut self) -> Option<u32> {
        let word = self.peek()?;
        self.bytes = &self.bytes[4..];
        Some(word)
    }

    /// The next words; none, and nothing taken, where fewer bytes are left.
    pub fn words(&mut self, count: usize) -> Option<Vec<u32>> {
        let bytes = self.bytes.get(..count.checked_mul(4)?)?;
        self.bytes = &self.bytes[bytes.len()..];
        Some(bytes.chunks_exact(4).map(|word| u32::from_le_bytes([word[0], word[1], word[2], word[3]])).collect())
    }

    /// The count of the image's words and the image. A count of 0 or over the most, or fewer bytes than it needs, is
    /// number 1.
    pub fn project(&mut self) -> Result<Project, Fault> {
        let count = self.word().ok_or(NO_IMAGE)? as usize;
        if count == 0 || count > MOST_WORDS {
            return Err(NO_IMAGE);
        }
        image::decode(&self.words(count).ok_or(NO_IMAGE)?)
    }
}

/// "A number is an f64's bits, low word first."
pub fn numbers(words: &[u32]) -> Vec<f64> {
    words.chunks_exact(2).map(|pair| f64::from_bits(u64::from(pair[1]) << 32 | u64::from(pair[0]))).collect()
}
