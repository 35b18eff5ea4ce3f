//! What is left of the input, read as little-endian words.

use crate::project::Fault;

const MOST_WORDS: usize = 16_384;

pub struct Input<'a> {
    bytes: &'a [u8],
}

/// Words that are still bytes.
#[derive(Clone, Copy)]
pub struct Words<'a> {
    words: &'a [[u8; 4]],
}

impl<'a> Input<'a> {
    pub fn new(bytes: &'a [u8]) -> Self {
        Input { bytes }
    }

    pub fn is_empty(&self) -> bool {
        self.bytes.is_empty()
    }

    pub fn word(&mut self) -> Option<u32> {
        let (word, rest) = self.bytes.split_first_chunk()?;
        self.bytes = rest;
        Some(u32::from_le_bytes(*word))
    }

    pub fn words(&mut self, count: usize) -> Option<Words<'a>> {
        let (bytes, rest) = self.bytes.split_at_checked(4 * count)?;
        self.bytes = rest;
        Some(Words { words: bytes.as_chunks().0 })
    }

    /// The image behind its count.
    pub fn image(&mut self) -> Result<Words<'a>, Fault> {
        let count = self.word().ok_or(Fault::NO_IMAGE)? as usize;
        if !(1..=MOST_WORDS).contains(&count) {
            return Err(Fault::NO_IMAGE);
        }
        self.words(count).ok_or(Fault::NO_IMAGE)
    }
}

impl<'a> Words<'a> {
    pub fn len(&self) -> usize {
        self.words.len()
    }

    /// The next word, if there is one.
    pub fn next(&mut self) -> Option<u32> {
        let (word, rest) = self.words.split_first()?;
        self.words = rest;
        Some(u32::from_le_bytes(*word))
    }

    /// Takes so many words off the front, if there are as many.
    pub fn take(&mut self, count: usize) -> Option<Words<'a>> {
        let (taken, rest) = self.words.split_at_checked(count)?;
        self.words = rest;
        Some(Words { words: taken })
    }

    /// All of them as numbers, two words each, the low word first.
    pub fn numbers(self) -> impl Iterator<Item = f64> + 'a {
        let (pairs, _) = self.words.as_chunks();
        pairs.iter().map(|[low, high]| number(u32::from_le_bytes(*low), u32::from_le_bytes(*high)))
    }
}

pub fn number(low: u32, high: u32) -> f64 {
    f64::from_bits(u64::from(high) << 32 | u64::from(low))
}
