//! Areas that are lent, with a guard behind them or in blocks of their own.

use super::call::{Answer, Call};
use super::limits::Areas;
use crate::port;

/// Where the port finds the areas that a call is made on.
#[derive(Debug, Clone, Copy, Default, PartialEq, Eq)]
pub enum Blocks {
    /// Where they are, with a guard behind them.
    #[default]
    Guarded,
    /// Copied into heap blocks that are exactly as long as what is lent, so that a memory checker
    /// sees each access outside; a body that is offered too.
    Exact,
}

const GUARD_WORDS: usize = 16;
const GUARD_BYTES: usize = 64;

#[derive(Clone, Default)]
pub struct Lent {
    words: Vec<u64>,
    bytes: Vec<u8>,
    blocks: Blocks,
}

impl Lent {
    /// Areas full of patterns.
    pub fn new(areas: Areas, blocks: Blocks) -> Self {
        let words = 0..areas.words + GUARD_WORDS as u64;
        let bytes = 0..areas.bytes + GUARD_BYTES as u64;
        Self {
            words: words.map(word_pattern).collect(),
            bytes: bytes.map(byte_pattern).collect(),
            blocks,
        }
    }

    pub fn areas(&self) -> Areas {
        Areas { bytes: self.bytes().len() as u64, words: self.words().len() as u64 }
    }

    pub fn words(&self) -> &[u64] {
        &self.words[..self.words.len() - GUARD_WORDS]
    }

    pub fn bytes(&self) -> &[u8] {
        &self.bytes[..self.bytes.len() - GUARD_BYTES]
    }

    pub fn words_mut(&mut self) -> &mut [u64] {
        let end = self.words.len() - GUARD_WORDS;
        &mut self.words[..end]
    }

    pub fn bytes_mut(&mut self) -> &mut [u8] {
        let end = self.bytes.len() - GUARD_BYTES;
        &mut self.bytes[..end]
    }

    /// The port's answer, in the first so many words and bytes.
    pub fn answer(&mut self, call: &Call, body: &[u8], areas: Areas) -> Answer {
        match self.blocks {
            Blocks::Guarded => {
                self.on(areas, |words, bytes| port::cache::answer(call, body, words, bytes))
            }
            Blocks::Exact => {
                let body: Box<[u8]> = body.into();
                self.on(areas, |words, bytes| port::cache::answer(call, &body, words, bytes))
            }
        }
    }

    /// The figures that the port tells, or its number.
    pub fn figures(&mut self, areas: Areas) -> Result<[u64; 6], u32> {
        self.on(areas, |words, bytes| port::cache::figures(words, bytes))
    }

    /// The part of the byte area where the port says that a handed-out body is, or its number.
    pub fn handed_out(&mut self, number: u64, areas: Areas) -> Result<&[u8], u32> {
        let [place, length] =
            self.on(areas, |words, bytes| port::cache::place_handed_out(number, words, bytes))?;
        Ok(&self.bytes()[..areas.bytes as usize][place as usize..][..length as usize])
    }

    fn on<R>(&mut self, areas: Areas, call: impl FnOnce(&mut [u64], &mut [u8]) -> R) -> R {
        let (words, bytes) = (areas.words as usize, areas.bytes as usize);
        assert!(words <= self.words().len() && bytes <= self.bytes().len());
        let (words, bytes) = (&mut self.words[..words], &mut self.bytes[..bytes]);
        if self.blocks == Blocks::Guarded {
            return call(words, bytes);
        }
        let mut own_words: Box<[u64]> = (*words).into();
        let mut own_bytes: Box<[u8]> = (*bytes).into();
        let answer = call(&mut own_words, &mut own_bytes);
        words.copy_from_slice(&own_words);
        bytes.copy_from_slice(&own_bytes);
        answer
    }

    pub fn copy_from(&mut self, other: &Self) {
        self.words.clone_from(&other.words);
        self.bytes.clone_from(&other.bytes);
        self.blocks = other.blocks;
    }

    /// Whether words and bytes are the same, guards too.
    pub fn is_same(&self, other: &Self) -> bool {
        self.words == other.words && self.bytes == other.bytes
    }

    /// Keeps what stands from these positions on, guards with it.
    pub fn keep_tail(&self, from: Areas, tail: &mut Tail) {
        tail.words_from = from.words as usize;
        tail.bytes_from = from.bytes as usize;
        tail.words.clear();
        tail.words.extend_from_slice(&self.words[tail.words_from..]);
        tail.bytes.clear();
        tail.bytes.extend_from_slice(&self.bytes[tail.bytes_from..]);
    }

    pub fn has_tail(&self, tail: &Tail) -> bool {
        self.words[tail.words_from..] == tail.words[..]
            && self.bytes[tail.bytes_from..] == tail.bytes[..]
    }
}

/// What stood behind the need.
#[derive(Default)]
pub struct Tail {
    words_from: usize,
    words: Vec<u64>,
    bytes_from: usize,
    bytes: Vec<u8>,
}

fn word_pattern(at: u64) -> u64 {
    0x5EED_0000_0000_0001_u64.wrapping_add(at.wrapping_mul(0x9E37_79B9_7F4A_7C15))
}

fn byte_pattern(at: u64) -> u8 {
    (at as u8).wrapping_mul(37) ^ 0xA5
}
