//! Marsaglia's xorshift with 64 bits: small, quick, the same everywhere.

use crate::form::ALPHABET;

pub struct Random(u64);

impl Random {
    /// The seed is stirred, so that small seeds differ from the first number
    /// on; a state of 0 would stay 0.
    pub fn new(seed: u64) -> Self {
        let stirred = (seed ^ 0x9E37_79B9_7F4A_7C15).wrapping_mul(0xBF58_476D_1CE4_E5B9);
        Random((stirred ^ stirred >> 31).max(1))
    }

    pub fn number(&mut self) -> u64 {
        self.0 ^= self.0 << 13;
        self.0 ^= self.0 >> 7;
        self.0 ^= self.0 << 17;
        self.0
    }

    /// A number below `limit`; 0 if the limit is 0.
    pub fn below(&mut self, limit: usize) -> usize {
        match limit {
            0 => 0,
            _ => ((self.number() >> 11) % limit as u64) as usize,
        }
    }

    /// True once in `times`.
    pub fn once_in(&mut self, times: usize) -> bool {
        self.below(times) == 0
    }

    pub fn pick<'a, T>(&mut self, choices: &'a [T]) -> &'a T {
        &choices[self.below(choices.len())]
    }

    pub fn byte(&mut self) -> u8 {
        (self.number() >> 24) as u8
    }

    pub fn bytes(&mut self, length: usize) -> Vec<u8> {
        (0..length).map(|_| self.byte()).collect()
    }

    pub fn character(&mut self) -> u8 {
        *self.pick(ALPHABET)
    }

    pub fn characters(&mut self, length: usize) -> Vec<u8> {
        (0..length).map(|_| self.character()).collect()
    }
}
