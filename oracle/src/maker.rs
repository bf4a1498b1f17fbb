//! Cases made from a seed, whatever their form: the same seed makes the same cases, on every
//! machine.

use std::io::{Result, Write};

use crate::draw::Draw;

/// How cases of one form are made, in octets.
pub struct Maker {
    pub case: fn(&mut Draw) -> Vec<u8>,
    /// In the way that the seed takes.
    pub bad_case: fn(u64, &mut Draw) -> Vec<u8>,
}

impl Maker {
    /// Writes so many cases, the last of them bad if that is asked; the others are the same either
    /// way.
    pub fn write(
        &self,
        seed: u64,
        count: u64,
        last_is_bad: bool,
        out: &mut impl Write,
    ) -> Result<()> {
        let mut draw = Draw::from_seed(seed);
        for number in 1..=count {
            let octets = if last_is_bad && number == count {
                (self.bad_case)(seed, &mut draw)
            } else {
                (self.case)(&mut draw)
            };
            out.write_all(&octets)?;
        }
        out.flush()
    }

    #[cfg(test)]
    pub fn made(&self, seed: u64, count: u64, last_is_bad: bool) -> Vec<u8> {
        let mut octets = Vec::new();
        self.write(seed, count, last_is_bad, &mut octets).expect("a vector takes every byte");
        octets
    }
}
