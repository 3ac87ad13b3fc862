//! A buffer as a caller lends it: noise inside, guard bytes on both sides, at any alignment.

use nest_tests::noise::Noise;

const GUARD: usize = 24;

#[derive(Clone)]
pub struct Lent {
    all: Vec<u8>,
    from: usize,
    length: usize,
}

impl Lent {
    pub fn noisy(noise: &mut Noise, length: usize) -> Lent {
        let from = GUARD + noise.below(8);
        Lent { all: noise.bytes(from + length + GUARD), from, length }
    }

    pub fn holding(noise: &mut Noise, content: &[u8]) -> Lent {
        let mut lent = Lent::noisy(noise, content.len());
        lent.bytes_mut().copy_from_slice(content);
        lent
    }

    pub fn bytes(&self) -> &[u8] {
        &self.all[self.from..self.from + self.length]
    }

    pub fn bytes_mut(&mut self) -> &mut [u8] {
        &mut self.all[self.from..self.from + self.length]
    }

    /// The first byte that differs, guards included, as a place relative to the buffer's first byte.
    pub fn difference(&self, expected: &Lent) -> Option<String> {
        let at = (0..self.all.len()).find(|&i| self.all[i] != expected.all[i])?;
        let place = at as i64 - self.from as i64;
        let (got, wanted) = (self.all[at], expected.all[at]);
        Some(format!("byte {place} of {} is {got:02x}, expected {wanted:02x}", self.length))
    }
}

/// Lengths around what is needed: empty, one byte short, exact, one byte over, one unit more, much longer.
pub fn awkward_lengths(needed: usize, unit: usize) -> [usize; 7] {
    [0, needed.saturating_sub(unit), needed.saturating_sub(1), needed, needed + 1, needed + unit, needed + 333]
}
