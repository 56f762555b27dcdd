//! Settings: refusals 6, 7, 8, the defaults, the RNG state.
use crate::limits::{DIMENSIONS, M, MAX_EF};

#[derive(Clone, Copy, Debug, PartialEq, Eq)]
pub struct Config {
    pub d: u64,
    pub m: u64,
    pub ef: u64,
    pub seed: u64,
    pub metric: u64,
}

impl Config {
    pub fn new(d: u64) -> Self {
        Self { d, m: 16, ef: 200, seed: 42, metric: 0 }
    }

    /// The five numbers of a request; a metric over 2 is no request.
    pub fn from_numbers(numbers: &[u64]) -> Option<Self> {
        let &[d, m, ef, seed, metric] = numbers else { return None };
        (metric <= 2).then_some(Self { d, m, ef, seed, metric })
    }

    pub fn numbers(&self) -> [u64; 5] {
        [self.d, self.m, self.ef, self.seed, self.metric]
    }

    pub fn validate(&self) -> Result<(), u32> {
        if !DIMENSIONS.contains(&self.d) {
            return Err(6);
        }
        if !M.contains(&self.m) {
            return Err(7);
        }
        if !(self.m..=MAX_EF).contains(&self.ef) {
            return Err(8);
        }
        Ok(())
    }
}

pub fn rng_state(seed: u64, count: u64) -> u64 {
    seed.wrapping_add(count.wrapping_mul(0x9e37_79b9_7f4a_7c15))
}
