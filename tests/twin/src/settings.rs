//! The seven settings, their ranges, the three slacks and the round window.

use crate::fault::Fault;
use crate::refusal::Refusal;

#[derive(Clone, Copy, Debug)]
pub struct Settings {
    pub n: u64,
    pub t: u64,
    pub eta: u64,
    pub delta: u64,
    pub p: u64,
    pub o: u64,
    pub g: u64,
    pub fault: Fault,
}

/// Least and greatest value of each setting, in their order.
pub const RANGES: [(u64, u64); 7] =
    [(1, 16), (1, 16), (1, 1_048_576), (1, 1_048_576), (1, 16_777_216), (1, 16_777_216), (1, 1_000)];

impl Settings {
    /// The settings, or refusal 1 or 2.
    pub fn accept(numbers: [u64; 7], fault: Fault) -> Result<Settings, Refusal> {
        let [n, t, eta, delta, p, o, g] = numbers;
        let in_range = numbers.iter().zip(RANGES).all(|(v, (least, greatest))| least <= *v && *v <= greatest);
        if !in_range || t > n {
            return Err(1);
        }
        let s = Settings { n, t, eta, delta, p, o, g, fault };
        let [a, b, c] = s.slacks();
        let least_a = if fault == Fault::SlackAMinusOne { -1 } else { 0 };
        let least_b = if fault == Fault::SlackBMinusOne { -1 } else { 0 };
        let least_c = if fault == Fault::SlackCZero { 1 } else { 0 };
        if a < least_a || b < least_b || c < least_c {
            return Err(2);
        }
        Ok(s)
    }

    /// The slacks a, b and c.
    pub fn slacks(&self) -> [i64; 3] {
        let [eta, delta, p, o, g] = [self.eta, self.delta, self.p, self.o, self.g].map(|v| v as i64);
        let one = if self.fault == Fault::SlackA { 0 } else { 1 };
        [p - eta - delta - 2 * (g - 1) - one, o - p - delta - 4 * (g - 1), 64 * eta - p]
    }

    /// The round window W.
    pub fn window(&self) -> u64 {
        self.o - self.p - 3 * (self.g - 1)
    }

    /// n - t + 1, the size of a query quorum.
    pub fn query_quorum(&self) -> usize {
        (self.n - self.t + 1) as usize
    }
}
