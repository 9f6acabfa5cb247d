//! Samples in microseconds, the same in each run.

use super::rows::{HIGH, Row};

#[derive(Clone, Copy, PartialEq)]
pub enum Shape {
    /// Latencies of a service: log-normal, median 1 ms, sigma 1.
    Latencies,
    /// Hits of a cache near 0.1 ms, and one miss in ten near 20 ms.
    HitsAndMisses,
    /// The k-th of a million values comes 1/k as often as the first.
    Zipf,
    Uniform,
    /// One value again and again.
    One,
}

struct Generator(u64);

impl Generator {
    /// A number from 0 to below 1.
    fn next(&mut self) -> f64 {
        self.0 ^= self.0 << 13;
        self.0 ^= self.0 >> 7;
        self.0 ^= self.0 << 17;
        (self.0 >> 11) as f64 / (1u64 << 53) as f64
    }

    fn normal(&mut self) -> f64 {
        let radius = (-2.0 * (1.0 - self.next()).ln()).sqrt();
        radius * (std::f64::consts::TAU * self.next()).cos()
    }

    fn sample(&mut self, shape: Shape) -> u64 {
        let value = match shape {
            Shape::Latencies => 1000.0 * self.normal().exp(),
            Shape::HitsAndMisses if self.next() < 0.9 => 100.0 * (0.3 * self.normal()).exp(),
            Shape::HitsAndMisses => 20_000.0 * (0.5 * self.normal()).exp(),
            Shape::Zipf => (self.next() * 1e6f64.ln()).exp(),
            Shape::Uniform => self.next() * HIGH as f64,
            Shape::One => 1234.0,
        };
        (value as u64).max(1)
    }
}

pub fn of(row: &Row) -> Vec<u64> {
    let mut generator = Generator(0x9e37_79b9_7f4a_7c15);
    let most = if row.high == 0 { u64::MAX } else { row.high };
    (0..row.samples).map(|_| generator.sample(row.shape).min(most)).collect()
}
