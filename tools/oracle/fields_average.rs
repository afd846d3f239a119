// Private fields of a moving average, for the driver.
use crate::bwe::drive::{bits, option_words, optional};

impl super::MovingAverage {
    pub fn variance_and_std(&self) -> (f64, f64) {
        (self.variance, self.std)
    }

    pub fn from_words(w: &[u64]) -> Self {
        Self {
            smoothing_factor: f64::from_bits(w[0]),
            average: optional(&w[1..]).map(f64::from_bits),
            variance: f64::from_bits(w[3]),
            std: f64::from_bits(w[4]),
        }
    }

    pub fn words(&self) -> Vec<u64> {
        let [tag, average] = option_words(self.average.map(bits));
        vec![bits(self.smoothing_factor), tag, average, bits(self.variance), bits(self.std)]
    }
}
