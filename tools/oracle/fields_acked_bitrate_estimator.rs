// Private fields of the acknowledged-rate estimator, for the driver.
use crate::bwe::drive::{at, bits, ns, option_words, optional, rate, since_zero};
use crate::rtp_::DataSize;

impl super::AckedBitrateEstimator {
    pub fn variance_sum_window(&self) -> (f64, i64, u64) {
        (self.estimate_var, self.sum.as_bytes_i64(), self.current_window.as_nanos() as u64)
    }

    pub fn copy(&self) -> Self {
        Self { ..*self }
    }

    pub fn from_words(w: &[u64]) -> Self {
        Self {
            initial_window: ns(w[0]),
            window: ns(w[1]),
            estimate: optional(&w[2..]).map(rate),
            estimate_var: f64::from_bits(w[4]),
            sum: DataSize::bytes(w[5] as i64),
            current_window: ns(w[6]),
            last_update: optional(&w[7..]).map(at),
        }
    }

    pub fn words(&self) -> Vec<u64> {
        let mut w = vec![self.initial_window.as_nanos() as u64, self.window.as_nanos() as u64];
        w.extend(option_words(self.estimate.map(|e| bits(e.as_f64()))));
        w.extend([bits(self.estimate_var), self.sum.as_bytes_i64() as u64, self.current_window.as_nanos() as u64]);
        w.extend(option_words(self.last_update.map(since_zero)));
        w
    }
}
