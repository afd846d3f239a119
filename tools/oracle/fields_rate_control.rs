// Private fields of the rate control, for the driver.
use super::{MovingAverage, State};
use crate::bwe::drive::{at, bits, ns, option_words, optional, rate, since_zero};

impl super::RateControl {
    pub fn peek(&self) -> (u64, Option<f64>, f64, f64) {
        let m = &self.averaged_observed_bitrate;
        let (variance, std) = m.variance_and_std();
        (self.state_word(), m.get(), variance, std)
    }

    pub fn increases_near_convergence(&self) -> bool {
        self.state == State::Increase && self.is_near_convergence()
    }

    fn state_word(&self) -> u64 {
        match self.state {
            State::Increase => 0,
            State::Hold => 1,
            State::Decrease => 2,
        }
    }

    pub fn from_words(w: &[u64]) -> Self {
        Self {
            state: [State::Increase, State::Hold, State::Decrease][w[0] as usize],
            estimated_bitrate: rate(w[1]),
            min_bitrate: rate(w[2]),
            max_bitrate: rate(w[3]),
            last_observed_bitrate: optional(&w[4..]).map(rate),
            averaged_observed_bitrate: MovingAverage::from_words(&w[6..]),
            last_estimate_update: optional(&w[11..]).map(at),
            last_rtt: optional(&w[13..]).map(ns),
        }
    }

    pub fn words(&self) -> Vec<u64> {
        let mut w = vec![self.state_word()];
        w.extend([self.estimated_bitrate, self.min_bitrate, self.max_bitrate].map(|r| bits(r.as_f64())));
        w.extend(option_words(self.last_observed_bitrate.map(|r| bits(r.as_f64()))));
        w.extend(self.averaged_observed_bitrate.words());
        w.extend(option_words(self.last_estimate_update.map(since_zero)));
        w.extend(option_words(self.last_rtt.map(|d| d.as_nanos() as u64)));
        w
    }
}
