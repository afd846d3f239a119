// Private fields of the trendline, for the driver.
use crate::bwe::drive::{at, bits, delta, delta_words, option_words, optional, since_zero, stamp_words, usage, usage_of};
use crate::bwe::time::Timestamp;
use crate::util::zero;

impl super::TrendlineEstimator {
    #[allow(clippy::type_complexity)]
    pub fn peek(&self) -> (f64, f64, f64, f64, u64, Option<(u64, super::TimeDelta)>) {
        let overuse = self.overuse.as_ref().map(|o| (o.count.min(2) as u64, o.time_overusing));
        (self.delay_threshold, self.previous_trend, self.accumulated_delay, self.smoothed_delay, self.num_delay_variations as u64, overuse)
    }

    pub fn from_words(w: &[u64]) -> Self {
        let timing = |i: usize| super::Timing {
            at: zero(),
            remote_recv_time_ms: f64::from_bits(w[2 + i]),
            smoothed_delay_ms: f64::from_bits(w[22 + i]),
        };
        Self {
            window_size: 20,
            zero_time: optional(w).map(|t| Timestamp::Exact(at(t))),
            history: (0..w[42] as usize).map(timing).collect(),
            num_delay_variations: w[43] as usize,
            accumulated_delay: f64::from_bits(w[44]),
            smoothed_delay: f64::from_bits(w[45]),
            delay_threshold: f64::from_bits(w[46]),
            previous_trend: f64::from_bits(w[47]),
            overuse: (w[48] == 1).then(|| super::Overuse { count: w[49] as usize, time_overusing: delta(w[50], w[51]) }),
            last_threshold_update: optional(&w[52..]).map(at),
            hypothesis: usage_of(w[54]),
        }
    }

    /// The overuse count is shown up to 2.
    pub fn words(&self) -> Vec<u64> {
        let mut w = vec![0; 42];
        w[..2].copy_from_slice(&option_words(self.zero_time.map(|t| stamp_words(t).1)));
        for (i, t) in self.history.iter().enumerate() {
            w[2 + i] = bits(t.remote_recv_time_ms);
            w[22 + i] = bits(t.smoothed_delay_ms);
        }
        w.extend([self.history.len() as u64, self.num_delay_variations as u64]);
        w.extend([self.accumulated_delay, self.smoothed_delay, self.delay_threshold, self.previous_trend].map(bits));
        w.extend(self.overuse.as_ref().map_or([0; 4], |o| {
            let (tag, ns) = delta_words(o.time_overusing);
            [1, o.count.min(2) as u64, tag, ns]
        }));
        w.extend(option_words(self.last_threshold_update.map(since_zero)));
        w.push(usage(self.hypothesis));
        w
    }
}
