// Private fields of the delay controller, for the driver.
use super::{ArrivalGroupAccumulator, MovingAverage, RateControl, TrendlineEstimator, VecDeque, already_happened};
use crate::bwe::drive::{at, option_words, optional, since_zero};
use crate::util::zero;

impl super::DelayController {
    pub fn peek(&self) -> (&TrendlineEstimator, (u64, u64)) {
        let rtt = self.get_smoothed_rtt().map_or((0, 0), |d| (1, d.as_nanos() as u64));
        (&self.trendline_estimator, rtt)
    }

    pub fn increases_near_convergence(&self) -> bool {
        self.rate_control.increases_near_convergence()
    }

    pub fn hands_on(&self, now: std::time::Instant) -> bool {
        self.trendline_hypothesis_valid(now)
    }

    /// The last estimate is the rate control's; the round trips before the first smoothed one are none.
    pub fn from_words(w: &[u64]) -> Self {
        let rate_control = RateControl::from_words(&w[67..]);
        Self {
            arrival_group_accumulator: ArrivalGroupAccumulator::from_words(w),
            trendline_estimator: TrendlineEstimator::from_words(&w[12..]),
            last_estimate: Some(rate_control.estimated_bitrate()),
            rate_control,
            smoothed_rtt: MovingAverage::from_words(&w[82..]),
            max_rtt_history: VecDeque::default(),
            next_timeout: at(w[87]),
            last_twcc_report: optional(&w[88..]).map_or_else(already_happened, at),
        }
    }

    /// A report from before instant 0 is none.
    pub fn words(&self) -> Vec<u64> {
        let mut w = self.arrival_group_accumulator.words();
        w.extend(self.trendline_estimator.words());
        w.extend(self.rate_control.words());
        w.extend(self.smoothed_rtt.words());
        w.push(since_zero(self.next_timeout));
        w.extend(option_words((self.last_twcc_report >= zero()).then(|| since_zero(self.last_twcc_report))));
        w
    }
}
