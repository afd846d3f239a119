//! Runs one operation of one of the Rust's modules, and gives its answers as words. The numbers of the operations are those of the
//! program `replay`. A float is its bits, with 7ff8000000000000 for every NaN; an instant and a duration are ns.
use super::acked_bitrate_estimator::AckedBitrateEstimator;
use super::delay::arrival_group::{ArrivalGroupAccumulator, InterGroupDelayDelta};
use super::delay::control::DelayController;
use super::delay::rate_control::{RateControl, Signal};
use super::delay::trendline::TrendlineEstimator;
use super::link::{self, Link, Lists};
use super::time::{TimeDelta, Timestamp};
use super::{AckedPacket, BandwidthUsage};
use crate::rtp_::{Bitrate, DataSize, TwccSeq};
use crate::util::{MovingAverage, zero};
use std::time::{Duration, Instant};

pub type Answers = [u64; 6];

pub fn bits(x: f64) -> u64 {
    if x.is_nan() { 0x7ff8_0000_0000_0000 } else { x.to_bits() }
}

pub fn ns(n: u64) -> Duration {
    Duration::from_nanos(n)
}

pub fn at(n: u64) -> Instant {
    zero() + ns(n)
}

/// ns from instant 0; what lies before it, and the Rust's own past, is 0.
pub fn since_zero(t: Instant) -> u64 {
    t.saturating_duration_since(zero()).as_nanos() as u64
}

pub fn delta(tag: u64, n: u64) -> TimeDelta {
    match tag {
        0 => TimeDelta::NegativeInfinity,
        1 => TimeDelta::Negative(ns(n)),
        2 => TimeDelta::Positive(ns(n)),
        _ => TimeDelta::PositiveInfinity,
    }
}

pub fn delta_words(d: TimeDelta) -> (u64, u64) {
    match d {
        TimeDelta::NegativeInfinity => (0, 0),
        TimeDelta::Negative(d) => (1, d.as_nanos() as u64),
        TimeDelta::Positive(d) => (2, d.as_nanos() as u64),
        TimeDelta::PositiveInfinity => (3, 0),
    }
}

pub fn stamp(tag: u64, n: u64) -> Timestamp {
    match tag {
        0 => Timestamp::DistantPast,
        1 => Timestamp::Exact(at(n)),
        _ => Timestamp::DistantFuture,
    }
}

pub fn stamp_words(t: Timestamp) -> (u64, u64) {
    match t {
        Timestamp::DistantPast => (0, 0),
        Timestamp::Exact(t) => (1, since_zero(t)),
        Timestamp::DistantFuture => (2, 0),
    }
}

fn option(x: Option<f64>) -> (u64, u64) {
    x.map_or((0, 0), |x| (1, bits(x)))
}

/// Of a tag and a word.
pub fn optional(w: &[u64]) -> Option<u64> {
    (w[0] == 1).then_some(w[1])
}

pub fn option_words(x: Option<u64>) -> [u64; 2] {
    x.map_or([0, 0], |x| [1, x])
}

pub fn rate(b: u64) -> Bitrate {
    Bitrate::from(f64::from_bits(b))
}

pub fn usage(u: BandwidthUsage) -> u64 {
    match u {
        BandwidthUsage::Overuse => 0,
        BandwidthUsage::Normal => 1,
        BandwidthUsage::Underuse => 2,
    }
}

pub fn usage_of(word: u64) -> BandwidthUsage {
    [BandwidthUsage::Overuse, BandwidthUsage::Normal, BandwidthUsage::Underuse][word as usize]
}

// Hypothesis with the counts of variations and of overuse (at most 2), threshold, trend, sums, and the time of overuse.
pub fn trend_words(t: &TrendlineEstimator) -> Answers {
    let (threshold, trend, accumulated, smoothed, count, overuse) = t.peek();
    let (n, tag, time) = overuse.map_or((0, 0, 0), |(n, d)| (n, delta_words(d).0 + 1, delta_words(d).1));
    [usage(t.hypothesis()) | count << 8 | n << 32 | tag << 40, bits(threshold), bits(trend), bits(accumulated), bits(smoothed), time]
}

/// The modules' states. Each is what the operations so far made of it.
pub struct States {
    average: MovingAverage,
    acked: AckedBitrateEstimator,
    groups: ArrivalGroupAccumulator,
    trendline: TrendlineEstimator,
    rate: RateControl,
    control: DelayController,
    packets: Vec<AckedPacket>,
    pub link: Link,
    lists: Lists,
}

impl States {
    pub fn new() -> Self {
        Self {
            average: MovingAverage::new(0.95),
            acked: AckedBitrateEstimator::new(ns(500_000_000), ns(150_000_000)),
            groups: ArrivalGroupAccumulator::default(),
            trendline: TrendlineEstimator::new(20),
            rate: RateControl::new(Bitrate::bps(1_000_000), Bitrate::kbps(40), Bitrate::gbps(10)),
            control: DelayController::new(Bitrate::bps(1_000_000)),
            packets: Vec::new(),
            link: link::open(1e6, 500_000_000, 150_000_000).ok().unwrap(),
            lists: Lists::default(),
        }
    }

    pub fn run(&mut self, op: u64, i: [u64; 5]) -> Answers {
        match op {
            1..20 => time(op, i),
            20..30 => self.average(op, i),
            30..40 => self.acked(op, i),
            40..50 => self.groups(op, i),
            50..60 => self.trendline(op, i),
            60..70 => self.rate(op, i),
            70..80 => self.control(op, i),
            80..90 => bandwidth(op, i),
            _ => self.link(op, i),
        }
    }

    // The moment is the group's remote one, as the controller hands it on.
    fn trendline(&mut self, op: u64, i: [u64; 5]) -> Answers {
        if op == 50 {
            self.trendline = TrendlineEstimator::new(20);
        } else {
            let v = InterGroupDelayDelta {
                send_delta: delta(i[0], i[1]),
                arrival_delta: delta(i[2], i[3]),
                last_remote_recv_time: at(i[4]),
            };
            self.trendline.add_delay_observation(v, at(i[4]));
        }
        trend_words(&self.trendline)
    }

    fn rate(&mut self, op: u64, i: [u64; 5]) -> Answers {
        match op {
            60 => self.rate = RateControl::new(rate(i[0]), rate(i[1]), rate(i[2])),
            61 => {
                let signal = [Signal::Overuse, Signal::Underuse, Signal::Normal][i[0] as usize];
                self.rate.update(signal, rate(i[1]), (i[2] == 1).then(|| ns(i[3])), at(i[4]));
            }
            _ => self.rate.set_probe_result(rate(i[0]), at(i[1])),
        }
        let (state, average, variance, std) = self.rate.peek();
        let (some, average) = option(average);
        [bits(self.rate.estimated_bitrate().as_f64()), state, some, average, bits(variance), bits(std)]
    }

    fn control(&mut self, op: u64, i: [u64; 5]) -> Answers {
        let option = |tag: u64, b: u64| (tag == 1).then(|| rate(b));
        match op {
            70 => self.control = DelayController::new(rate(i[0])),
            71 => self.packets.push(AckedPacket {
                seq_no: TwccSeq(0),
                size: DataSize::bytes(1),
                local_send_time: at(i[0]),
                remote_recv_time: at(i[1]),
                local_recv_time: at(i[2]),
            }),
            72 => {
                let packets = std::mem::take(&mut self.packets);
                self.control.update(&packets, option(i[0] & 1, i[1]), option(i[0] >> 1, i[2]), at(i[3]));
            }
            _ => self.control.handle_timeout(option(i[0], i[1]), at(i[2])),
        }
        if op == 71 {
            return [0; 6];
        }
        let (trend, rtt) = self.control.peek();
        let t = trend_words(trend);
        [bits(self.control.last_estimate().unwrap().as_f64()), t[0], since_zero(self.control.poll_timeout()), t[1], rtt.0, rtt.1]
    }

    // Opening, a packet that waits, a report of those that wait, of which one list may be one short, and a timeout. A refused opening leaves the link.
    fn link(&mut self, op: u64, i: [u64; 5]) -> Answers {
        let number = match op {
            90 => match link::open(f64::from_bits(i[0]), i[1], i[2]) {
                Ok(link) => {
                    self.link = link;
                    0
                }
                Err(number) => number,
            },
            91 => {
                for (list, x) in self.lists.iter_mut().zip(i) {
                    list.push(x);
                }
                return [0; 6];
            }
            92 => {
                let mut lists = std::mem::take(&mut self.lists);
                if i[3] > 0 {
                    lists[i[3] as usize - 1].pop();
                }
                self.link.report(&lists, (i[0] == 1).then(|| f64::from_bits(i[1])), i[2])
            }
            _ => self.link.timeout(i[0]),
        };
        let s = self.link.shown();
        [number, s[0], s[1], s[2], s[3], s[4]]
    }

    fn average(&mut self, op: u64, i: [u64; 5]) -> Answers {
        match op {
            20 => self.average = MovingAverage::new(f64::from_bits(i[0])),
            21 => self.average.update(f64::from_bits(i[0])),
            _ => self.average.reset(),
        }
        let m = &self.average;
        let n = f64::from_bits(i[1]);
        let (variance, std) = m.variance_and_std();
        let within = m.within_std(f64::from_bits(i[2]), n) as u64;
        let (some, average) = option(m.get());
        let (up, upper) = option(m.upper_range(n));
        let (_, lower) = option(m.lower_range(n));
        [some | up << 1 | within << 2 | (m.valid() as u64) << 3, average, bits(variance), bits(std), upper, lower]
    }

    fn acked(&mut self, op: u64, i: [u64; 5]) -> Answers {
        match op {
            30 => self.acked = AckedBitrateEstimator::new(ns(i[0]), ns(i[1])),
            _ => self.acked.update(at(i[0]), DataSize::bytes(i[1] as i64)),
        }
        let (some, estimate) = option(self.acked.current_estimate().map(|e| e.as_f64()));
        let (variance, sum, window) = self.acked.variance_sum_window();
        [some, estimate, bits(variance), sum as u64, window, 0]
    }

    fn groups(&mut self, op: u64, i: [u64; 5]) -> Answers {
        if op == 40 {
            self.groups = ArrivalGroupAccumulator::default();
            return [0; 6];
        }
        let packet = AckedPacket {
            seq_no: TwccSeq(i[2]),
            size: DataSize::bytes(1),
            local_send_time: at(i[0]),
            remote_recv_time: at(i[1]),
            local_recv_time: at(i[0]),
        };
        match self.groups.accumulate_packet(&packet) {
            None => [0; 6],
            Some(d) => {
                let (s, send) = delta_words(d.send_delta);
                let (a, arrival) = delta_words(d.arrival_delta);
                [1, s, send, a, arrival, since_zero(d.last_remote_recv_time)]
            }
        }
    }
}

fn time(op: u64, i: [u64; 5]) -> Answers {
    let (a, b) = (delta(i[0], i[1]), delta(i[2], i[3]));
    let (s, t) = (stamp(i[0], i[1]), stamp(i[2], i[3]));
    let order = |o: std::cmp::Ordering| ((o as i8) + 1) as u64;
    let one = |x: u64| [x, 0, 0, 0, 0, 0];
    let two = |w: (u64, u64)| [w.0, w.1, 0, 0, 0, 0];
    match op {
        1 => two(delta_words(a + b)),
        2 => two(delta_words(a - b)),
        3 => [order(a.cmp(&b)), (a == b) as u64, (a < b) as u64, (a <= b) as u64, 0, 0],
        4 => two(delta_words(a / i[2] as u32)),
        5 => one(bits(a.as_secs_f64())),
        6 => two(stamp_words(s + b)),
        7 => two(stamp_words(s - b)),
        8 => two(delta_words(s - t)),
        9 => [order(s.cmp(&t)), s.is_exact() as u64, 0, 0, 0, 0],
        10 => two(stamp_words(s + ns(i[2]))),
        11 => two(stamp_words(s - ns(i[2]))),
        12 => two(delta_words(s - at(i[2]))),
        13 => one(bits((DataSize::bytes(i[2] as i64) / a).as_f64())),
        14 => [(a == ns(i[2])) as u64, (a < ns(i[2])) as u64, (a <= ns(i[2])) as u64, 0, 0, 0],
        15 => two(delta_words(TimeDelta::from_secs(f64::from_bits(i[0]) as i64))),
        _ => two(delta_words(TimeDelta::from_millis(f64::from_bits(i[0]) as i64))),
    }
}

// Two rates: limited, multiplied, compared. Two sizes: as a float, summed (told by an order), per duration.
fn bandwidth(op: u64, i: [u64; 5]) -> Answers {
    if op == 80 {
        let (a, b) = (rate(i[0]), rate(i[1]));
        let limited = a.clamp(rate(i[2]), rate(i[3]));
        return [bits(limited.as_f64()), bits((a * f64::from_bits(i[1])).as_f64()), (a < b) as u64, bits(Bitrate::bps(i[4]).as_f64()), 0, 0];
    }
    let (a, b, c) = (DataSize::bytes(i[0] as i64), DataSize::bytes(i[1] as i64), DataSize::bytes(i[2] as i64));
    [bits(a.as_bytes_f64()), (a < b) as u64, (a + b < c) as u64, bits((a / ns(i[3])).as_f64()), 0, 0]
}
