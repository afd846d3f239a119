//! A link: the Rust's estimators, wired as document 01's "Link" says, with its questions 2 to 9 asked in their order. (Question 1 is of lent states, and
//! lent.rs asks it: a link that was opened passes it.)
use super::acked_bitrate_estimator::AckedBitrateEstimator;
use super::delay::control::DelayController;
use super::drive::{at, bits, ns, since_zero, trend_words};
use super::{AckedPacket, BandwidthUsage};
use crate::rtp_::{Bitrate, DataSize, TwccSeq};

const MOST_INSTANT: u64 = 1_000_000_000_000_000_000;
const MOST_BYTES: i64 = 2_147_483_647;

/// A whole state as words, the first of them the format's number.
pub type Words = [u64; 100];

const FORMAT: u64 = 1;

/// Estimate, hypothesis (0 overuse, 1 normal, 2 underuse), next timeout.
pub type Told = (f64, u32, u64);

/// Sequences, sizes, sends, remotes, receives.
pub type Lists = [Vec<u64>; 5];

pub struct Link {
    acked: AckedBitrateEstimator,
    pub control: DelayController,
}

fn window_in(w: u64) -> bool {
    w % 1_000_000 == 0 && (1_000_000..=10_000_000_000).contains(&w)
}

pub fn open(start: f64, initial: u64, window: u64) -> Result<Link, u64> {
    if !(40_000.0..=1e10).contains(&start) {
        return Err(2);
    }
    if !window_in(initial) || !window_in(window) {
        return Err(3);
    }
    Ok(Link { acked: AckedBitrateEstimator::new(ns(initial), ns(window)), control: DelayController::new(Bitrate::from(start)) })
}

fn moment_in(now: u64) -> bool {
    now <= MOST_INSTANT && now % 1_000_000 == 0
}

impl Link {
    /// The link whose fields are these words (crates/link_words).
    pub fn from_words(w: &Words) -> Self {
        Link { acked: AckedBitrateEstimator::from_words(&w[1..]), control: DelayController::from_words(&w[10..]) }
    }

    pub fn words(&self) -> Words {
        let mut w = vec![FORMAT];
        w.extend(self.acked.words());
        w.extend(self.control.words());
        w.try_into().unwrap()
    }

    /// Estimate, hypothesis, next timeout.
    pub fn estimate(&self) -> [u64; 3] {
        let s = self.shown();
        [s[0], s[1] & 255, s[2]]
    }

    /// 0, or the number of the first question whose answer is no.
    pub fn report(&mut self, lists: &Lists, probe: Option<f64>, now: u64) -> u64 {
        let n = lists[0].len();
        if lists.iter().any(|l| l.len() != n) || n > 1024 {
            return 4;
        }
        if lists[2..].iter().flatten().any(|t| *t > MOST_INSTANT) {
            return 5;
        }
        if lists[1].iter().any(|s| *s == 0) {
            return 6;
        }
        if !moment_in(now) {
            return 7;
        }
        if probe.is_some_and(|p| !(0.0..=1e14).contains(&p)) {
            return 8;
        }
        let mut packets: Vec<AckedPacket> = (0..n)
            .map(|i| AckedPacket {
                seq_no: TwccSeq(lists[0][i]),
                // A size above question 9's limit is turned down by it or never added.
                size: DataSize::bytes(lists[1][i].min(1 << 40) as i64),
                local_send_time: at(lists[2][i]),
                remote_recv_time: at(lists[3][i]),
                local_recv_time: at(lists[4][i]),
            })
            .collect();
        packets.sort_by(AckedPacket::order_by_receive_time);
        let mut acked = self.acked.copy();
        for p in &packets {
            acked.update(p.remote_recv_time, p.size);
            if acked.variance_sum_window().1 > MOST_BYTES {
                return 9;
            }
        }
        self.acked = acked;
        self.control.update(&packets, self.acked.current_estimate(), probe.map(Bitrate::from), at(now));
        0
    }

    /// A report of which nothing is asked, as bwe/mod.rs has it.
    pub fn update(&mut self, mut packets: Vec<AckedPacket>, probe: Option<f64>, now: u64) {
        packets.sort_by(AckedPacket::order_by_receive_time);
        for p in &packets {
            self.acked.update(p.remote_recv_time, p.size);
        }
        self.control.update(&packets, self.acked.current_estimate(), probe.map(Bitrate::from), at(now));
    }

    pub fn timeout(&mut self, now: u64) -> u64 {
        if !moment_in(now) {
            return 7;
        }
        self.control.handle_timeout(self.acked.current_estimate(), at(now));
        0
    }

    /// What an accepted call tells.
    pub fn told(&self) -> Told {
        let hypothesis = match self.control.peek().0.hypothesis() {
            BandwidthUsage::Overuse => 0,
            BandwidthUsage::Normal => 1,
            BandwidthUsage::Underuse => 2,
        };
        (self.control.last_estimate().unwrap().as_f64(), hypothesis, since_zero(self.control.poll_timeout()))
    }

    /// Whether a timeout would hand the acknowledged rate on.
    pub fn hands_on(&self, now: u64) -> bool {
        self.control.hands_on(at(now))
    }

    /// Estimate, hypothesis with counts, next timeout, threshold, acknowledged rate.
    pub fn shown(&self) -> [u64; 5] {
        let t = trend_words(self.control.peek().0);
        let acked = self.acked.current_estimate().map_or(0, |e| bits(e.as_f64()));
        [bits(self.control.last_estimate().unwrap().as_f64()), t[0], since_zero(self.control.poll_timeout()), t[1], acked]
    }
}

/// The user's failure: a link at 1,000,000 bps, 10 packets a report every 50 ms; those of the first half second have a size of `first` bytes, later ones
/// 1,200; from 3 to 4 s each packet waits 3 ms longer than the one before, then the line is clean. Fed with no question asked, as the seller's gateway did.
pub fn zero_sizes(first: u64) {
    let mut link = open(1e6, 500_000_000, 150_000_000).ok().unwrap();
    let mut queue = 0;
    for report in 0..1200u64 {
        let packets: Vec<AckedPacket> = (0..10)
            .map(|i| {
                let send = report * 50 + i * 5;
                queue = if (3000..4000).contains(&send) { queue + 3 } else { 0 };
                let packet = |t: u64| at((1000 + t) * 1_000_000);
                AckedPacket {
                    seq_no: TwccSeq(report * 10 + i),
                    size: DataSize::bytes(if send < 500 { first } else { 1200 } as i64),
                    local_send_time: packet(send),
                    remote_recv_time: packet(send + 20 + queue),
                    local_recv_time: packet(send + 40 + queue),
                }
            })
            .collect();
        for p in &packets {
            link.acked.update(p.remote_recv_time, p.size);
        }
        link.control.update(&packets, link.acked.current_estimate(), None, at((1100 + report * 50) * 1_000_000));
        if report % 20 == 19 {
            let acked = link.acked.current_estimate().map_or(f64::INFINITY, |e| e.as_f64());
            println!("{} s: estimate {:.0}, acknowledged rate {acked:.0}", report / 20 + 1, link.control.last_estimate().unwrap().as_f64());
        }
    }
}
