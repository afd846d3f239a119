//! A gateway with str0m's delay estimator in place, and what changes when it calls this one.
//!
//! str0m's `SendSideBandwidthEstimator` (src/bwe/mod.rs) keeps a `DelayController` and an
//! `AckedBitrateEstimator` that feeds it. One `Estimator`, below, takes the place of the two. Probes,
//! loss controller and all else stay and go by the estimate as before. (The loss controller is told
//! the acknowledged rate too, which a link keeps to itself: who has the one keeps an
//! `AckedBitrateEstimator` for it.)
//!
//! | str0m's code | with `Estimator` |
//! |---|---|
//! | `update`: sort the acked packets, hand each one to `AckedBitrateEstimator::update`, then call `DelayController::update(&acked, acked_bitrate, probe_result, now)` | `update(&acked, probe_result, now)`: a link puts packets in order and has the acknowledged rate |
//! | `handle_timeout`: `DelayController::handle_timeout(acked_bitrate, now)` | `handle_timeout(now)` |
//! | `poll_timeout`, `last_estimate`, `is_overusing` of `DelayController` | the same |
//! | an `Instant` of the local clock: send, local receive, now | ns since an origin of the local clock; now a whole ms |
//! | an `Instant` made of the other side's receive times | ns since an origin of the remote clock |
//! | packets of size 0 at the start: the estimate never recovers | the report is refused, and the link is as it was |
//!
//! `cargo run --example gateway` runs 20 simulated seconds: a camera of 1.5 Mbps over a line of
//! 2 Mbps that has 0.4 Mbps left from 8 to 10 s.
use std::collections::VecDeque;
use std::time::{Duration, Instant};

use hornetpewter::{
    BandwidthUsage, Estimate, Link, MOST_PACKETS, Packet, Refusal, whole_ms, whole_ns,
};

/// A packet as str0m has it, with plain numbers for `TwccSeq` and `DataSize`.
#[derive(Clone, Copy)]
struct AckedPacket {
    seq_no: u64,
    size: i64,
    local_send_time: Instant,
    remote_recv_time: Instant,
    local_recv_time: Instant,
}

/// A clock's instants as ns since its origin.
struct Clock {
    origin: Instant,
}

impl Clock {
    /// An hour before an instant, so that earlier ones have a place too. What is before the origin
    /// counts as the origin.
    fn before(instant: Instant) -> Self {
        let hour = Duration::from_secs(3600);
        Clock {
            origin: instant.checked_sub(hour).unwrap_or(instant),
        }
    }

    fn ns(&self, instant: Instant) -> u64 {
        whole_ns(instant.saturating_duration_since(self.origin))
    }

    fn instant(&self, ns: u64) -> Instant {
        self.origin + Duration::from_nanos(ns)
    }
}

/// What takes the place of str0m's `AckedBitrateEstimator` and `DelayController`.
struct Estimator {
    link: Link,
    local: Clock,
    /// From the first packet on.
    remote: Option<Clock>,
    estimate: Estimate,
}

impl Estimator {
    /// str0m's `INITIAL_BITRATE_WINDOW` and `BITRATE_WINDOW`.
    const WINDOWS: [Duration; 2] = [Duration::from_millis(500), Duration::from_millis(150)];

    fn new(initial_bitrate: f64, now: Instant) -> Result<Self, Refusal> {
        let [initial, window] = Self::WINDOWS.map(whole_ns);
        let link = Link::open(initial_bitrate, initial, window)?;
        let estimate = link.read()?.estimate;
        Ok(Estimator {
            link,
            local: Clock::before(now),
            remote: None,
            estimate,
        })
    }

    fn packet(&mut self, acked: &AckedPacket) -> Packet {
        let remote = acked.remote_recv_time;
        let remote_clock = self.remote.get_or_insert_with(|| Clock::before(remote));
        Packet {
            sequence: acked.seq_no,
            size: u64::try_from(acked.size).unwrap_or(0),
            send: self.local.ns(acked.local_send_time),
            remote: remote_clock.ns(remote),
            receive: self.local.ns(acked.local_recv_time),
        }
    }

    /// A feedback message's packets, also if there are none (all lost). More than a report may have
    /// are put as several reports, where str0m takes them as one.
    fn update(
        &mut self,
        acked: &[AckedPacket],
        probe_result: Option<f64>,
        now: Instant,
    ) -> Result<f64, Refusal> {
        let packets: Vec<Packet> = acked.iter().map(|packet| self.packet(packet)).collect();
        let now = whole_ms(self.local.ns(now));
        let mut rest = &packets[..];
        while rest.len() > MOST_PACKETS {
            let (part, after) = rest.split_at(MOST_PACKETS);
            self.estimate = self.link.report(part, None, now)?;
            rest = after;
        }
        self.estimate = self.link.report(rest, probe_result, now)?;
        Ok(self.estimate.bitrate)
    }

    fn handle_timeout(&mut self, now: Instant) -> Result<(), Refusal> {
        self.estimate = self.link.timeout(whole_ms(self.local.ns(now)))?;
        Ok(())
    }

    /// Before the first call this is the clock's origin, long past: due.
    fn poll_timeout(&self) -> Instant {
        self.local.instant(self.estimate.next_timeout)
    }

    fn last_estimate(&self) -> f64 {
        self.estimate.bitrate
    }

    fn is_overusing(&self) -> bool {
        self.estimate.hypothesis == BandwidthUsage::Overuse
    }
}

// ---- the traffic of the run

/// One way over the line, when no packet waits before it.
const WAY: Duration = Duration::from_millis(20);
const FEEDBACK_INTERVAL: Duration = Duration::from_millis(50);
/// How far the other side's clock is from ours.
const REMOTE_AHEAD: Duration = Duration::from_secs(77);
const CAMERA: f64 = 1_500_000.0;

struct Traffic {
    start: Instant,
    next_send: Instant,
    line_free: Instant,
    sent: u64,
    /// Packets and when they arrive, in the order of sending.
    on_the_way: VecDeque<(AckedPacket, Instant)>,
}

impl Traffic {
    fn new(start: Instant) -> Self {
        Traffic {
            start,
            next_send: start,
            line_free: start,
            sent: 0,
            on_the_way: VecDeque::new(),
        }
    }

    fn line_rate(&self, at: Instant) -> f64 {
        match (at - self.start).as_secs() {
            8 | 9 => 400_000.0,
            _ => 2_000_000.0,
        }
    }

    /// The camera's packets up to a moment, at the estimate's rate or its own. Of the first 200 ms only
    /// the payload is counted, and of empty packets that is 0.
    fn send_until(&mut self, now: Instant, estimate: f64) {
        let bits = 8.0 * 1200.0;
        while self.next_send <= now {
            let send = self.next_send;
            let taken = Duration::from_secs_f64(bits / self.line_rate(send));
            self.line_free = self.line_free.max(send) + taken;
            let arrival = self.line_free + WAY;
            let empty = send - self.start < Duration::from_millis(200);
            let packet = AckedPacket {
                seq_no: self.sent,
                size: if empty { 0 } else { 1200 },
                local_send_time: send,
                remote_recv_time: arrival + REMOTE_AHEAD,
                local_recv_time: send, // set when the feedback comes in
            };
            self.on_the_way.push_back((packet, arrival));
            self.sent += 1;
            self.next_send += Duration::from_secs_f64(bits / estimate.min(CAMERA));
        }
    }

    /// What a feedback message that comes in now acknowledges.
    fn feedback(&mut self, now: Instant) -> Vec<AckedPacket> {
        let arrived = self
            .on_the_way
            .partition_point(|(_, arrival)| *arrival + WAY <= now);
        let acked = self.on_the_way.drain(..arrived).map(|(packet, _)| packet);
        acked
            .map(|packet| AckedPacket {
                local_recv_time: now,
                ..packet
            })
            .collect()
    }
}

#[derive(Default)]
struct Counts {
    reports: u32,
    refused: u32,
    timeouts: u32,
}

fn show(start: Instant, now: Instant, estimator: &Estimator) {
    let seconds = (now - start).as_secs_f64();
    let overuse = if estimator.is_overusing() {
        ", overuse"
    } else {
        ""
    };
    println!(
        "{seconds:6.2} s: {:9.0} bps{overuse}",
        estimator.last_estimate()
    );
}

/// A feedback message. A refusal has left the link as it was, so the gateway notes it and goes on; this
/// one's cure is to count whole packets.
fn report(estimator: &mut Estimator, acked: &[AckedPacket], now: Instant, counts: &mut Counts) {
    counts.reports += 1;
    if let Err(refusal) = estimator.update(acked, None, now) {
        counts.refused += 1;
        println!("report {} refused: {refusal}", counts.reports);
    }
}

/// The gateway's loop: feedback and timeouts in the order in which they fall due.
fn main() -> Result<(), Refusal> {
    let start = Instant::now();
    let end = start + Duration::from_secs(20);
    let mut estimator = Estimator::new(1_000_000.0, start)?;
    let mut traffic = Traffic::new(start);
    let mut counts = Counts::default();
    let (mut now, mut feedback, mut shown) = (start, start + FEEDBACK_INTERVAL, start);
    while now < end {
        let timeout = estimator.poll_timeout();
        now = now.max(timeout.min(feedback));
        traffic.send_until(now, estimator.last_estimate());
        if timeout <= now {
            counts.timeouts += 1;
            estimator.handle_timeout(now)?;
        }
        if feedback <= now {
            report(&mut estimator, &traffic.feedback(now), now, &mut counts);
            feedback += FEEDBACK_INTERVAL;
        }
        if shown <= now {
            show(start, now, &estimator);
            shown += Duration::from_secs(1);
        }
    }
    let Counts {
        reports,
        refused,
        timeouts,
    } = counts;
    println!("{reports} reports, {refused} of them refused, {timeouts} timeouts");
    Ok(())
}
