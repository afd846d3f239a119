//! Makes cases from a seed: realistic traffic, each boundary with both its neighbours, clocks that go back, huge and equal instants,
//! sizes 1 and 65,535, gaps around each window. Inputs that the papers' added limits concern (a length above 4 × 10^18 ns, an instant
//! below 0) are left out: there the definitions part from the Rust.
use crate::bwe::drive::States;
use std::io::{BufWriter, Write};

pub struct Random(pub u64);

impl Random {
    pub fn from_seed(seed: u64) -> Self {
        Random(seed.wrapping_mul(0x9e37_79b9_7f4a_7c15) | 1)
    }

    // xorshift64*
    pub fn next(&mut self) -> u64 {
        self.0 ^= self.0 >> 12;
        self.0 ^= self.0 << 25;
        self.0 ^= self.0 >> 27;
        self.0.wrapping_mul(0x2545_f491_4f6c_dd1d)
    }

    pub fn below(&mut self, n: u64) -> u64 {
        self.next() % n
    }

    pub fn one_in(&mut self, n: u64) -> bool {
        self.below(n) == 0
    }

    pub fn pick<T: Copy>(&mut self, from: &[T]) -> T {
        from[self.below(from.len() as u64) as usize]
    }

    // a number of any size up to 2^k
    pub fn sized(&mut self, k: u64) -> u64 {
        let s = self.below(k + 1);
        self.next() & ((1u64 << s) - 1)
    }

    pub fn pick_ms(&mut self) -> u64 {
        MS * self.pick(&[0, 5, 10, 24, 25, 26, 100, 199, 200, 201, 1000])
    }

    // n and its neighbours
    pub fn near(&mut self, n: u64) -> u64 {
        (n + self.below(3)).saturating_sub(1)
    }
}

const MS: u64 = 1_000_000;
const MOST: u64 = 1_000_000_000_000_000_000;

pub fn make(module: &str, seed: u64, count: u64) {
    let mut r = Random::from_seed(seed);
    let mut states = States::new();
    let mut out = BufWriter::with_capacity(1 << 20, std::io::stdout().lock());
    let mut maker = Maker::default();
    for _ in 0..count {
        let (op, i) = match module {
            "time" => time(&mut r),
            "bandwidth" => bandwidth(&mut r),
            "average" => maker.average(&mut r),
            "acked" => maker.acked(&mut r),
            "groups" => maker.groups(&mut r),
            "trendline" => maker.trendline(&mut r),
            "rate" => maker.rate(&mut r),
            "control" => maker.control(&mut r),
            "link" => maker.link(&mut r, 30_000, 40),
            // many short links, for the stored sample
            "links" => maker.link(&mut r, 400, 200),
            _ => panic!("no such module"),
        };
        let answers = states.run(op, i);
        let words = std::iter::once(op).chain(i).chain(answers);
        for w in words {
            out.write_all(&w.to_le_bytes()).unwrap();
        }
    }
}

// A finite length or instant of at most 10^18 ns.
fn length(r: &mut Random) -> u64 {
    match r.below(4) {
        0 => r.sized(59),
        1 => {
            let limit = r.pick(&[0, 1, 1000, MS, 5 * MS, 10 * MS, 100 * MS, 1_000_000_000, 10u64.pow(18)]);
            r.near(limit)
        }
        2 => r.below(1000) * MS,
        _ => r.below(10_000_000_000),
    }
    .min(10u64.pow(18))
}

fn time(r: &mut Random) -> (u64, [u64; 5]) {
    let op = 1 + r.below(16);
    let (t, u) = (r.below(4), r.below(4));
    let a = length(r);
    let b = if r.one_in(4) { a } else { length(r) };
    match op {
        1 | 2 | 3 => (op, [t, a, u, b, 0]),
        4 => (op, [t, a, 1 + r.sized(31), 0, 0]),
        5 => (op, [t, a, 0, 0, 0]),
        // an instant that a length does not take below 0
        6 | 7 => (op, [t % 3, a + 10u64.pow(18), u, b, 0]),
        8 | 9 => (op, [t % 3, a, u % 3, b, 0]),
        10 | 11 => (op, [t % 3, a + 10u64.pow(18), b, 0, 0]),
        12 => (op, [t % 3, a, b, 0, 0]),
        13 => (op, [t, a, r.sized(40), 0, 0]),
        14 => (op, [t, a, b, 0, 0]),
        // a number of either sign, as a float
        15 => (op, [f64::to_bits(r.sized(31) as f64 * if t == 0 { 1.0 } else { -1.0 }), 0, 0, 0, 0]),
        _ => (op, [f64::to_bits(r.sized(41) as f64 * if t == 0 { 1.0 } else { -1.0 }), 0, 0, 0, 0]),
    }
}

// Any float: realistic rates, limits and their neighbours, and any bits.
fn float(r: &mut Random) -> u64 {
    match r.below(4) {
        0 => r.next(),
        1 => {
            let limit = r.pick(&[0.0, 1.0, 40_000.0, 1e10, 1e14, f64::MAX, f64::INFINITY]);
            r.near(limit.to_bits())
        }
        _ => f64::to_bits(r.sized(46) as f64 / 64.0),
    }
}

// Sums of sizes stay within an i64, limits are in order and no NaN: on others the Rust panics.
fn bandwidth(r: &mut Random) -> (u64, [u64; 5]) {
    if r.one_in(2) {
        let (a, b) = (float(r), float(r));
        let limits = if r.one_in(2) { (40_000.0, 1e10) } else { (r.sized(40) as f64 / 4.0, 1e13 + r.sized(50) as f64) };
        return (80, [a, b, f64::to_bits(limits.0), f64::to_bits(limits.1), r.sized(63)]);
    }
    let a = r.sized(62);
    let b = if r.one_in(4) { r.near(a) } else { r.sized(62) };
    let c = r.near(a + b);
    (81, [a, b, c, length(r), 0])
}

#[derive(Default)]
pub struct Maker {
    now: u64,
    rate: f64,
    send: u64,
    remote: u64,
    windows: (u64, u64),
    queue: u64,
    left: u64,
    pub started: bool,
    size: u64,
    wild: bool,
    seq: u64,
    waiting: u64,
    ties: u64,
    remote_offset: u64,
    recent: Vec<[u64; 5]>,
}

impl Maker {
    fn average(&mut self, r: &mut Random) -> (u64, [u64; 5]) {
        let n = f64::to_bits(3.0);
        if self.rate == 0.0 || r.one_in(2000) {
            self.rate = 1.0;
            return (20, [f64::to_bits(r.pick(&[0.95, 0.125, 0.5, 0.9])), n, n, 0, 0]);
        }
        if r.one_in(300) {
            return (22, [0, n, n, 0, 0]);
        }
        let value = match r.below(8) {
            0 => self.rate,
            1 => r.sized(46) as f64,
            2 => r.below(1 << 50) as f64 / 1e9,
            3 => 0.0,
            _ => self.rate * (0.9 + r.below(1 << 30) as f64 / (5u64 << 30) as f64),
        };
        self.rate = value.max(1e-3);
        let probe = if r.one_in(2) { value } else { self.rate * (0.5 + r.below(1000) as f64 / 1000.0) };
        (21, [value.to_bits(), n, probe.to_bits(), 0, 0])
    }

    fn acked(&mut self, r: &mut Random) -> (u64, [u64; 5]) {
        if self.windows.0 == 0 || r.one_in(3000) {
            self.windows = r.pick(&[(500, 150), (500, 150), (1, 1), (10_000, 10_000), (10_000, 1), (1, 10_000), (150, 500), (7, 13)]);
            self.now = r.pick(&[0, 1_000_000_000, 10u64.pow(18) - 10u64.pow(12)]);
            return (30, [self.windows.0 * MS, self.windows.1 * MS, 0, 0, 0]);
        }
        let w = if r.one_in(2) { self.windows.0 } else { self.windows.1 } * MS;
        let gap = match r.below(12) {
            0 => 0,
            1 => r.near(w),
            2 => r.near(2 * w),
            3 => r.near(w / 2),
            4 => r.below(3 * w),
            5 if r.one_in(20) => r.sized(50),
            6 => r.near(MS),
            _ => r.below(20 * MS),
        };
        self.now = (self.now + gap).min(10u64.pow(18));
        if r.one_in(100) {
            self.now = self.now.saturating_sub(1 + r.sized(34));
        }
        let size = match r.below(10) {
            0 => 1,
            1 => 65_535,
            2 => r.near(2000),
            3 => 1 + r.sized(20),
            _ => 200 + r.below(1200),
        };
        (31, [self.now, size, 0, 0, 0])
    }

    fn groups(&mut self, r: &mut Random) -> (u64, [u64; 5]) {
        if !std::mem::replace(&mut self.started, true) || r.one_in(3000) {
            self.send = r.pick(&[0, 1_000_000_000, 10u64.pow(18) - 10u64.pow(12)]);
            self.remote = r.pick(&[0, 5_000_000_000, 10u64.pow(18) - 10u64.pow(12)]);
            return (40, [0; 5]);
        }
        let step = |r: &mut Random| match r.below(14) {
            0 => 0,
            1 => r.near(5 * MS),
            2 => r.near(6 * MS),
            3 => r.near(MS / 2),
            4 => r.near(100 * MS),
            5 => r.below(200 * MS),
            6 if r.one_in(20) => r.sized(40),
            7 => r.near(MS),
            _ => r.below(10 * MS),
        };
        self.send = (self.send + step(r)).min(10u64.pow(18));
        self.remote = (self.remote + step(r)).min(10u64.pow(18));
        let mut send = self.send;
        let mut remote = self.remote;
        if r.one_in(20) {
            send = send.saturating_sub(r.sized(30));
        }
        if r.one_in(20) {
            remote = remote.saturating_sub(r.sized(30));
        }
        if r.one_in(50) {
            self.send = send;
            self.remote = remote;
        }
        (41, [send, remote, r.below(100), 0, 0])
    }

    // Delays that rise, fall and hover, so that every hypothesis is met, with equal and earlier remote times among them.
    fn trendline(&mut self, r: &mut Random) -> (u64, [u64; 5]) {
        if !std::mem::replace(&mut self.started, true) || r.one_in(2000) {
            self.remote = r.pick(&[0, 5_000_000_000, 10u64.pow(18) - 10u64.pow(12)]);
            return (50, [0; 5]);
        }
        if r.one_in(60) {
            self.queue = r.below(5);
        }
        let send = 5 * MS + r.below(10 * MS);
        let arrival = match self.queue {
            0 => send + r.below(3 * MS),
            1 => send.saturating_sub(r.below(3 * MS)),
            2 => send + r.below(40 * MS),
            3 => send,
            _ => r.below(60 * MS),
        };
        let send = if r.one_in(100) { r.sized(40) } else { send };
        let tags = (if r.one_in(50) { 1 } else { 2 }, if r.one_in(50) { 1 } else { 2 });
        self.remote = (self.remote + arrival).min(10u64.pow(18));
        if r.one_in(40) {
            self.remote = self.remote.saturating_sub(r.sized(28));
        }
        let last = if r.one_in(100) { self.remote.saturating_sub(r.sized(32)) } else { self.remote };
        (51, [tags.0, send, tags.1, arrival, last])
    }

    fn rate(&mut self, r: &mut Random) -> (u64, [u64; 5]) {
        if self.rate == 0.0 || r.one_in(3000) {
            let start = r.pick(&[40_000.0, 1e6, 1e10, 300_000.0, 5e7]);
            self.rate = start;
            self.now = r.pick(&[0, 1_000_000_000, 10u64.pow(18) - 10u64.pow(13)]);
            return (60, [f64::to_bits(start), f64::to_bits(40_000.0), f64::to_bits(1e10), 0, 0]);
        }
        if r.one_in(30) {
            self.queue = r.below(8);
        }
        self.now = (self.now + MS * r.pick(&[0, 1, 5, 10, 25, 25, 25, 50, 100, 101, 200, 201, 999, 1000, 1001, 5000])).min(10u64.pow(18));
        if r.one_in(50) {
            self.now = self.now.saturating_sub(MS * r.below(3000));
        }
        if r.one_in(200) {
            let probe = match r.below(3) {
                0 => r.sized(46) as f64,
                1 => 0.0,
                _ => self.rate * 1.5,
            };
            return (62, [probe.to_bits(), self.now, 0, 0, 0]);
        }
        let signal = match self.queue {
            0 => 0,
            1 => r.below(3),
            2 => 1,
            _ => 2,
        };
        let observed = match r.below(12) {
            0 => r.sized(46) as f64,
            1 => r.pick(&[0.8, 40_000.0, 1e10, 1e14, 600_000.0, 660_000.0, 661_000.0, 424_999.0, 425_000.0]),
            _ => self.rate * (0.8 + r.below(1 << 20) as f64 / (1u64 << 21) as f64),
        };
        if r.one_in(5) {
            self.rate = observed.clamp(1000.0, 1e10);
        }
        let rtt = if r.one_in(4) { r.sized(60) } else { { let t = r.pick_ms(); r.near(t) } };
        (61, [signal, observed.to_bits(), r.below(4).min(1), rtt, self.now])
    }

    // A controller fed by reports of a few packets over a path with a queue that fills and drains.
    fn control(&mut self, r: &mut Random) -> (u64, [u64; 5]) {
        if self.rate == 0.0 || r.one_in(20_000) {
            self.rate = 1e6;
            self.send = r.pick(&[0, 1_000_000_000]);
            self.remote = r.pick(&[0, 7_000_000_000]);
            return (70, [f64::to_bits(r.pick(&[40_000.0, 1e6, 1e10])), 0, 0, 0, 0]);
        }
        if self.left > 0 {
            self.left -= 1;
            self.send += r.pick(&[0, 1, 3, 5, 7, 10, 20]) * MS + r.below(MS);
            if r.one_in(400) {
                self.queue = r.below(4);
            }
            let wait = match self.queue {
                0 => r.below(2 * MS),
                1 => 8 * MS + r.below(20 * MS),
                2 => 0,
                _ => r.below(30 * MS),
            };
            self.remote = self.remote.max(self.send) + wait;
            let send = if r.one_in(200) { self.send.saturating_sub(r.sized(32)) } else { self.send };
            return (71, [send, self.remote, self.send + 30 * MS + r.below(60 * MS), 0, 0]);
        }
        self.left = if r.one_in(10) { 0 } else { r.below(12) };
        self.now = self.now.max(self.send / MS * MS) + MS * r.pick(&[0, 1, 5, 25, 50, 51, 100]);
        if r.one_in(100) {
            self.now = self.now.saturating_sub(MS * r.below(2000));
        }
        let acked = self.rate * (0.5 + r.below(1000) as f64 / 1000.0);
        if r.one_in(20) {
            self.rate = (self.rate * r.pick(&[0.5, 0.9, 1.1, 2.0])).clamp(1000.0, 1e10);
        }
        if r.one_in(4) {
            return (73, [r.below(8).min(1), acked.to_bits(), self.now, 0, 0]);
        }
        let probe = r.one_in(40) as u64;
        (72, [r.below(8).min(1) | probe << 1, acked.to_bits(), f64::to_bits(acked * 1.5), self.now, 0])
    }

    // A whole link: runs of a realistic path with phases of congestion, and wild ones with every boundary of every question. A run has some `length` cases;
    // one report in `large` has some 1,024 packets, and one some hundred.
    pub fn link(&mut self, r: &mut Random, length: u64, large: u64) -> (u64, [u64; 5]) {
        if !std::mem::replace(&mut self.started, true) || r.one_in(length) {
            return self.opening(r);
        }
        if self.left > 0 {
            self.left -= 1;
            self.waiting += 1;
            return (91, self.packet(r));
        }
        self.recent.clear();
        self.ties = 0;
        self.left = match r.below(large) {
            0 => r.pick(&[1023, 1024, 1025]),
            1 => r.below(300),
            2..6 => 0,
            _ => 1 + r.below(9),
        };
        if r.one_in(if self.wild { 10 } else { 300 }) {
            self.queue = r.below(6);
        }
        if r.one_in(500) {
            self.size = r.pick(&[1, 100, 300, 1200, 5000, 65_535]);
        }
        let mut now = self.now.max(self.send) / MS * MS + MS * r.pick(&[0, 1, 5, 25, 50, 51, 100]);
        if r.one_in(if self.wild { 20 } else { 2000 }) {
            now = now.saturating_sub(MS * r.sized(15));
        }
        self.now = now.min(MOST);
        now = self.now;
        if self.wild && r.one_in(40) {
            now = r.pick(&[MOST, MOST + MS, MOST + 1, now + 1, now + 999_999, 1, u64::MAX, 0]);
        }
        if r.one_in(4) {
            self.left = self.left.min(1100 - self.waiting);
            return (93, [now, 0, 0, 0, 0]);
        }
        self.waiting = 0;
        let probe = if self.wild && r.one_in(20) {
            let p = r.pick(&[0.0, -0.0, 1e14, 1e10, 40_000.0, f64::INFINITY, f64::NAN, -1.0, 1e-300]);
            if r.one_in(3) { p.to_bits() + 1 } else { p.to_bits() }
        } else {
            f64::to_bits(r.sized(34) as f64)
        };
        let short = if self.wild && r.one_in(60) { 1 + r.below(5) } else { 0 };
        let flag = r.one_in(if self.wild { 8 } else { 200 }) as u64;
        (92, [flag, probe, now, short, 0])
    }

    pub fn opening(&mut self, r: &mut Random) -> (u64, [u64; 5]) {
        self.wild = r.one_in(3);
        let old = r.one_in(20);
        self.send = if old { MOST - 10_000 * 1_000_000_000 } else { r.pick(&[0, 1_000_000_000]) };
        self.remote_offset = if old { 0 } else { r.pick(&[0, 7_000_000_000, 1_000_000_000_000]) };
        (self.now, self.remote, self.size) = (self.send, self.send + self.remote_offset, 1200);
        let mut start = match r.below(4) {
            0 => r.pick(&[40_000.0, 1e10, 1e6]),
            _ => 40_000.0 + r.sized(33) as f64 * 1.1,
        };
        let mut windows = r.pick(&[(500, 150), (500, 150), (1, 1), (10_000, 10_000), (10_000, 1), (1, 10_000), (150, 500), (7, 13)]);
        windows = (windows.0 * MS, windows.1 * MS);
        if r.one_in(8) {
            start = f64::from_bits(r.pick(&[40_000.0f64, 1e10, f64::NAN, f64::INFINITY, 40_000f64.next_down(), -1e6]).to_bits() ^ r.below(2));
        }
        if r.one_in(8) {
            let bad = r.pick(&[0, 1, MS - 1, MS + 1, 10_000 * MS + 1, 10_001 * MS, 10_000 * MS, u64::MAX]);
            windows = if r.one_in(2) { (bad, windows.1) } else { (windows.0, bad) };
        }
        (90, [start.to_bits(), windows.0, windows.1, 0, 0])
    }

    // Packets with one send and one remote instant, often before the last: their sequences decide which size is dropped where time moves back.
    fn tied(&mut self, r: &mut Random) -> [u64; 5] {
        self.ties -= 1;
        let like = self.recent[0];
        [r.below(8), 1 + r.sized(16), like[2], like[3], like[4]]
    }

    // A packet over a queue that fills and drains; equal keys, packets out of order, and on wild links any instant and size.
    fn packet(&mut self, r: &mut Random) -> [u64; 5] {
        if self.ties > 0 {
            return self.tied(r);
        }
        if self.recent.is_empty() && r.one_in(if self.wild { 6 } else { 60 }) {
            self.ties = 1 + r.below(4);
            let back = r.sized(33);
            let first = [r.below(8), 1 + r.sized(16), self.send.saturating_sub(back), self.remote.saturating_sub(back), self.send];
            self.recent.push(first);
            return first;
        }
        self.seq = self.seq.wrapping_add(1);
        self.send += match r.below(10) {
            0 => 0,
            1 => r.near(5 * MS),
            2 => r.below(40 * MS),
            _ => r.below(8 * MS),
        };
        let wait = match self.queue {
            0 | 4 => r.below(MS),
            1 => 8 * MS + r.below(20 * MS),
            2 => 0,
            5 => 40 * MS,
            _ => r.below(30 * MS),
        };
        self.remote = self.remote.max(self.send + self.remote_offset) + wait;
        self.send = self.send.min(MOST);
        self.remote = self.remote.min(MOST);
        let size = match r.below(8) {
            0 => r.pick(&[1, 65_535]),
            1 => 1 + r.sized(12),
            _ => self.size,
        };
        let mut packet = [self.seq, size, self.send, self.remote, (self.send + 30 * MS + r.below(60 * MS)).min(MOST)];
        if r.one_in(if self.wild { 4 } else { 40 }) && !self.recent.is_empty() {
            let like = r.pick(&self.recent);
            for i in [0, 2, 3, 4] {
                if r.one_in(2) {
                    packet[i] = like[i];
                }
            }
        }
        if r.one_in(if self.wild { 20 } else { 500 }) {
            let i = 2 + r.below(3) as usize;
            packet[i] = packet[i].saturating_sub(r.sized(34));
        }
        if self.wild && r.one_in(400) {
            packet[r.below(2) as usize] = r.pick(&[0, 1, 65_535, (1 << 31) - 1, 1 << 31, (1 << 31) + 1, 1 << 62, (1 << 63) - 1, 1 << 63, u64::MAX]);
        }
        if self.wild && r.one_in(400) {
            packet[2 + r.below(3) as usize] = r.pick(&[MOST - 1, MOST, MOST + 1, 0, u64::MAX]);
        }
        if self.recent.len() < 8 || r.one_in(8) {
            self.recent.push(packet);
        }
        packet
    }
}
