//! Cases of the modules at each limit and beside it: a fixed list, made to tell each constant and each comparison from its neighbours. The answers are the
//! Rust's, and document 01's where it adds limits of its own (`says`).
use crate::bwe::drive::{Answers, States};
use std::io::{BufWriter, Write};

pub const MS: u64 = 1_000_000;
/// The longest finite length and the last exact instant.
const MAX: u64 = 4_000_000_000_000_000_000;
/// The last instant of questions 5 and 7.
pub const LAST: u64 = 1_000_000_000_000_000_000;

pub struct Cases {
    states: States,
    words: Vec<[u64; 12]>,
}

impl Cases {
    pub fn new() -> Self {
        Self { states: States::new(), words: vec![] }
    }

    fn push(&mut self, op: u64, i: [u64; 5], a: Answers) {
        self.words.push([op, i[0], i[1], i[2], i[3], i[4], a[0], a[1], a[2], a[3], a[4], a[5]]);
    }

    /// A case with the Rust's answers.
    pub fn run(&mut self, op: u64, i: [u64; 5]) -> Answers {
        let a = self.states.run(op, i);
        self.push(op, i, a);
        a
    }

    /// A case with an answer that the papers give and the Rust does not.
    fn says(&mut self, op: u64, i: [u64; 5], a: Answers) {
        self.push(op, i, a);
    }

    pub fn write(self) {
        let mut out = BufWriter::new(std::io::stdout().lock());
        for word in self.words.iter().flatten() {
            out.write_all(&word.to_le_bytes()).unwrap();
        }
    }
}

/// The bits of a float.
pub fn b(x: f64) -> u64 {
    x.to_bits()
}

/// n, just below it and just above it.
pub fn beside(n: u64) -> [u64; 3] {
    [n - 1, n, n + 1]
}

/// x and its two neighbours among the floats.
pub fn floats(x: f64) -> [f64; 3] {
    [x.next_down(), x, x.next_up()]
}

pub fn modules() {
    let mut c = Cases::new();
    time(&mut c);
    sizes(&mut c);
    average(&mut c);
    acked(&mut c);
    groups(&mut c);
    trendline(&mut c);
    rate(&mut c);
    control(&mut c);
    c.write();
}

// ---- time: lengths and instants at 4 × 10^18 ns and at 0, which the Rust does not limit
const NEGATIVE_INFINITY: (u64, u64) = (0, 0);
const POSITIVE_INFINITY: (u64, u64) = (3, 0);
const DISTANT_PAST: (u64, u64) = (0, 0);
const DISTANT_FUTURE: (u64, u64) = (2, 0);

fn negative(n: u64) -> (u64, u64) {
    (1, n)
}

fn positive(n: u64) -> (u64, u64) {
    (2, n)
}

fn exact(n: u64) -> (u64, u64) {
    (1, n)
}

fn time(c: &mut Cases) {
    sums(c);
    orders(c);
    quotients(c);
    instants(c);
    durations(c);
}

// A case of two lengths or instants that gives a third.
fn pair(c: &mut Cases, op: u64, x: (u64, u64), y: (u64, u64), z: (u64, u64)) {
    c.says(op, [x.0, x.1, y.0, y.1, 0], [z.0, z.1, 0, 0, 0, 0]);
}

// Sums of lengths, and differences with the opposite.
fn sums(c: &mut Cases) {
    for (x, y, z) in [
        (positive(MAX - 1), positive(1), positive(MAX)),
        (positive(MAX), positive(1), POSITIVE_INFINITY),
        (positive(MAX + 1), positive(0), POSITIVE_INFINITY),
        (positive(MAX), positive(0), positive(MAX)),
        (negative(MAX - 1), negative(1), negative(MAX)),
        (negative(MAX), negative(1), NEGATIVE_INFINITY),
        (negative(MAX + 1), negative(0), NEGATIVE_INFINITY),
        (positive(MAX), negative(MAX), positive(0)),
        (positive(5), negative(6), negative(1)),
        (positive(6), negative(6), positive(0)),
        (negative(6), positive(6), positive(0)),
    ] {
        pair(c, 1, x, y, z);
        pair(c, 2, x, (3 - y.0, y.1), z);
    }
}

// Lengths in order: 0 less, 1 equal, 2 greater; and beside durations: equal, less.
fn orders(c: &mut Cases) {
    for (x, y, order) in [
        (positive(MAX), POSITIVE_INFINITY, 0),
        (positive(MAX + 1), POSITIVE_INFINITY, 1),
        (positive(MAX + 1), positive(MAX), 2),
        (negative(MAX), NEGATIVE_INFINITY, 2),
        (negative(MAX + 1), NEGATIVE_INFINITY, 1),
        (negative(0), positive(0), 0),
        (negative(0), negative(0), 1),
        (positive(1), positive(0), 2),
        (negative(1), negative(0), 0),
        (negative(2), negative(1), 0),
        (NEGATIVE_INFINITY, negative(MAX), 0),
    ] {
        c.says(3, [x.0, x.1, y.0, y.1, 0], [order, (order == 1) as u64, (order == 0) as u64, (order < 2) as u64, 0, 0]);
    }
    for (x, n, equal, less) in [
        (positive(MAX), MAX, 1, 0),
        (positive(MAX), MAX + 1, 0, 1),
        (POSITIVE_INFINITY, MAX + 1, 1, 0),
        (POSITIVE_INFINITY, MAX, 0, 0),
        (negative(0), 0, 0, 1),
    ] {
        c.says(14, [x.0, x.1, n, 0, 0], [equal, less, equal | less, 0, 0, 0]);
    }
}

// Lengths divided, 0 among what divides, and as seconds.
fn quotients(c: &mut Cases) {
    for (x, by, z) in [
        (positive(7), 0, POSITIVE_INFINITY),
        (negative(7), 0, NEGATIVE_INFINITY),
        (positive(0), 0, POSITIVE_INFINITY),
        (negative(0), 0, NEGATIVE_INFINITY),
        (positive(7), 1, positive(7)),
        (positive(7), 2, positive(3)),
        (positive(MAX + 1), 1, POSITIVE_INFINITY),
        (negative(MAX + 1), 1, NEGATIVE_INFINITY),
        (positive(MAX), 1, positive(MAX)),
    ] {
        c.says(4, [x.0, x.1, by, 0, 0], [z.0, z.1, 0, 0, 0, 0]);
    }
    for (x, secs) in [(positive(MAX), 4e9), (positive(MAX + 1), f64::INFINITY), (negative(MAX), -4e9), (negative(MAX + 1), f64::NEG_INFINITY)] {
        c.says(5, [x.0, x.1, 0, 0, 0], [b(secs), 0, 0, 0, 0, 0]);
    }
}

// Instants with lengths added and taken away, their differences and their order.
fn instants(c: &mut Cases) {
    for (s, d, z) in [
        (exact(0), negative(1), DISTANT_PAST),
        (exact(1), negative(1), exact(0)),
        (exact(2), negative(1), exact(1)),
        (exact(MAX - 1), positive(1), exact(MAX)),
        (exact(MAX), positive(1), DISTANT_FUTURE),
        (exact(MAX + 1), positive(0), DISTANT_FUTURE),
        (exact(MAX), negative(0), exact(MAX)),
    ] {
        pair(c, 6, s, d, z);
        pair(c, 7, s, (3 - d.0, d.1), z);
    }
    for (s, t, z) in [
        (exact(MAX), exact(0), positive(MAX)),
        (exact(MAX + 1), exact(0), POSITIVE_INFINITY),
        (exact(0), exact(MAX), negative(MAX)),
        (exact(0), exact(MAX + 1), NEGATIVE_INFINITY),
        (exact(5), exact(5), positive(0)),
    ] {
        pair(c, 8, s, t, z);
    }
    for (s, t, order, is_exact) in [
        (exact(MAX), DISTANT_FUTURE, 0, 1),
        (exact(MAX + 1), DISTANT_FUTURE, 1, 0),
        (exact(MAX + 1), exact(MAX), 2, 0),
        (exact(0), DISTANT_PAST, 2, 1),
        (exact(0), exact(0), 1, 1),
        (DISTANT_PAST, DISTANT_PAST, 1, 0),
    ] {
        c.says(9, [s.0, s.1, t.0, t.1, 0], [order, is_exact, 0, 0, 0, 0]);
    }
}

// Instants with durations, and lengths of so many s and ms.
fn durations(c: &mut Cases) {
    for (op, s, n, z) in [
        (10, exact(0), MAX, exact(MAX)),
        (10, exact(0), MAX + 1, DISTANT_FUTURE),
        (11, exact(MAX), MAX, exact(0)),
        (11, exact(MAX), MAX + 1, DISTANT_PAST),
        (12, exact(0), MAX, negative(MAX)),
        (12, exact(0), MAX + 1, NEGATIVE_INFINITY),
    ] {
        c.says(op, [s.0, s.1, n, 0, 0], [z.0, z.1, 0, 0, 0, 0]);
    }
    for (op, unit) in [(15, 1_000_000_000), (16, MS)] {
        let n = MAX / unit;
        for (x, z) in [(n, positive(MAX)), (n + 1, POSITIVE_INFINITY), (0, positive(0)), (1, positive(unit)), (u64::MAX / unit + 1, POSITIVE_INFINITY)] {
            c.says(op, [b(x as f64), 0, 0, 0, 0], [z.0, z.1, 0, 0, 0, 0]);
        }
        for (x, z) in [(n, negative(MAX)), (n + 1, NEGATIVE_INFINITY), (1, negative(unit))] {
            c.says(op, [b(-(x as f64)), 0, 0, 0, 0], [z.0, z.1, 0, 0, 0, 0]);
        }
    }
}

// ---- rates and sizes
fn sizes(c: &mut Cases) {
    for x in floats(40_000.0).into_iter().chain(floats(1e10)) {
        c.run(80, [b(x), b(1e10), b(40_000.0), b(1e10), 1]);
    }
    // a sum past the end of i64 is that end: not less than it, and not below it
    const END: u64 = i64::MAX as u64;
    for (x, y, less_than_end) in [(END - 2, 1, 1), (END - 1, 1, 0), (END, 1, 0), (END, END, 0), (0, END, 0)] {
        let float = b(x as f64);
        c.says(81, [x, y, END, 1_000_000_000, 0], [float, (x < y) as u64, less_than_end, b(x as f64 * 8.0), 0, 0]);
    }
    // a duration of 0 moves nothing
    for ns in [0, 1] {
        c.run(81, [1, 1, 2, ns, 0]);
    }
}

// ---- averages: a value at each end of three deviations
fn average(c: &mut Cases) {
    let n = b(3.0);
    for factor in [0.95, 0.125] {
        let start = [(20, b(factor)), (21, b(0.0)), (21, b(1e6)), (21, b(3e5))];
        let mut trial = States::new();
        let ends = start.map(|(op, x)| trial.run(op, [x, n, n, 0, 0]))[3];
        for probe in [ends[5], ends[4]].into_iter().flat_map(|end| floats(f64::from_bits(end))) {
            for (op, x) in start {
                c.run(op, [x, n, b(probe), 0, 0]);
            }
        }
    }
}

// ---- the acknowledged rate
fn acked(c: &mut Cases) {
    windows(c);
    samples(c);
    // an instant equal to the last one, and one before it
    for back in [0, 1] {
        c.run(30, [500 * MS, 150 * MS, 0, 0, 0]);
        c.run(31, [10, 1000, 0, 0, 0]);
        c.run(31, [10 - back, 1000, 0, 0, 0]);
    }
    // a window below 1 µs, by which the Rust divides, keeps nothing
    for (window, left) in [(999, 0), (1000, 0), (2000, 1000)] {
        c.says(30, [window, window, 0, 0, 0], [0, 0, b(50.0), 0, 0, 0]);
        c.says(31, [0, 100, 0, 0, 0], [0, 0, b(50.0), 100, 0, 0]);
        c.says(31, [5000, 100, 0, 0, 0], [0, 0, b(50.0), 100, left, 0]);
    }
}

fn windows(c: &mut Cases) {
    // a window that is not full, full, and past it; the remainder of a gap in whole µs
    for (first, second) in [(500, 150), (7, 13)] {
        for at in beside(first * MS) {
            c.run(30, [first * MS, second * MS, 0, 0, 0]);
            c.run(31, [0, 1000, 0, 0, 0]);
            c.run(31, [MS, 1000, 0, 0, 0]);
            c.run(31, [at, 1000, 0, 0, 0]);
        }
        for gap in [second * MS - 1, second * MS, second * MS + 999, second * MS + 1000, 2 * second * MS + 1999] {
            c.run(30, [first * MS, second * MS, 0, 0, 0]);
            c.run(31, [0, 1000, 0, 0, 0]);
            c.run(31, [MS, 1000, 0, 0, 0]);
            c.run(31, [first * MS, 1000, 0, 0, 0]);
            c.run(31, [first * MS + gap, 1000, 0, 0, 0]);
        }
    }
}

fn samples(c: &mut Cases) {
    // a small sample: 1,999, 2,000 and 2,001 bytes, below the estimate and above it
    for first in [10_000, 1_000] {
        for size in beside(2000) {
            for (at, bytes) in [(0, first), (499, first), (500, 1000), (649, size - 1000), (650, 1), (800, 1)] {
                if at == 0 {
                    c.run(30, [500 * MS, 150 * MS, 0, 0, 0]);
                }
                c.run(31, [at * MS, bytes, 0, 0, 0]);
            }
        }
    }
    // a sample equal to the estimate leaves variance 0, to which 5 is added; then samples below the floor of 40,000
    for last in [1, 2499, 10_000] {
        c.run(30, [500 * MS, 500 * MS, 0, 0, 0]);
        for k in 0..=12 {
            let bytes = if k % 2 == 1 { 0 } else if k < 4 { 20_000 } else { last };
            c.run(31, [k * 250 * MS, bytes, 0, 0, 0]);
        }
    }
}

// ---- groups
// The packets after a first group, in ns; the last one asks.
fn grouped(c: &mut Cases, packets: &[(u64, u64)]) {
    const LATER: u64 = 1000 * MS;
    c.run(40, [0; 5]);
    c.run(41, [0, 0, 0, 0, 0]);
    for (send, remote) in packets {
        c.run(41, [LATER + send, LATER + remote, 0, 0, 0]);
    }
    c.run(41, [2 * LATER, 2 * LATER, 0, 0, 0]);
}

fn groups(c: &mut Cases) {
    // a burst of 100 ms: packets every 6 ms, received every 4.8 ms
    for span in beside(100 * MS) {
        let mut packets: Vec<(u64, u64)> = (0..21).map(|k| (6 * k * MS, 48 * k * MS / 10)).collect();
        packets.push((126 * MS, span));
        grouped(c, &packets);
    }
    // an arrival of 5 ms, and one as long after the last packet as it was sent
    for arrival in beside(5 * MS) {
        grouped(c, &[(0, 0), (7 * MS, arrival)]);
    }
    for arrival in beside(3 * MS) {
        grouped(c, &[(0, 0), (3 * MS, 3 * MS), (6 * MS, 3 * MS + arrival)]);
    }
    // a group of 5 ms, from its first packet on
    for send in [4, 5, 6] {
        grouped(c, &[(0, 0), (send * MS, 20 * MS)]);
        grouped(c, &[(0, 0), (2 * MS, 2 * MS), (send * MS, 20 * MS)]);
    }
    // rounding to ms from the first packet's, by µs
    for send in [499_000, 499_999, 500_000, 500_999, 1_499_999, 1_500_000, 10_499_999, 10_500_000, 999_499_999, 999_500_000] {
        grouped(c, &[(send, 0)]);
        grouped(c, &[(0, 0), (5 * MS + send, 20 * MS)]);
    }
    // a packet sent before its group's first, with it, and before the first of all
    for send in beside(500_000) {
        grouped(c, &[(MS, MS), (send, 3 * MS)]);
        grouped(c, &[(1_500_000, MS), (MS + send, 3 * MS)]);
    }
    c.run(40, [0; 5]);
    for (send, remote) in [(10, 0), (9, 40 * MS), (10, 2 * MS), (30 * MS, 30 * MS), (9, 45 * MS), (60 * MS, 60 * MS)] {
        c.run(41, [send, remote, 0, 0, 0]);
    }
    // the last ms of a u64, which round to it or stay at its end
    const LAST_MS: u64 = u64::MAX / MS * MS;
    for (first, send) in [(LAST_MS - 5 * MS, LAST_MS - 1), (LAST_MS - 5 * MS, LAST_MS), (LAST_MS - 5 * MS, LAST_MS + 499_999), (LAST_MS - 4 * MS, LAST_MS + 500_000)] {
        c.run(40, [0; 5]);
        for (send, remote) in [(0, 0), (first, 20 * MS), (send, 50 * MS)] {
            c.run(41, [send, remote, 0, 0, 0]);
        }
    }
}

// ---- the trendline
// An observation: ns of the send and of the arrival spacing, and the remote instant.
type Seen = (u64, u64, u64);

fn observation((send, arrival, remote): Seen) -> [u64; 5] {
    [2, send, 2, arrival, remote]
}

fn observe(c: &mut Cases, seen: &[Seen]) {
    c.run(50, [0; 5]);
    for s in seen {
        c.run(51, observation(*s));
    }
}

// What the Rust says after some observations: the threshold before the last one, then the threshold and the trend after it.
fn after(seen: &[Seen]) -> (f64, f64, f64) {
    let mut states = States::new();
    let mut before = 0.0;
    let mut last = states.run(50, [0; 5]);
    for s in seen {
        before = f64::from_bits(last[1]);
        last = states.run(51, observation(*s));
    }
    (before, f64::from_bits(last[1]), f64::from_bits(last[2]))
}

// n observations of a rising delay, or of a falling one: each arrival takes `step` ns more than its sending.
fn slope(n: u64, send: u64, step: i64, spacing: u64) -> Vec<Seen> {
    (0..n).map(|k| (send, send.wrapping_add_signed(step), 1_000_000_000 + k * spacing)).collect()
}

// The first of the last remote instants tried at which the modified trend, of n observations, is what is looked for.
fn first_such(seen: &[Seen], tries: impl Iterator<Item = u64>, such: impl Fn(f64, f64, f64) -> bool) -> Vec<Seen> {
    let mut seen = seen.to_vec();
    let gain = seen.len().min(60) as f64;
    let last = seen.len() - 1;
    for remote in tries {
        seen[last].2 = remote;
        let (before, now, trend) = after(&seen);
        if such(before, now, gain * trend * 4.0) {
            return seen;
        }
    }
    panic!("no such observations");
}

fn trendline(c: &mut Cases) {
    overuses(c);
    equal_times(c);
    thresholds(c);
}

fn overuses(c: &mut Cases) {
    // an overuse of 10 ms at its second observation; one observation alone of more than 10 ms
    for second in beside(5 * MS) {
        let mut seen: Vec<Seen> = (0..20).map(|k| (10 * MS, 10 * MS + k * MS, 1_000_000_000 + k * 20 * MS)).collect();
        seen.push((second, second + 40 * MS, 1_400_000_000));
        seen.push((10 * MS, 60 * MS, 1_420_000_000));
        observe(c, &seen);
    }
    let mut seen: Vec<Seen> = (0..19).map(|k| (10 * MS, 10 * MS + k * MS, 1_000_000_000 + k * 20 * MS)).collect();
    seen.push((30 * MS, 60 * MS, 1_380_000_000));
    observe(c, &seen);
}

fn equal_times(c: &mut Cases) {
    // equal times: all but one are equal, then all are, and the trend stays as it was
    let mut seen: Vec<Seen> = slope(3, 10 * MS, 0, MS);
    seen.extend((0..26).map(|k| (20 * MS, 20 * MS + k * MS, 1_010_000_000)));
    observe(c, &seen);
    // equal times with unlike delays at the front, which leave in the order in which they came
    let mut seen: Vec<Seen> = (0..10).map(|k| (10 * MS, 10 * MS + k * k * MS, 1_000_000_000)).collect();
    seen.extend((0..16).map(|k| (10 * MS, 11 * MS, 1_010_000_000 + k * 10 * MS)));
    observe(c, &seen);
}

fn thresholds(c: &mut Cases) {
    // a modified trend equal to the threshold, and to its opposite
    for sign in [1, -1] {
        let mut seen = slope(19, 10 * MS, 0, 0);
        let send = LAST / 10;
        seen.push((send, send.wrapping_add_signed(sign * 16_000_000_000_000_000), 0));
        let equal = 12.5 * sign as f64;
        observe(c, &first_such(&seen, equal_to(&seen, equal), |_, _, modified| modified == equal));
    }
    // 59, 60 and 61 variations; the threshold moves by whole ms, at most 100 of them
    observe(c, &slope(63, 10 * MS, 700_000, 10 * MS));
    for elapsed in [9_999_999, 99_999_999, 100 * MS, 101 * MS] {
        let mut seen = slope(20, 10 * MS, 300_000, 10 * MS);
        let last = seen[19].2;
        seen.push((10 * MS, 10 * MS + 300_000, last + elapsed));
        observe(c, &seen);
    }
    // a threshold that a unit in the last place of the 100 ms would change, either way
    for other in [100f64.next_down(), 100f64.next_up()] {
        let mut seen = slope(21, 10 * MS, 4_000_000, 10 * MS);
        seen[20].1 += 1;
        let start = seen[19].2 + 150 * MS;
        let told = |before: f64, now: f64, modified: f64| modified > before && now != before && before + 0.0087 * (modified - before) * other != now;
        observe(c, &first_such(&seen, (0..1000).map(|k| start + 5 * k * MS), told));
    }
}

// Remote instants around the one at which the modified trend is a given one: by bisection, then each of some hundred beside it.
fn equal_to(seen: &[Seen], modified: f64) -> impl Iterator<Item = u64> + use<> {
    let mut seen = seen.to_vec();
    let last = seen.len() - 1;
    let gain = seen.len().min(60) as f64;
    let (mut low, mut high) = (seen[0].2 + MS, LAST);
    while high - low > 1 {
        let middle = (low + high) / 2;
        seen[last].2 = middle;
        // a longer time makes the trend less steep
        if (gain * after(&seen).2 * 4.0).abs() > modified.abs() { low = middle } else { high = middle }
    }
    low - 500..low + 500
}

// ---- the rate control
const OVERUSE: u64 = 0;
const NORMAL: u64 = 2;

fn start(c: &mut Cases, start: f64, least: f64) {
    c.run(60, [b(start), b(least), b(1e10), 0, 0]);
}

fn update(c: &mut Cases, signal: u64, observed: f64, rtt: Option<u64>, now: u64) -> Answers {
    c.run(61, [signal, b(observed), rtt.is_some() as u64, rtt.unwrap_or(0), now])
}

/// When the first update of a case takes place.
const T: u64 = 1_000_000_000;

fn rate(c: &mut Cases) {
    decreases(c);
    increases(c);
    near_convergence(c);
    slips_near_convergence(c);
    averages(c);
}

fn decreases(c: &mut Cases) {
    // when a decrease may follow another: a round trip later, held to 10 to 200 ms, or 100 ms where there is none
    for (rtt, interval) in [
        (None, 100 * MS),
        (Some(0), 10 * MS),
        (Some(10 * MS - 1), 10 * MS),
        (Some(10 * MS), 10 * MS),
        (Some(10 * MS + 1), 10 * MS + 1),
        (Some(50 * MS), 50 * MS),
        (Some(200 * MS - 1), 200 * MS - 1),
        (Some(200 * MS), 200 * MS),
        (Some(200 * MS + 1), 200 * MS),
        (Some(T), 200 * MS),
    ] {
        start(c, 1e6, 40_000.0);
        update(c, OVERUSE, 1e6, rtt, T);
        for now in beside(T + interval) {
            update(c, OVERUSE, 800_000.0, None, now);
        }
    }
    // at once below half of the estimate
    for observed in floats(425_000.0) {
        start(c, 1e6, 40_000.0);
        update(c, OVERUSE, 1e6, None, T);
        update(c, OVERUSE, observed, None, T + 5 * MS);
    }
}

fn increases(c: &mut Cases) {
    // no increase at 1.5 times the observed rate and 10,000; the greatest estimate is 1.5 times the observed rate
    for observed in floats(660_000.0).into_iter().chain([660_001.0, 661_000.0, 667_333.0, 667_334.0]) {
        start(c, 1e6, 40_000.0);
        update(c, NORMAL, observed, None, T);
        update(c, OVERUSE, observed, None, T + 50 * MS);
    }
    for estimate in floats(10_000.0) {
        start(c, estimate, 0.0);
        update(c, NORMAL, 0.0, None, T);
    }
    // a step of 1,000, by either way of increase
    start(c, 0.0, 0.0);
    update(c, NORMAL, 1000.0, None, T);
    start(c, 0.0, 0.0);
    for signal in [OVERUSE, NORMAL, NORMAL, NORMAL] {
        update(c, signal, 1000.0, None, T);
    }
    // growth by whole ms, at most 1,000
    let within = [MS - 1, MS, 16 * MS - 1, 16 * MS, 25 * MS - 1, 25 * MS, 25 * MS + 1];
    let last = [999 * MS, 1000 * MS - 1, 1000 * MS, 1001 * MS, 5000 * MS];
    let rows = [31, 32, 63, 64, 127, 128, 255, 256, 511, 512].map(|n| n * MS);
    for since in within.into_iter().chain(last).chain(rows) {
        start(c, 1e6, 40_000.0);
        update(c, NORMAL, 1e7, None, T);
        update(c, NORMAL, 1e7, None, T + since);
    }
    // the least and the greatest estimate
    for probe in floats(40_000.0).into_iter().chain(floats(1e10)) {
        start(c, 1e6, 40_000.0);
        c.run(62, [b(probe), T, 0, 0, 0]);
    }
}

// An increase near convergence: an overuse that lowers nothing gives the average, and a normal signal with the same rate follows.
fn near(c: &mut Cases, estimate: f64, rtt: Option<u64>, since: u64) {
    c.run(60, [b(estimate), 0, b(1e14), 0, 0]);
    let observed = 2.0 * estimate + 10_000.0;
    update(c, OVERUSE, observed, rtt, T);
    update(c, NORMAL, observed, None, T + since);
}

fn near_convergence(c: &mut Cases) {
    // half a packet as a step, at least 1,000; a frame of one and of two whole packets
    let estimates = [60_000.0, 288_000.0, 576_000.0].into_iter().flat_map(floats);
    for estimate in estimates.chain([0.0, 40_000.0, 100_000.0, 1e6, 1e10]) {
        near(c, estimate, None, 100 * MS);
    }
    // less of it before the response time is over, which is a round trip and 100 ms
    let rtts = beside(900 * MS).into_iter().chain([0, 50 * MS, 950 * MS, 1000 * MS, LAST]).map(Some);
    for rtt in rtts.chain([None]) {
        let response = rtt.unwrap_or(0) + 100 * MS;
        for since in beside(response).into_iter().chain([0, response / 2, 3 * response]) {
            near(c, 1e6, rtt, since);
        }
    }
    // steps one after the other, then an overuse that lowers the estimate at once if it is above 870,000
    start(c, 1e6, 40_000.0);
    update(c, OVERUSE, 1e6, None, T);
    for k in 1..=10 {
        update(c, NORMAL, 1e6, None, T + 100 * k * MS);
    }
    update(c, OVERUSE, 435_000.0, None, T + 1005 * MS);
}

/// An increase near convergence with its constants (frames a second, a packet's bits, the part of it, the most of that, the least step, ns of a second), and with one
/// operation before another that it comes after.
fn near_with([frames, packet, part, most, least, second]: [f64; 6], order: usize, (estimate, rtt, since): (f64, u64, u64)) -> f64 {
    let secs = |ns: u64| (ns / 1_000_000_000) as f64 + (ns % 1_000_000_000) as f64 / second;
    let response = if order == 1 { secs(rtt) + 0.1 } else { secs(rtt + 100 * MS) };
    let waited = if order == 2 { since as f64 / (rtt + 100 * MS) as f64 } else { since as f64 / 1e9 / response };
    let alpha = part * waited.min(most);
    let frame = estimate / frames;
    let packets = (frame / packet).ceil();
    let step = match order {
        3 => alpha * (estimate / (frames * packets)),
        4 => alpha * frame / packets,
        _ => alpha * (frame / packets),
    };
    estimate + step.max(least)
}

// Estimates, round trips and times since the last update to look among.
fn tries() -> impl Iterator<Item = (f64, u64, u64)> {
    let estimates = |k: u64| [10.0, 60_000.0 + 1237.0 * k as f64].into_iter().chain(floats(288_000.0 * (k + 1) as f64));
    (0..10_000).flat_map(move |k| estimates(k).flat_map(move |e| [70, 500].map(|since| (e, 1000 * k, since * MS))))
}

// For each of those constants and each neighbour of it among the floats, and for each order of operations, an increase that it would change.
fn slips_near_convergence(c: &mut Cases) {
    let constants: [f64; 6] = [30.0, 9600.0, 0.5, 1.0, 1000.0, 1e9];
    let changed = |place: usize, other: f64| std::array::from_fn(|k| if k == place { other } else { constants[k] });
    let neighbours = (0..6).flat_map(|k| [changed(k, constants[k].next_down()), changed(k, constants[k].next_up())]);
    for (slipped, order) in neighbours.map(|other| (other, 0)).chain((1..=4).map(|order| (constants, order))) {
        let told = |&tried: &(f64, u64, u64)| near_with(constants, 0, tried) != near_with(slipped, order, tried);
        let (estimate, rtt, since) = tries().find(told).expect("no such increase");
        near(c, estimate, Some(rtt), since);
    }
}

// Observed rates at each end of three deviations, in a decrease and in an increase.
fn averages(c: &mut Cases) {
    let from = |states: &mut dyn FnMut(u64, f64, u64) -> Answers| {
        states(OVERUSE, 0.0, T);
        states(OVERUSE, 1e6, T + 1000 * MS)
    };
    let mut trial = States::new();
    trial.run(60, [b(1e5), b(1e5), b(1e10), 0, 0]);
    let a = from(&mut |signal, observed, now| trial.run(61, [signal, b(observed), 0, 0, now]));
    let (average, std) = (f64::from_bits(a[3]), f64::from_bits(a[5]));
    for observed in floats(average - 3.0 * std).into_iter().chain(floats(average + 3.0 * std)) {
        for signal in [OVERUSE, NORMAL] {
            start(c, 1e5, 1e5);
            from(&mut |signal, observed, now| update(c, signal, observed, None, now));
            if signal == NORMAL {
                update(c, NORMAL, observed, None, T + 1500 * MS);
            }
            update(c, signal, observed, None, T + 2000 * MS);
            update(c, signal, observed, None, T + 3000 * MS);
        }
    }
}

// ---- the delay controller
fn control(c: &mut Cases) {
    // a hypothesis is valid for two round trips, at most 50 ms; a round trip is smoothed by 1/8 and rounded to ns
    for rtt in [0, 1, 10 * MS, 25 * MS - 1, 25 * MS, 25 * MS + 1, 600 * MS] {
        for now in beside(T + 2 * rtt.min(25 * MS)) {
            c.run(70, [b(1e6), 0, 0, 0, 0]);
            c.run(71, [T - rtt, T, T, 0, 0]);
            c.run(72, [1, b(2e6), 0, T, 0]);
            c.run(73, [1, b(2e6), now, 0, 0]);
            c.run(71, [T, T + 1, T + 3 * rtt, 0, 0]);
            c.run(72, [1, b(2e6), 0, now, 0]);
        }
    }
    // a packet received before it was sent has a round trip of 0; the longest round trip
    c.run(70, [b(1e6), 0, 0, 0, 0]);
    for receive in [T - 1, LAST, T - 1] {
        c.run(71, [T, T, receive, 0, 0]);
        c.run(72, [1, b(2e6), 0, T, 0]);
    }
    // a timeout before the first report, and a probe with an acknowledged rate and without one
    c.run(70, [b(1e6), 0, 0, 0, 0]);
    c.run(73, [1, b(2e6), T, 0, 0]);
    for flags in 0..4 {
        c.run(70, [b(1e6), 0, 0, 0, 0]);
        c.run(72, [flags, b(2e6), b(3e6), T, 0]);
    }
    // a next timeout past the end of u64 is that end
    c.says(70, [b(1e6), 0, 0, 0, 0], [b(1e6), 1, 0, b(12.5), 0, 0]);
    for now in beside(u64::MAX - 25 * MS).into_iter().chain([u64::MAX]) {
        c.says(72, [0, 0, 0, now, 0], [b(1e6), 1, now.saturating_add(25 * MS), b(12.5), 0, 0]);
    }
    c.run(70, [b(1e6), 0, 0, 0, 0]);
}
