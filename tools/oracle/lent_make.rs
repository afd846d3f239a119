//! Makes lent states from a seed. A reached one is that of a link after some traffic, often with some of its parts drawn anew; of an unreached one every field is
//! drawn: limits, their neighbours, values of a real link, and any in range. One in ten fails question 1 in one field by one step.
use crate::bwe::link::{self, Link, Lists, Words};
use crate::lent_state::*;
use crate::make::{Maker, Random};

const MS: u64 = 1_000_000;
const MOST: u64 = 1_000_000_000_000_000_000;

/// The instants that a state's others lie around, on its two clocks.
#[derive(Clone, Copy)]
struct Clocks {
    local: u64,
    remote: u64,
}

type Part = fn(&mut Words, Clocks, &mut Random);

const PARTS: [Part; 11] = [windows, acked, origin, groups, timings, delays, overuse, rates, observed_average, round_trips, instants];

pub struct States {
    traffic: Maker,
    link: Link,
    lists: Lists,
}

/// Whether a state was reached but for its drawn parts, and its words.
pub struct Lent {
    pub reached: bool,
    pub words: Words,
}

impl States {
    pub fn new() -> Self {
        Self { traffic: Maker::default(), link: opened(1e6, 500 * MS, 150 * MS), lists: Lists::default() }
    }

    pub fn make(&mut self, r: &mut Random) -> Lent {
        let reached = r.one_in(3);
        let mut words = if reached { self.reached(r) } else { drawn(r) };
        assert!(in_range(&words), "a state was drawn out of range: {words:x?}");
        if r.one_in(10) {
            while in_range(&words) {
                past_a_limit(&mut words, r);
            }
        }
        Lent { reached, words }
    }

    fn reached(&mut self, r: &mut Random) -> Words {
        for _ in 0..r.sized(8) {
            self.step(r);
        }
        let mut w = self.link.words();
        let clocks = Clocks { local: w[NEXT_TIMEOUT], remote: present(&w, LAST_UPDATE).unwrap_or(w[NEXT_TIMEOUT]) };
        for _ in 0..r.below(4) {
            r.pick(&PARTS)(&mut w, clocks, r);
        }
        w
    }

    // One operation of module link.
    fn step(&mut self, r: &mut Random) {
        let (op, i) = self.traffic.link(r, 2000, 300);
        match op {
            90 => {
                if let Ok(link) = link::open(f64::from_bits(i[0]), i[1], i[2]) {
                    self.link = link;
                }
            }
            91 => {
                for (list, x) in self.lists.iter_mut().zip(i) {
                    list.push(x);
                }
            }
            92 => {
                self.link.report(&std::mem::take(&mut self.lists), (i[0] == 1).then(|| f64::from_bits(i[1])), i[2]);
            }
            _ => {
                self.link.timeout(i[0]);
            }
        }
    }
}

fn opened(start: f64, initial: u64, window: u64) -> Link {
    link::open(start, initial, window).ok().unwrap()
}

fn drawn(r: &mut Random) -> Words {
    let mut w = opened(1e6, 500 * MS, 150 * MS).words();
    let clocks = Clocks { local: clock(r), remote: clock(r) };
    for part in PARTS {
        part(&mut w, clocks, r);
    }
    w
}

fn clock(r: &mut Random) -> u64 {
    match r.below(8) {
        0 => r.pick(&[0, MS, MOST, MOST_NS]),
        1 => r.below(MOST_NS),
        _ => 1_000_000_000 + r.sized(40),
    }
}

// ---- kinds of fields
// An instant near another, at a limit, or any.
fn instant(base: u64, r: &mut Random) -> u64 {
    let t = match r.below(12) {
        0 => r.pick(&[0, 1, MOST - 1, MOST, MOST + 1, MOST_NS - 1, MOST_NS]),
        1 => r.below(MOST_NS + 1),
        2 => base,
        3 | 4 => (base + r.below(200 * MS)).saturating_sub(100 * MS) / MS * MS,
        5 => (base + r.below(2000 * MS)).saturating_sub(1000 * MS),
        _ => (base + r.below(40 * MS)).saturating_sub(20 * MS),
    };
    t.min(MOST_NS)
}

fn set_optional(w: &mut Words, place: usize, x: Option<u64>) {
    (w[place], w[place + 1]) = x.map_or((0, 0), |x| (1, x));
}

fn set(w: &mut Words, place: usize, x: f64) {
    w[place] = x.to_bits();
}

// Within limits: one of them or its neighbour, a small or a round number, any; else the usual one.
fn float_in(low: f64, high: f64, usual: f64, r: &mut Random) -> f64 {
    match r.below(10) {
        0 => r.pick(&[low, low.next_up()]),
        1 => r.pick(&[high, high.next_down()]),
        2 => r.pick(&[0f64, -0.0, 5e-324, 1.0, 1e-170, 1e12]).clamp(low, high),
        3 => (low + (high - low) * part(r)).clamp(low, high),
        _ => usual.clamp(low, high),
    }
}

/// From 0 to 1.
fn part(r: &mut Random) -> f64 {
    r.below(1 << 30) as f64 / (1u64 << 30) as f64
}

// Around 0, up to a size on either side.
fn either_side(size: f64, r: &mut Random) -> f64 {
    size * (2.0 * part(r) - 1.0)
}

// ---- parts
fn windows(w: &mut Words, _: Clocks, r: &mut Random) {
    for place in [INITIAL_WINDOW, WINDOW] {
        let any = 1 + r.below(10_000);
        w[place] = MS * r.pick(&[500, 150, 1, 2, 7, 9_999, 10_000, any]);
    }
}

fn acked(w: &mut Words, c: Clocks, r: &mut Random) {
    let usual = (40_000 + r.sized(24)) as f64;
    let estimate = (!r.one_in(6)).then(|| float_in(0.8, 1e14, usual, r).to_bits());
    set_optional(w, ACKED, estimate);
    let usual = 100.0 * part(r);
    set(w, ACKED_VARIANCE, float_in(0.0, MOST_30, usual, r));
    let usual = 1 + r.sized(20);
    w[SUM] = r.pick(&[1, 1999, 2000, 2001, MOST_BYTES - 1, MOST_BYTES, usual, usual, usual]);
    let window = w[if estimate.is_some() { WINDOW } else { INITIAL_WINDOW }];
    let (usual, any) = (r.below(window), r.below(MOST_ELAPSED));
    w[ELAPSED] = r.pick(&[0, 1, window - 1, window, MOST_ELAPSED - 1, MOST_ELAPSED, usual, usual, any]);
    if r.one_in(6) {
        (w[SUM], w[ELAPSED]) = (0, 0);
    }
    set_optional(w, LAST_UPDATE, (!r.one_in(8)).then(|| instant(c.remote, r)));
}

fn origin(w: &mut Words, c: Clocks, r: &mut Random) {
    let t = match r.below(8) {
        0 => None,
        1 => Some(instant(c.local, r)),
        _ => Some(c.local.saturating_sub(r.sized(38))),
    };
    set_optional(w, ORIGIN, t);
}

// Of a whole group the last times may lie before the first.
fn groups(w: &mut Words, c: Clocks, r: &mut Random) {
    let earlier = r.below(30 * MS);
    for (place, back) in [(PREVIOUS_GROUP, earlier), (CURRENT_GROUP, 0)] {
        w[place..place + 5].fill(0);
        if r.one_in(8) {
            continue;
        }
        let (send, remote) = (c.local.saturating_sub(back), c.remote.saturating_sub(back));
        let (first, last) = if r.one_in(3) { (instant(send, r), instant(remote, r)) } else { (send, remote) };
        w[place..place + 3].copy_from_slice(&[1, first, last]);
        for (i, t) in [(3, first), (4, last)] {
            let later = r.below(8 * MS);
            w[place + i] = if r.one_in(3) { instant(t, r) } else { (t + r.pick(&[0, 1, MS, 5 * MS, later])).min(MOST_NS) };
        }
    }
}

// The ms from the zero time to the current group's last receipt: the time that its delay will have.
fn next_time(w: &Words) -> f64 {
    let zero = present(w, ZERO_TIME).unwrap_or(w[CURRENT_GROUP + 4]);
    let ms = |ns: u64| (ns / 1_000_000_000) as f64 * 1000.0 + (ns % 1_000_000_000) as f64 / 1e6;
    let last = w[CURRENT_GROUP + 4];
    (if last >= zero { ms(last - zero) } else { -ms(zero - last) }).clamp(-1e12, 1e12)
}

fn timings(w: &mut Words, c: Clocks, r: &mut Random) {
    let zero = match r.below(12) {
        0 => None,
        1 => Some(instant(c.remote, r)),
        2 => present(w, CURRENT_GROUP).map(|_| w[CURRENT_GROUP + 4]),
        _ => Some(c.remote.saturating_sub(r.sized(36) / MS * MS)),
    };
    set_optional(w, ZERO_TIME, zero);
    let any = r.below(21);
    let n = r.pick(&[0, 1, 2, 18, 19, 19, 19, 20, 20, 20, 20, any]) as usize;
    let mut times = times(n, next_time(w), r);
    times.sort_by(f64::total_cmp);
    w[TIMES..TIMES + 40].fill(0);
    w[LEN] = n as u64;
    let steepest = r.pick(&[0.0, 0.01, 0.1, 1.0, 10.0]);
    let (first, slope) = (either_side(100.0, r), either_side(steepest, r));
    let kind = r.below(6);
    for (i, t) in times.iter().enumerate() {
        let delay = match kind {
            0 => r.pick(&[MOST_31, -MOST_31, MOST_31.next_down(), 0.0, -0.0, 5e-324]),
            1 => first + either_side(10.0, r),
            _ => first + slope * (t - times[0]),
        };
        set(w, TIMES + i, *t);
        set(w, DELAYS + i, delay.clamp(-MOST_31, MOST_31));
    }
}

// Times of which the next is often the last, sometimes their equal or earlier.
fn times(n: usize, next: f64, r: &mut Random) -> Vec<f64> {
    let kind = r.below(8);
    let step = r.pick(&[0.001, 1.0, 5.0, 20.0, 1e6]);
    let time = |i: usize, r: &mut Random| match kind {
        0 | 1 => next,
        2 => r.pick(&[next, next.next_up(), next.next_down(), 0.0, -0.0, 5e-324, 1e-170]),
        3 => {
            let any = either_side(1e12, r);
            r.pick(&[-1e12, 1e12, 1e12f64.next_down(), next, 0.0, any])
        }
        4 => next + either_side(10.0 * step, r),
        _ => next - step * ((n - i) as f64 - 0.5 * part(r)),
    };
    (0..n).map(|i| time(i, r).clamp(-1e12, 1e12)).collect()
}

fn delays(w: &mut Words, _: Clocks, r: &mut Random) {
    let last = if w[LEN] > 0 { float(w, DELAYS + w[LEN] as usize - 1) } else { 0.0 };
    let any = r.below(1001);
    w[VARIATIONS] = r.pick(&[0, 1, 2, 3, 20, 59, 60, 61, 998, 999, 1000, any, any]);
    let usual = last + either_side(100.0, r);
    set(w, ACCUMULATED_DELAY, float_in(-MOST_30, MOST_30, usual, r));
    let usual = last + either_side(1.0, r);
    set(w, SMOOTHED_DELAY, float_in(-MOST_31, MOST_31, usual, r));
    let usual = if r.one_in(2) { 12.5 } else { 6.0 + 30.0 * part(r) };
    set(w, THRESHOLD, float_in(6.0, 600.0, usual, r));
    // which the modified trend of the next variation takes to the threshold, or to the most that it adapts to
    let limit = (float(w, THRESHOLD) + r.pick(&[0.0, 15.0])) / (4.0 * (w[VARIATIONS] + 1).min(60) as f64);
    let trend = match r.below(7) {
        0 => f64::INFINITY,
        1 => f64::NEG_INFINITY,
        2 => r.pick(&[0.0, -0.0, f64::MAX, f64::MIN, 5e-324]),
        3 => r.pick(&[limit, -limit]),
        _ => {
            let most = r.pick(&[0.01, 0.1, 1.0]);
            either_side(most, r)
        }
    };
    set(w, PREVIOUS_TREND, trend);
}

fn overuse(w: &mut Words, _: Clocks, r: &mut Random) {
    w[HYPOTHESIS] = r.below(3);
    w[OVERUSE..OVERUSE + 4].fill(0);
    if r.one_in(3) {
        return;
    }
    let ns = match r.below(4) {
        0 => r.pick(&[0, 1, MOST_OVERUSE - 1, MOST_OVERUSE]),
        1 => r.near(10 * MS),
        2 => r.below(MOST_OVERUSE),
        _ => r.below(20 * MS),
    };
    w[OVERUSE..OVERUSE + 4].copy_from_slice(&[1, r.below(3), 1 + r.below(4).min(1), ns]);
}

fn rates(w: &mut Words, _: Clocks, r: &mut Random) {
    w[STATE] = r.below(3);
    let acked = present(w, ACKED).map_or(1e6, f64::from_bits);
    let any = 0.5 + 2.0 * part(r);
    let usual = acked * r.pick(&[0.9, 1.0, 1.0 / 0.85, 1.4, 1.5, 2.0, 2.1, any]) + r.pick(&[0.0, 0.0, 10_000.0]);
    set(w, ESTIMATE, float_in(40_000.0, 1e10, usual, r));
    let any = either_side(1e15, r);
    let observed = r.pick(&[f64::NAN, f64::INFINITY, -1.0, 0.0, -0.0, acked, any]);
    set_optional(w, OBSERVED, (!r.one_in(4)).then(|| observed.to_bits()));
}

// An average with a deviation of some part of it.
fn average(w: &mut Words, place: usize, most: f64, usual: f64, r: &mut Random) {
    set_optional(w, place + 1, (!r.one_in(4)).then(|| float_in(0.0, most, usual, r).to_bits()));
    let variance = (usual * r.pick(&[0.0, 0.001, 0.02, 0.3])).powi(2);
    let variance = float_in(0.0, MOST_30, variance, r);
    set(w, place + 3, variance);
    let root = variance.sqrt();
    set(w, place + 4, if root == 0.0 && r.one_in(4) { -root } else { root });
}

fn observed_average(w: &mut Words, _: Clocks, r: &mut Random) {
    let acked = present(w, ACKED).map_or(1e6, f64::from_bits);
    if r.one_in(8) {
        // three deviations from the acknowledged rate
        let average = (acked + r.pick(&[3000.0, -3000.0])).clamp(0.0, 1e14);
        set_optional(w, OBSERVED_AVERAGE + 1, Some(average.to_bits()));
        set(w, OBSERVED_AVERAGE + 3, 1e6);
        set(w, OBSERVED_AVERAGE + 4, 1e3);
        return;
    }
    let apart = r.pick(&[0.0, 0.01, 0.1, 0.5]);
    let usual = acked * (1.0 + either_side(apart, r));
    average(w, OBSERVED_AVERAGE, 1e14, usual, r);
}

fn round_trips(w: &mut Words, _: Clocks, r: &mut Random) {
    let any = part(r);
    // a 1,024th of a second, and 3 of them, lie halfway between two ns
    let usual = r.pick(&[0.0, 5e-10, 1.0 / 1024.0, 3.0 / 1024.0, 0.0125, 0.025, 0.02, 0.2 * any, 0.03 * any]);
    average(w, SMOOTHED_RTT, 1e9, usual, r);
    let limit = MS * r.pick(&[10, 100, 200, 25]);
    let (near, usual, any) = (r.near(limit), r.below(300 * MS), r.below(MOST_NS));
    let rtt = r.pick(&[0, 1, MOST_NS - 1, MOST_NS, near, near, usual, any]);
    set_optional(w, LAST_RTT, (!r.one_in(4)).then_some(rtt));
    if r.one_in(6) {
        set_optional(w, SMOOTHED_RTT + 1, None);
        set_optional(w, LAST_RTT, None);
    }
}

fn instants(w: &mut Words, c: Clocks, r: &mut Random) {
    set_optional(w, THRESHOLD_UPDATE, (!r.one_in(8)).then(|| instant(c.remote, r)));
    set_optional(w, ESTIMATE_UPDATE, (!r.one_in(8)).then(|| instant(c.local, r)));
    set_optional(w, LAST_REPORT, (!r.one_in(8)).then(|| instant(c.local, r)));
    w[NEXT_TIMEOUT] = instant(c.local, r);
}

// ---- one step past a limit
fn past_a_limit(w: &mut Words, r: &mut Random) {
    match r.below(8) {
        0 => past_a_rate(w, r),
        1 => past_a_delay(w, r),
        2 => past_a_timing(w, r),
        3 => past_an_instant(w, r),
        4 => past_a_count(w, r),
        5 => past_the_acked_rate(w, r),
        6 => past_an_average(w, OBSERVED_AVERAGE, 1e14, r),
        _ => past_an_average(w, SMOOTHED_RTT, 1e9, r),
    }
}

// The float next to a limit, on its far side, or a NaN.
fn past(low: f64, high: f64, r: &mut Random) -> f64 {
    r.pick(&[low.next_down(), high.next_up(), f64::NAN])
}

fn past_a_rate(w: &mut Words, r: &mut Random) {
    let (place, low, high) = r.pick(&[(ESTIMATE, 40_000.0, 1e10), (MIN_BITRATE, 40_000.0, 40_000.0), (MAX_BITRATE, 1e10, 1e10)]);
    set(w, place, past(low, high, r));
}

fn past_a_delay(w: &mut Words, r: &mut Random) {
    let (place, low, high) = r.pick(&[
        (THRESHOLD, 6.0, 600.0),
        (ACCUMULATED_DELAY, -MOST_30, MOST_30),
        (SMOOTHED_DELAY, -MOST_31, MOST_31),
        (PREVIOUS_TREND, f64::NAN, f64::NAN),
    ]);
    set(w, place, past(low, high, r));
}

// A time past its limit, two out of order, or a delay past its limit.
fn past_a_timing(w: &mut Words, r: &mut Random) {
    let n = w[LEN] as usize;
    if n == 0 {
        return;
    }
    match r.below(4) {
        0 => set(w, TIMES, r.pick(&[(-1e12f64).next_down(), f64::NAN])),
        1 => set(w, TIMES + n - 1, r.pick(&[1e12f64.next_up(), f64::NAN])),
        2 if n > 1 => {
            let i = r.below(n as u64 - 1) as usize;
            let next = float(w, TIMES + i + 1);
            set(w, TIMES + i, next.next_up());
        }
        _ => set(w, DELAYS + r.below(n as u64) as usize, past(-MOST_31, MOST_31, r)),
    }
}

fn past_an_instant(w: &mut Words, r: &mut Random) {
    if r.one_in(3) {
        let group = r.pick(&GROUPS);
        w[group] = 1;
        w[group + 1 + r.below(4) as usize] = MOST_NS + 1;
    } else if r.one_in(8) {
        w[NEXT_TIMEOUT] = MOST_NS + 1;
    } else {
        set_optional(w, r.pick(&OPTIONAL_INSTANTS), Some(MOST_NS + 1));
    }
}

fn past_a_count(w: &mut Words, r: &mut Random) {
    let time = r.pick(&[(0, 0), (3, 0), (1, MOST_OVERUSE + 1), (2, MOST_OVERUSE + 1)]);
    match r.below(5) {
        0 => w[VARIATIONS] = 1001,
        1 => w[OVERUSE..OVERUSE + 4].copy_from_slice(&[1, 3, 2, 0]),
        2 => w[OVERUSE..OVERUSE + 4].copy_from_slice(&[1, 1, time.0, time.1]),
        3 => w[r.pick(&[INITIAL_WINDOW, WINDOW])] = r.pick(&[0, MS - 1, MS + 1, 10_000 * MS - 1, 10_000 * MS + 1, 10_001 * MS]),
        _ => w[LEN] = 21,
    }
}

fn past_the_acked_rate(w: &mut Words, r: &mut Random) {
    match r.below(5) {
        0 => set_optional(w, ACKED, Some(past(0.8, 1e14, r).to_bits())),
        1 => set(w, ACKED_VARIANCE, past(0.0, MOST_30, r)),
        2 => w[SUM] = r.pick(&[MOST_BYTES + 1, u64::MAX]),
        3 => (w[SUM], w[ELAPSED]) = (0, 1),
        _ => w[ELAPSED] = MOST_ELAPSED + 1,
    }
}

fn past_an_average(w: &mut Words, place: usize, most: f64, r: &mut Random) {
    let (factor, deviation) = (float(w, place), float(w, place + 4));
    match r.below(4) {
        0 => set(w, place, past(factor, factor, r)),
        1 => set_optional(w, place + 1, Some(past(0.0, most, r).to_bits())),
        2 => set(w, place + 3, past(0.0, MOST_30, r)),
        _ => set(w, place + 4, past(deviation, deviation, r)),
    }
}
