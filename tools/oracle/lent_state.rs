//! A lent state's words (crates/link_words): where each field stands, and document 01's question 1, as the document words it.
use crate::bwe::link::Words;

pub const INITIAL_WINDOW: usize = 1;
pub const WINDOW: usize = 2;
/// The acknowledged rate: tag, bits.
pub const ACKED: usize = 3;
pub const ACKED_VARIANCE: usize = 5;
/// In two's complement: a negative sum is past its limit as a word.
pub const SUM: usize = 6;
pub const ELAPSED: usize = 7;
/// An optional instant or duration is its tag, then its ns.
pub const LAST_UPDATE: usize = 8;
pub const ORIGIN: usize = 10;
/// A group: tag, first send, first receipt, last send, last receipt.
pub const PREVIOUS_GROUP: usize = 12;
pub const CURRENT_GROUP: usize = 17;
pub const ZERO_TIME: usize = 22;
pub const TIMES: usize = 24;
pub const DELAYS: usize = 44;
pub const LEN: usize = 64;
pub const VARIATIONS: usize = 65;
pub const ACCUMULATED_DELAY: usize = 66;
pub const SMOOTHED_DELAY: usize = 67;
pub const THRESHOLD: usize = 68;
pub const PREVIOUS_TREND: usize = 69;
/// Tag, count, the time's tag (0 and 3 are the infinities, 1 negative, 2 positive), its ns.
pub const OVERUSE: usize = 70;
pub const THRESHOLD_UPDATE: usize = 74;
pub const HYPOTHESIS: usize = 76;
pub const STATE: usize = 77;
pub const ESTIMATE: usize = 78;
pub const MIN_BITRATE: usize = 79;
pub const MAX_BITRATE: usize = 80;
pub const OBSERVED: usize = 81;
/// An average: factor, tag, average, variance, deviation.
pub const OBSERVED_AVERAGE: usize = 83;
pub const ESTIMATE_UPDATE: usize = 88;
pub const LAST_RTT: usize = 90;
pub const SMOOTHED_RTT: usize = 92;
pub const NEXT_TIMEOUT: usize = 97;
pub const LAST_REPORT: usize = 98;

pub const OPTIONAL_INSTANTS: [usize; 7] = [LAST_UPDATE, ORIGIN, ZERO_TIME, THRESHOLD_UPDATE, ESTIMATE_UPDATE, LAST_RTT, LAST_REPORT];
pub const GROUPS: [usize; 2] = [PREVIOUS_GROUP, CURRENT_GROUP];

pub const MOST_NS: u64 = 1_000_000_001_000_000_000;
pub const MOST_OVERUSE: u64 = 2_000_000_000_000_000_000;
pub const MOST_ELAPSED: u64 = 10_000_000_000;
pub const MOST_BYTES: u64 = 2_147_483_647;
/// The greatest f64 that is at most 10^30; 1e30 is above it. 1e31 is below 10^31, and 0.8 above 0.8.
pub const MOST_30: f64 = 1e30f64.next_down();
pub const MOST_31: f64 = 1e31;

pub fn float(w: &Words, place: usize) -> f64 {
    f64::from_bits(w[place])
}

/// The word of an option, where it is present.
pub fn present(w: &Words, place: usize) -> Option<u64> {
    (w[place] == 1).then(|| w[place + 1])
}

fn within(x: f64, low: f64, high: f64) -> bool {
    low <= x && x <= high
}

/// Question 1, clause by clause.
fn clauses(w: &Words) -> [(&'static str, bool); 18] {
    [
        ("question 1: rate", within(float(w, ESTIMATE), 40_000.0, 1e10)),
        ("question 1: threshold", within(float(w, THRESHOLD), 6.0, 600.0)),
        ("question 1: at most 20 timings", w[LEN] <= 20),
        ("question 1: times in order", in_order(w)),
        ("question 1: times", timings(w, TIMES).all(|t| within(t, -1e12, 1e12))),
        ("question 1: delays", timings(w, DELAYS).all(|d| within(d, -MOST_31, MOST_31)) && within(float(w, SMOOTHED_DELAY), -MOST_31, MOST_31)),
        ("question 1: accumulated delay", within(float(w, ACCUMULATED_DELAY), -MOST_30, MOST_30)),
        ("question 1: previous trend", !float(w, PREVIOUS_TREND).is_nan()),
        ("question 1: counts", w[VARIATIONS] <= 1000 && w[OVERUSE + 1] <= 2),
        ("question 1: overuse time", w[OVERUSE] == 0 || [1, 2].contains(&w[OVERUSE + 2]) && w[OVERUSE + 3] <= MOST_OVERUSE),
        ("question 1: instants and durations", instants_in(w)),
        ("question 1: byte sum", w[SUM] <= MOST_BYTES && (w[SUM] > 0 || w[ELAPSED] == 0)),
        ("question 1: fields that never change", constants_in(w)),
        ("question 1: windows", window_in(w[INITIAL_WINDOW]) && window_in(w[WINDOW])),
        ("question 1: elapsed window", w[ELAPSED] <= MOST_ELAPSED),
        ("question 1: acknowledged rate", acked_in(w)),
        ("question 1: round-trip average", average_in(w, SMOOTHED_RTT, 1e9)),
        ("question 1: rate's average", average_in(w, OBSERVED_AVERAGE, 1e14)),
    ]
}

/// The first clause whose answer is no.
pub fn no_to(w: &Words) -> Option<&'static str> {
    clauses(w).into_iter().find(|(_, yes)| !yes).map(|(name, _)| name)
}

pub fn in_range(w: &Words) -> bool {
    no_to(w).is_none()
}

/// The times or the delays of the history.
fn timings(w: &Words, place: usize) -> impl Iterator<Item = f64> {
    w[place..place + w[LEN].min(20) as usize].iter().map(|x| f64::from_bits(*x))
}

fn in_order(w: &Words) -> bool {
    timings(w, TIMES).zip(timings(w, TIMES).skip(1)).all(|(a, b)| a <= b)
}

/// A group's times are all present or all absent by the words' form.
fn instants_in(w: &Words) -> bool {
    let groups_in = GROUPS.iter().all(|g| w[*g] == 0 || w[g + 1..g + 5].iter().all(|t| *t <= MOST_NS));
    groups_in && OPTIONAL_INSTANTS.iter().all(|p| present(w, *p).is_none_or(|t| t <= MOST_NS)) && w[NEXT_TIMEOUT] <= MOST_NS
}

/// What the Rust never changes.
fn constants_in(w: &Words) -> bool {
    float(w, MIN_BITRATE) == 40_000.0 && float(w, MAX_BITRATE) == 1e10 && float(w, OBSERVED_AVERAGE) == 0.95 && float(w, SMOOTHED_RTT) == 0.125
}

fn window_in(ns: u64) -> bool {
    ns % 1_000_000 == 0 && (1_000_000..=10_000_000_000).contains(&ns)
}

fn acked_in(w: &Words) -> bool {
    present(w, ACKED).is_none_or(|e| within(f64::from_bits(e), 0.8, 1e14)) && within(float(w, ACKED_VARIANCE), 0.0, MOST_30)
}

fn average_in(w: &Words, place: usize, most: f64) -> bool {
    let average_in = present(w, place + 1).is_none_or(|a| within(f64::from_bits(a), 0.0, most));
    let variance = float(w, place + 3);
    average_in && within(variance, 0.0, MOST_30) && float(w, place + 4) == variance.sqrt()
}
