//! Calls on lent links: `oracle lent SEED CALLS` writes cases to standard output, `oracle lent_paths SEED CALLS` prints how often the calls take which path.
//!
//! A case is 12 words: an operation, 5 inputs, 6 answers. Operation 90 lends the link whose 100 words come next. A report, 92, has a probe's tag and bits, the moment and
//! how many packets there are, which come next, list by list; a timeout, 93, has the moment. After each stand the 100 words of the link. The answers are the number,
//! then estimate, hypothesis and next timeout, which are 0 of a call that is turned down.
use crate::bwe::link::{Link, Lists, Words};
use crate::lent_make::{Lent, States};
use crate::lent_state::*;
use crate::make::Random;
use std::io::{BufWriter, Write};

const MS: u64 = 1_000_000;
const MOST: u64 = 1_000_000_000_000_000_000;
const CALLS_A_LINK: u64 = 5;

pub struct Call {
    /// None is a timeout.
    pub report: Option<(Lists, Option<f64>)>,
    pub now: u64,
}

/// A lent link, as the Rust has it where it passes question 1.
struct Held {
    words: Words,
    link: Option<Link>,
}

impl Held {
    fn new(words: Words) -> Self {
        let link = in_range(&words).then(|| Link::from_words(&words));
        assert!(link.as_ref().is_none_or(|link| link.words() == words), "a state is not read as it was set");
        Self { words, link }
    }

    /// The answers. A no leaves the state.
    fn call(&mut self, call: &Call) -> [u64; 6] {
        let Some(link) = self.link.as_mut().filter(|_| in_range(&self.words)) else {
            return [1, 0, 0, 0, 0, 0];
        };
        let number = match &call.report {
            Some((lists, probe)) => link.report(lists, *probe, call.now),
            None => link.timeout(call.now),
        };
        if number != 0 {
            return [number, 0, 0, 0, 0, 0];
        }
        self.words = link.words();
        let e = link.estimate();
        [0, e[0], e[1], e[2], 0, 0]
    }
}

/// What is done with each lent link and each call on it: the words before, the answers, the words after.
trait Listener {
    fn lent(&mut self, lent: &Lent);
    fn called(&mut self, call: &Call, before: &Words, answers: [u64; 6], after: &Words);
}

fn run(seed: u64, calls: u64, listener: &mut impl Listener) {
    let mut r = Random::from_seed(seed);
    let mut states = States::new();
    let mut left = calls;
    while left > 0 {
        let lent = states.make(&mut r);
        listener.lent(&lent);
        let mut held = Held::new(lent.words);
        for _ in 0..CALLS_A_LINK.min(left) {
            let call = draw(&held.words, &mut r);
            let before = held.words;
            let answers = held.call(&call);
            listener.called(&call, &before, answers, &held.words);
            left -= 1;
        }
    }
}

/// Writes the cases.
struct Cases<W: Write>(W);

impl<W: Write> Cases<W> {
    fn words(&mut self, words: &[u64]) {
        for w in words {
            self.0.write_all(&w.to_le_bytes()).unwrap();
        }
    }

    fn case(&mut self, op: u64, inputs: [u64; 5], answers: [u64; 6]) {
        self.words(&[op]);
        self.words(&inputs);
        self.words(&answers);
    }
}

impl<W: Write> Listener for Cases<W> {
    fn lent(&mut self, lent: &Lent) {
        self.case(90, [0; 5], [0; 6]);
        self.words(&lent.words);
    }

    fn called(&mut self, call: &Call, _: &Words, answers: [u64; 6], after: &Words) {
        if let Some((lists, probe)) = &call.report {
            self.case(92, [probe.is_some() as u64, probe.map_or(0, f64::to_bits), call.now, lists[0].len() as u64, 0], answers);
            lists.iter().for_each(|list| self.words(list));
        } else {
            self.case(93, [call.now, 0, 0, 0, 0], answers);
        }
        self.words(after);
    }
}

pub fn make(seed: u64, calls: u64) {
    run(seed, calls, &mut Cases(BufWriter::with_capacity(1 << 20, std::io::stdout().lock())));
}

// ---- calls
fn draw(w: &Words, r: &mut Random) -> Call {
    let now = moment(w, r);
    if r.one_in(4) {
        return Call { report: None, now };
    }
    let n = match r.below(40) {
        _ if no_round_trip(w) && r.one_in(2) => 0,
        0 => r.below(40),
        1..5 => 0,
        _ => 1 + r.below(3),
    };
    let mut lists = Lists::default();
    let mut last = Last { send: w[CURRENT_GROUP + 3], remote: w[CURRENT_GROUP + 4] };
    for _ in 0..n {
        for (list, x) in lists.iter_mut().zip(packet(w, &mut last, r)) {
            list.push(x);
        }
    }
    Call { report: Some((lists, r.one_in(8).then(|| probe(r)))), now }
}

// A packet brings a round trip; before it the default backoff counts.
fn no_round_trip(w: &Words) -> bool {
    w[LAST_RTT] == 0 && w[SMOOTHED_RTT + 1] == 0
}

// A moment around those of the state.
fn moment(w: &Words, r: &mut Random) -> u64 {
    let backoff = no_round_trip(w) && r.one_in(2);
    let place = if backoff { ESTIMATE_UPDATE } else { r.pick(&[LAST_REPORT, ESTIMATE_UPDATE, LAST_REPORT, ESTIMATE_UPDATE, ORIGIN]) };
    let base = present(w, place).unwrap_or(w[NEXT_TIMEOUT]);
    let later = [99, 100, 101, 0, 1, 5, 9, 10, 11, 24, 25, 26, 49, 50, 51, 199, 200, 201, 999, 1000, 1001, 60_000];
    let later = MS * r.pick(if backoff { &later[..3] } else { &later });
    let now = match r.below(16) {
        0 => base.saturating_sub(later),
        1 if r.one_in(4) => r.pick(&[0, MS, MOST - MS, MOST, MOST + MS, MOST + 1, u64::MAX]),
        2 if r.one_in(4) => return base + 1,
        _ => base + later,
    };
    if now > MOST && !r.one_in(20) { MOST } else { now / MS * MS }
}

fn probe(r: &mut Random) -> f64 {
    match r.below(4) {
        0 => r.pick(&[0.0, -0.0, 1e14, 1e10, 40_000.0, 1e10f64.next_up(), 40_000f64.next_down(), 5e-324]),
        1 if r.one_in(4) => r.pick(&[f64::INFINITY, f64::NAN, -1.0, -5e-324, 1e14f64.next_up()]),
        _ => r.sized(34) as f64,
    }
}

/// The last packet's instants.
struct Last {
    send: u64,
    remote: u64,
}

// A packet around the state's own instants: most go on from the last one, so that groups join and end.
fn packet(w: &Words, last: &mut Last, r: &mut Random) -> [u64; 5] {
    let send = match r.below(16) {
        0 => around(w[CURRENT_GROUP + 1], &[0, 5 * MS, 6 * MS], r),
        1 => around(present(w, ORIGIN).unwrap_or(0), &[0, MS / 2, 5 * MS], r),
        2 => r.pick(&[last.send, w[PREVIOUS_GROUP + 3], 0, MOST]),
        3 | 4 => last.send + r.below(5 * MS),
        5 => last.send.saturating_sub(r.below(20 * MS)),
        _ => last.send + 5 * MS + r.below(20 * MS),
    };
    let remote = match r.below(16) {
        0 => around(w[CURRENT_GROUP + 2], &[0, 5 * MS, 100 * MS], r),
        1 => around(present(w, LAST_UPDATE).unwrap_or(0), &[0, w[WINDOW], w[INITIAL_WINDOW], 2 * w[WINDOW]], r),
        2 => around(present(w, ZERO_TIME).unwrap_or(0), &[0], r),
        3 => r.pick(&[last.remote, w[PREVIOUS_GROUP + 4], 0, MOST]),
        4 => last.remote.saturating_sub(r.below(20 * MS)),
        5 | 6 => last.remote + r.below(5 * MS),
        7 | 8 => last.remote + r.below(60 * MS),
        9 => last.remote + send.saturating_sub(last.send),
        _ => last.remote + 5 * MS + r.below(20 * MS),
    };
    let limit = if r.one_in(200) { MOST + 1 } else { MOST };
    (last.send, last.remote) = (send.min(limit), remote.min(limit));
    let receipt = if r.one_in(8) { last.send.saturating_sub(r.below(2)) } else { last.send + r.below(60 * MS) };
    [r.below(8), size(w, r), last.send, last.remote, receipt.min(limit)]
}

// An instant some length after another, or its neighbour.
fn around(base: u64, lengths: &[u64], r: &mut Random) -> u64 {
    let length = r.pick(lengths);
    r.near(base + length)
}

fn size(w: &Words, r: &mut Random) -> u64 {
    match r.below(20) {
        0 => r.pick(&[1, 65_535]),
        1 => r.near(MOST_BYTES.saturating_sub(w[SUM])),
        2 if r.one_in(10) => r.pick(&[0, MOST_BYTES, MOST_BYTES + 1, 1 << 63, u64::MAX]),
        _ => 1 + r.sized(12),
    }
}

// ---- paths
/// How many links were lent, how many of them were reached, and how often calls took a path, told by the states before and after.
#[derive(Default)]
struct Paths {
    links: u64,
    reached: u64,
    counts: std::collections::BTreeMap<&'static str, u64>,
}

impl Listener for Paths {
    fn lent(&mut self, lent: &Lent) {
        self.links += 1;
        self.reached += lent.reached as u64;
    }

    fn called(&mut self, call: &Call, before: &Words, answers: [u64; 6], after: &Words) {
        let name = match answers[0] {
            0 => "accepted",
            1 => no_to(before).unwrap(),
            n => ["question 5", "question 6", "question 7", "question 8", "question 9"][n as usize - 5],
        };
        self.count(name, true);
        if answers[0] == 0 {
            self.accepted(call, before, after);
        }
    }
}

impl Paths {
    fn count(&mut self, name: &'static str, met: bool) {
        *self.counts.entry(name).or_default() += met as u64;
    }

    fn accepted(&mut self, call: &Call, before: &Words, after: &Words) {
        self.count("accepted, after which question 1 is a no", !in_range(after));
        if let Some((lists, probe)) = &call.report {
            self.groups(lists, before);
            self.count("a probe", probe.is_some());
        } else {
            self.count("a timeout that hands the rate on", after[ESTIMATE_UPDATE..LAST_RTT] != before[ESTIMATE_UPDATE..LAST_RTT]);
        }
        self.trendline(before, after);
        self.rate(call, before, after);
        self.count("a first acknowledged rate", before[ACKED] == 0 && after[ACKED] == 1);
        self.count("an acknowledged rate that moved", before[ACKED] == 1 && before[ACKED + 1] != after[ACKED + 1]);
    }

    fn groups(&mut self, lists: &Lists, before: &Words) {
        let whole = before[PREVIOUS_GROUP] == 1 && before[CURRENT_GROUP] == 1;
        self.count("a missing origin with whole groups", !lists[0].is_empty() && before[ORIGIN] == 0 && whole);
        self.count("a packet before the origin", present(before, ORIGIN).is_some_and(|o| lists[2].iter().any(|t| *t < o)));
    }

    // A full history that changed was judged, but with fewer than two variations; a slope is finite, so an infinite trend that is kept was the previous one.
    fn trendline(&mut self, before: &Words, after: &Words) {
        let judged = after[LEN] == 20 && before[TIMES..LEN + 1] != after[TIMES..LEN + 1];
        self.count("fewer than two delay variations", judged && after[VARIATIONS] < 2);
        let kept = judged && after[VARIATIONS] > 1 && float(after, PREVIOUS_TREND).is_infinite();
        self.count("an infinite previous trend with a denominator of 0", kept);
        self.count("a full history that was judged", judged);
        self.count("a hypothesis that became overuse", judged && before[HYPOTHESIS] != 0 && after[HYPOTHESIS] == 0);
        self.count("a hypothesis that became underuse", judged && before[HYPOTHESIS] != 2 && after[HYPOTHESIS] == 2);
        self.count("a hypothesis that became normal", judged && before[HYPOTHESIS] != 1 && after[HYPOTHESIS] == 1);
        self.count("an overuse that goes on", judged && before[OVERUSE] == 1 && after[OVERUSE] == 1);
        self.count("a threshold that adapted", before[THRESHOLD] != after[THRESHOLD]);
    }

    fn rate(&mut self, call: &Call, before: &Words, after: &Words) {
        let probed = call.report.as_ref().is_some_and(|(_, probe)| probe.is_some());
        let updated = !probed && present(after, ESTIMATE_UPDATE) == Some(call.now) && before[ESTIMATE..] != after[ESTIMATE..];
        let (old, new) = (float(before, ESTIMATE), float(after, ESTIMATE));
        let raised = updated && after[STATE] == 0 && new > old;
        let part_of_ms = present(before, ESTIMATE_UPDATE).is_some_and(|t| t % MS != 0 && t < call.now);
        self.count("a last update that is no whole ms, before a raise", raised && part_of_ms);
        self.count("a raise", raised);
        self.count("an increase that falls", updated && after[STATE] == 0 && new < old);
        self.count("a decrease", updated && after[STATE] == 1 && new < old);
        self.count("an average that was reset", before[OBSERVED_AVERAGE + 1] == 1 && after[OBSERVED_AVERAGE + 1] == 0);
        let reduces = !probed && after[ACKED] == 1 && after[HYPOTHESIS] == 0 && before[ESTIMATE_UPDATE] == 1 && no_round_trip(after);
        self.count("the default backoff in an overuse", reduces && (call.report.is_some() || after[STATE] != before[STATE]));
    }
}

pub fn paths(seed: u64, calls: u64) {
    let mut paths = Paths::default();
    run(seed, calls, &mut paths);
    println!("{calls} calls on {} links, {} of them reached but for drawn parts", paths.links, paths.reached);
    for (name, count) in paths.counts {
        println!("{count:>9} {name}");
    }
}
