//! Looks for a list of calls that breaks demand 3: runs calls as those of module `link`, with fewer large reports, on the Rust and holds each estimate to its range, each threshold to its
//! own, and the estimate after each rate update to the bound from every point since the last call that broke the steady stretch.
use crate::bwe::link::{self, Link, Lists};
use crate::make::{Maker, Random};

const NORMAL: u64 = 1;

pub fn demand3(seed: u64, count: u64) {
    let mut r = Random::from_seed(seed);
    let mut maker = Maker::default();
    let mut link = link::open(1e6, 500_000_000, 150_000_000).ok().unwrap();
    let mut lists = Lists::default();
    let mut stretch = Stretch::default();
    let (mut updates, mut near, mut bounds, mut longest) = (0u64, 0u64, 0u64, 0usize);
    let mut call = 0;
    while call < count {
        let (op, i) = maker.link(&mut r, if seed % 2 == 0 { 30_000 } else { 3_000 }, 10_000);
        let update = match op {
            90 => {
                if let Ok(opened) = link::open(f64::from_bits(i[0]), i[1], i[2]) {
                    link = opened;
                    stretch = Stretch::default();
                }
                continue;
            }
            91 => {
                for (list, x) in lists.iter_mut().zip(i) {
                    list.push(x);
                }
                continue;
            }
            92 => report(&mut link, std::mem::take(&mut lists), i),
            _ => timeout(&mut link, i[0]),
        };
        call += 1;
        let s = link.shown();
        let (estimate, threshold) = (f64::from_bits(s[0]), f64::from_bits(s[3]));
        assert!((40_000.0..=1e10).contains(&estimate) && (6.0..=600.0).contains(&threshold), "call {call}: {estimate} {threshold}");
        match update {
            Handed::Probe => stretch = Stretch::default(),
            Handed::Update(usage, _) if usage != NORMAL => stretch = Stretch::default(),
            Handed::Update(_, observed) => {
                updates += 1;
                near += link.control.increases_near_convergence() as u64;
                bounds += stretch.check(estimate, observed, call);
                longest = longest.max(stretch.0.len());
            }
            Handed::Nothing => {}
        }
        stretch.point(estimate);
    }
    println!("{count} calls, seed {seed}: {updates} rate updates under a normal hypothesis, {near} of them increases near convergence, {bounds} bounds held, the longest stretch {longest} points");
}

enum Handed {
    Probe,
    Update(u64, f64),
    Nothing,
}

fn handed(link: &Link) -> Handed {
    let s = link.shown();
    if s[4] == 0 { Handed::Nothing } else { Handed::Update(s[1] & 255, f64::from_bits(s[4])) }
}

fn report(link: &mut Link, mut lists: Lists, i: [u64; 5]) -> Handed {
    if i[3] > 0 {
        lists[i[3] as usize - 1].pop();
    }
    if link.report(&lists, (i[0] == 1).then(|| f64::from_bits(i[1])), i[2]) != 0 {
        return Handed::Nothing;
    }
    if i[0] == 1 { Handed::Probe } else { handed(link) }
}

fn timeout(link: &mut Link, now: u64) -> Handed {
    let hands_on = now <= 1_000_000_000_000_000_000 && link.hands_on(now);
    if link.timeout(now) != 0 || !hands_on { Handed::Nothing } else { handed(link) }
}

/// The points of a steady stretch, at most 400 of them: estimate, how many updates since, and the least observed rate since.
#[derive(Default)]
struct Stretch(std::collections::VecDeque<(f64, u64, f64)>);

impl Stretch {
    fn point(&mut self, estimate: f64) {
        self.0.push_back((estimate, 0, f64::INFINITY));
        if self.0.len() > 400 {
            // The oldest points are the most telling: one in the middle goes.
            self.0.remove(200);
        }
    }

    fn check(&mut self, estimate: f64, observed: f64, call: u64) -> u64 {
        for (e, n, least) in self.0.iter_mut() {
            *least = least.min(observed);
            // After n + 1 updates. The sum is rounded, so it is let off by one unit in the last place.
            let sum = *e + 999.0 * *n as f64;
            let bound = f64::from_bits(sum.to_bits() - 1).min(1.5 * *least).min(1e10);
            assert!(estimate >= bound, "call {call}: from {e}, {n} updates and one more, least observed {least}: {estimate}");
            *n += 1;
        }
        self.0.len() as u64
    }
}
