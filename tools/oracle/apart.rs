//! How far estimates part from the unaltered Rust's. A trace is what a link shows after each accepted call, five words of 8 bytes: which link, the moment, the estimate, whether it
//! increases near convergence, the other answers (hypothesis with counts, next timeout, threshold, acknowledged rate) as one number. Two builds' traces of the same calls are held side by side.
use crate::bwe::drive::States;
use crate::bwe::link::Link;
use crate::bwe::pass;
use crate::make::{Maker, Random};
use std::hash::{DefaultHasher, Hash, Hasher};
use std::io::{BufWriter, Read, Write};

type Call = [u64; 5];

fn write_call(out: &mut impl Write, which: u64, now: u64, link: &Link) {
    let s = link.shown();
    let mut others = DefaultHasher::new();
    s[1..].hash(&mut others);
    for word in [which, now, s[0], link.control.increases_near_convergence() as u64, others.finish()] {
        out.write_all(&word.to_le_bytes()).unwrap();
    }
}

fn trace(cases: impl Iterator<Item = (u64, [u64; 5])>) {
    let mut out = BufWriter::with_capacity(1 << 20, std::io::stdout().lock());
    let (mut states, mut which) = (States::new(), 0);
    for (op, i) in cases {
        let number = states.run(op, i)[0];
        match op {
            90 => which += (number == 0) as u64,
            92 if number == 0 => write_call(&mut out, which, i[2], &states.link),
            93 if number == 0 => write_call(&mut out, which, i[0], &states.link),
            _ => {}
        }
    }
}

/// The trace of the cases that `make link` makes.
pub fn trace_links(seed: u64, count: u64) {
    let (mut r, mut maker) = (Random::from_seed(seed), Maker::default());
    trace((0..count).map(|_| maker.link(&mut r, 30_000, 40)));
}

/// The trace of the pass file on standard input, which must be a good one.
pub fn trace_pass() {
    let mut file = vec![];
    std::io::stdin().lock().read_to_end(&mut file).unwrap();
    trace(pass::cases(&file).into_iter());
}

fn calls(name: &str) -> Vec<Call> {
    let file = std::fs::read(name).unwrap();
    let word = |bytes: &[u8]| u64::from_le_bytes(bytes.try_into().unwrap());
    file.chunks(40).map(|call| std::array::from_fn(|i| word(&call[i * 8..][..8]))).collect()
}

/// Nearer than this the growth table and `powf` alone may have taken them apart.
const EQUAL: f64 = 1e-9;

/// Two traces, the first of ours, the second of the unaltered Rust.
pub fn apart(ours: &str, rust: &str) {
    let (ours, rust) = (calls(ours), calls(rust));
    assert!(ours.len() == rust.len(), "the traces are not of one length");
    let (mut links, mut ahead, mut behind, mut others, mut most, mut least) = (0, 0, 0, 0, 1f64, 1f64);
    let mut stretch = Stretch::default();
    for (i, (x, y)) in ours.iter().zip(&rust).enumerate() {
        assert!(x[..2] == y[..2], "not the same calls");
        if i == 0 || ours[i - 1][0] != x[0] {
            links += 1;
            stretch.end();
            stretch.equal = true;
        }
        let ratio = f64::from_bits(x[2]) / f64::from_bits(y[2]);
        ahead += (ratio > 1.0 + EQUAL) as u64;
        behind += (ratio < 1.0 - EQUAL) as u64;
        others += (x[4] != y[4]) as u64;
        (most, least) = (most.max(ratio), least.min(ratio));
        stretch.call(x[3] == 1, ratio, x[1]);
    }
    stretch.end();
    println!("{} calls, {links} links: after {ahead} of them ours is ahead, after {behind} behind, from {least:.4} to {most:.4} times the Rust's; {others} differ in another answer", ours.len());
    stretch.print();
}

/// Unbroken increases near convergence that begin with equal estimates, until ours is ahead.
#[derive(Default)]
struct Stretch {
    equal: bool,
    /// How many calls so far, and the moment of the first.
    so_far: Option<(u64, u64)>,
    /// How many calls it took, and how many ms after the first.
    ahead: Vec<(u64, u64)>,
    ended: u64,
}

impl Stretch {
    fn call(&mut self, near: bool, ratio: f64, now: u64) {
        if !near {
            self.end();
        } else if self.so_far.is_some() || self.equal {
            let (count, first) = self.so_far.unwrap_or((0, now));
            self.so_far = Some((count + 1, first));
            if ratio > 1.0 + EQUAL {
                self.ahead.push((count + 1, now.saturating_sub(first) / 1_000_000));
                self.so_far = None;
            }
        }
        self.equal = (ratio - 1.0).abs() <= EQUAL;
    }

    fn end(&mut self) {
        self.ended += self.so_far.take().is_some() as u64;
    }

    fn print(&mut self) {
        self.ahead.sort();
        let n = self.ahead.len();
        println!("  {} stretches of increases near convergence begin with equal estimates; {} end so", n as u64 + self.ended, self.ended);
        if n > 0 {
            let ((least, _), (middle, ms), (most, _)) = (self.ahead[0], self.ahead[n / 2], self.ahead[n - 1]);
            println!("  in the other {n} ours is ahead with call {least} at the earliest, with call {middle} ({ms} ms after the first) in the middle one, with call {most} at the latest");
        }
    }
}
