//! Makes the answers that the program `float_vectors` compares the float helpers with, by Rust's own `f64` and `Duration`:
//!
//!     rustc -O -o target/make_float_vectors tools/float_vectors.rs && target/make_float_vectors crates/float_vectors/data
//!
//! One file a function. A record is the inputs and then the answer, each 8 bytes, little-endian: a float by its bits, with
//! 7ff8000000000000 for every NaN; ns as a number; a bool as 0 or 1. Inputs that Rust answers with a panic, or leaves open
//! (the minimum and the maximum of two zeros of unlike sign), are left out. The same inputs come out at every run.
//! It needs optimisation for no answer, and nothing but rustc.
use std::collections::BTreeSet;
use std::time::Duration;

struct Random(u64);

impl Random {
    // xorshift64*
    fn next(&mut self) -> u64 {
        self.0 ^= self.0 >> 12;
        self.0 ^= self.0 << 25;
        self.0 ^= self.0 >> 27;
        self.0.wrapping_mul(0x2545_f491_4f6c_dd1d)
    }
}

const SIGN: u64 = 1 << 63;
const DIGITS: u64 = (1 << 52) - 1;
const INFINITY: u64 = 0x7ff << 52;

fn bits(x: f64) -> u64 {
    if x.is_nan() { 0x7ff8_0000_0000_0000 } else { x.to_bits() }
}

// A value and both its neighbours.
fn around(set: &mut BTreeSet<u64>, b: u64) {
    for c in [b.wrapping_sub(1), b, b.wrapping_add(1)] {
        set.insert(bits(f64::from_bits(c)));
    }
}

// Zeros, infinities, NaN, the ends of the subnormal and the normal range, 1, and limits of the estimator.
fn special() -> BTreeSet<u64> {
    let mut set = BTreeSet::new();
    for b in [0, 1, 2, DIGITS - 1, DIGITS, 1 << 52, (1 << 52) + 1, INFINITY - 1, INFINITY, 0x7ff8_0000_0000_0000] {
        set.insert(bits(f64::from_bits(b)));
        set.insert(bits(f64::from_bits(b | SIGN)));
    }
    for x in [0.5, 1.0, 1.5, 2.0, 6.0, 600.0, 1000.0, 40_000.0, 1e6, 1e9, 1e10, 1e12, 1e14, 1e18, 1e30, 1e31, 0.85, 0.95, 1.08] {
        around(&mut set, f64::to_bits(x));
        around(&mut set, f64::to_bits(-x));
    }
    set
}

// Both signs of every exponent, with the least, the greatest, a middle and a random significand, and the neighbours of the least.
fn exponents(random: &mut Random) -> BTreeSet<u64> {
    let mut set = BTreeSet::new();
    for e in 0..0x7ffu64 {
        for d in [0, DIGITS, 1 << 51, random.next() & DIGITS] {
            set.insert(e << 52 | d);
            set.insert(SIGN | e << 52 | d);
        }
        around(&mut set, e << 52);
    }
    set
}

fn random_bits(random: &mut Random, n: usize) -> BTreeSet<u64> {
    (0..n).map(|_| bits(f64::from_bits(random.next()))).collect()
}

fn subnormals(random: &mut Random, n: usize) -> BTreeSet<u64> {
    (0..n).map(|_| (random.next() & DIGITS) >> (random.next() % 52)).collect()
}

// Squares of floats, and squares of midpoints of two floats, rounded, with their neighbours: where a root is nearest to a tie.
fn squares(random: &mut Random, n: usize) -> BTreeSet<u64> {
    let mut set = BTreeSet::new();
    for _ in 0..n {
        let q = 1u128 << 52 | (random.next() & DIGITS) as u128;
        let e = (random.next() % 900) as i32 - 450;
        let two = 2f64.powi(e);
        around(&mut set, f64::to_bits(((2 * q + 1) * (2 * q + 1)) as f64 * two * two));
        around(&mut set, f64::to_bits((q * q) as f64 * two * two));
    }
    for i in 0..1000u64 {
        around(&mut set, f64::to_bits((i * i) as f64));
    }
    set
}

// Whole numbers and halves with their neighbours, small and near 2^52 and 2^53.
fn wholes(random: &mut Random, n: usize) -> BTreeSet<u64> {
    let mut set = BTreeSet::new();
    for i in 0..n as u64 {
        for x in [i as f64, i as f64 + 0.5, (1u64 << (random.next() % 54)) as f64 - 0.5 + i as f64] {
            around(&mut set, f64::to_bits(x));
            around(&mut set, f64::to_bits(-x));
        }
    }
    set
}

// Seconds: ties of half a ns (odd numbers of 1/1024 s), whole ns and their neighbours, up to what a u64 holds.
fn seconds(random: &mut Random) -> BTreeSet<u64> {
    let mut set = BTreeSet::new();
    for i in 0..1500u64 {
        around(&mut set, f64::to_bits((2 * i + 1) as f64 / 1024.0));
        around(&mut set, f64::to_bits(i as f64 * 1e-9));
        around(&mut set, f64::to_bits((i as f64 + 0.5) * 1e-9));
        let j = random.next() % (1 << 40);
        around(&mut set, f64::to_bits((2 * j + 1) as f64 / 1024.0));
    }
    for e in 0..40 {
        around(&mut set, f64::to_bits(2f64.powi(e)));
        around(&mut set, f64::to_bits(2f64.powi(-e)));
        around(&mut set, f64::to_bits(10f64.powi(e / 4)));
    }
    for _ in 0..6_000 {
        set.insert(f64::to_bits((random.next() >> (random.next() % 64)) as f64 / 1e9));
        set.insert((1023 - 40 + random.next() % 75) << 52 | random.next() & DIGITS);
    }
    set
}

fn nanoseconds(random: &mut Random) -> BTreeSet<u64> {
    let mut set = BTreeSet::new();
    for i in 0..64 {
        for n in [1u64 << i, (1u64 << i) - 1, (1u64 << i) + 1] {
            set.insert(n);
        }
    }
    for i in 0..2000u64 {
        let s = (random.next() >> (30 + random.next() % 34)).min(18_446_744_072) * 1_000_000_000;
        for n in [s, s + 1, s + 999_999_999, s + 500_000_000, i * 1_000_000, i * 1_000_000 + 1] {
            set.insert(n);
        }
        set.insert(random.next());
        set.insert(random.next() >> (random.next() % 64));
    }
    set
}

fn pairs(random: &mut Random, n: usize) -> Vec<(f64, f64)> {
    let special: Vec<u64> = special().into_iter().collect();
    let mut list = Vec::new();
    for &a in &special {
        for &b in special.iter().step_by(3) {
            list.push((f64::from_bits(a), f64::from_bits(b)));
        }
    }
    for _ in 0..n {
        let a = f64::from_bits(random.next());
        list.push((a, f64::from_bits(random.next())));
        list.push((a, f64::from_bits(a.to_bits().wrapping_add(random.next() % 3))));
    }
    list
}

fn unlike_zeros(a: f64, b: f64) -> bool {
    a == 0.0 && b == 0.0 && a.to_bits() != b.to_bits()
}

fn write(dir: &str, name: &str, records: Vec<Vec<u64>>) {
    let bytes: Vec<u8> = records.iter().flatten().flat_map(|w| w.to_le_bytes()).collect();
    std::fs::write(format!("{dir}/{name}"), bytes).unwrap();
    println!("{name} {}", records.len());
}

fn main() {
    let dir = std::env::args().nth(1).expect("the folder to write to");
    let mut random = Random(0x9e37_79b9_7f4a_7c15);
    let r = &mut random;
    let mut values = special();
    values.extend(exponents(r));
    values.extend(random_bits(r, 4_000));
    values.extend(subnormals(r, 2_000));

    let mut roots = values.clone();
    roots.extend(squares(r, 3_000));
    let root = |v: &u64| vec![*v, bits(f64::from_bits(*v).sqrt())];
    write(&dir, "sqrt", roots.iter().map(root).collect());

    let mut tests = Vec::new();
    for &v in roots.iter().step_by(11) {
        let d = f64::from_bits(v).sqrt().to_bits();
        for b in [d, d.wrapping_add(1), d.wrapping_sub(1)] {
            tests.push((bits(f64::from_bits(b)), v));
        }
    }
    for &v in &special() {
        for &d in &special() {
            tests.push((d, v));
        }
    }
    let test = |t: &(u64, u64)| vec![t.0, t.1, (f64::from_bits(t.0) == f64::from_bits(t.1).sqrt()) as u64];
    write(&dir, "is_sqrt", tests.iter().map(test).collect());

    let mut ceils = values.clone();
    ceils.extend(wholes(r, 600));
    write(&dir, "ceil", ceils.iter().map(|v| vec![*v, bits(f64::from_bits(*v).ceil())]).collect());
    write(&dir, "abs", values.iter().step_by(5).map(|v| vec![*v, bits(f64::from_bits(*v).abs())]).collect());

    let two: Vec<(f64, f64)> = pairs(r, 3_000).into_iter().filter(|p| !unlike_zeros(p.0, p.1)).collect();
    write(&dir, "min", two.iter().map(|p| vec![bits(p.0), bits(p.1), bits(p.0.min(p.1))]).collect());
    write(&dir, "max", two.iter().map(|p| vec![bits(p.0), bits(p.1), bits(p.0.max(p.1))]).collect());

    let mut clamps = Vec::new();
    for (i, p) in pairs(r, 2_000).into_iter().enumerate() {
        let x = if i % 2 == 0 { f64::from_bits(r.next()) } else { f64::from_bits(p.0.to_bits().wrapping_sub(r.next() % 3)) };
        if p.0 <= p.1 {
            clamps.push(vec![bits(x), bits(p.0), bits(p.1), bits(x.clamp(p.0, p.1))]);
        }
    }
    write(&dir, "clamp", clamps);

    let ns = nanoseconds(r);
    write(&dir, "as_secs_f64", ns.iter().map(|n| vec![*n, bits(Duration::from_nanos(*n).as_secs_f64())]).collect());

    let mut from = Vec::new();
    for v in seconds(r) {
        if let Ok(d) = Duration::try_from_secs_f64(f64::from_bits(v)) {
            if d.as_nanos() < 1 << 64 {
                from.push(vec![v, d.as_nanos() as u64]);
            }
        }
    }
    write(&dir, "from_secs_f64", from);
}
