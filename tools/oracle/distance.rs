//! Two files of cases with the same inputs: how often an estimate differs, by how many units in the last place and by which part of it at most; and how many
//! cases differ in another answer.
use std::fs::read;
use std::time::Duration;

#[derive(Default)]
struct Distance {
    cases: u64,
    apart: u64,
    units: u64,
    part: f64,
    others: u64,
}

impl Distance {
    fn count(&mut self, x: u64, y: u64, same_otherwise: bool) {
        self.cases += 1;
        self.others += !same_otherwise as u64;
        if x != y {
            self.apart += 1;
            self.units = self.units.max(x.abs_diff(y));
            self.part = self.part.max((f64::from_bits(x) - f64::from_bits(y)).abs() / f64::from_bits(x));
        }
    }

    fn print(&self, what: &str) {
        let Distance { cases, apart, units, part, others } = self;
        println!("{cases} {what}: {apart} estimates differ, by at most {units} units in the last place and {part:.2e} of the estimate; {others} differ in another answer");
    }
}

pub fn distance(a: &str, b: &str) {
    let (a, b) = (read(a).unwrap(), read(b).unwrap());
    assert!(a.len() == b.len() && a.len() % 96 == 0, "the files are not of one length");
    let word = |file: &[u8], case: usize, i: usize| u64::from_le_bytes(file[case * 96 + i * 8..][..8].try_into().unwrap());
    let mut d = Distance::default();
    for case in 0..a.len() / 96 {
        assert!((0..6).all(|i| word(&a, case, i) == word(&b, case, i)), "case {case}: not the same inputs");
        d.count(word(&a, case, 6), word(&b, case, 6), (7..12).all(|i| word(&a, case, i) == word(&b, case, i)));
    }
    d.print("cases");
}

/// The same of two files of pass files with their listings.
pub fn listings(a: &str, b: &str) {
    let (a, b) = (read(a).unwrap(), read(b).unwrap());
    assert!(a.len() == b.len(), "the files are not of one length");
    let word = |file: &[u8], place: usize| u32::from_le_bytes(file[place..place + 4].try_into().unwrap()) as usize;
    let mut d = Distance::default();
    let mut place = 0;
    while place < a.len() {
        let (file, listing) = (word(&a, place), word(&a, place + 12));
        assert!(a[place..place + 20 + file] == b[place..place + 20 + file], "not the same pass files");
        place += 20 + file;
        let text = |file: &[u8]| String::from_utf8(file[place..place + listing].to_vec()).unwrap();
        for (x, y) in text(&a).lines().zip(text(&b).lines()) {
            let (x, y): (Vec<&str>, Vec<&str>) = (x.split(' ').collect(), y.split(' ').collect());
            let bits = |word: &str| u64::from_str_radix(word, 16).unwrap();
            d.count(bits(x[3]), bits(y[3]), x[..3] == y[..3] && x[4] == y[4]);
        }
        place += listing;
    }
    d.print("lines");
}

pub fn entries() {
    let apart = |ms: u64| {
        let since = Duration::from_millis(ms);
        let powf = std::hint::black_box(1.08f64).powf(since.as_secs_f64());
        crate::growth_factor(since).to_bits().abs_diff(powf.to_bits())
    };
    let count = (0..=1000).filter(|ms| apart(*ms) > 0).count();
    println!("of 1,001 entries {count} differ from powf, by at most {} units in the last place", (0..=1000).map(apart).max().unwrap());
}
