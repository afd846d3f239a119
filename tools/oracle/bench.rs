//! Times the proved library's listing beside the Rust's, from one driver, on the same pass files (tools/bench). The two listings must be equal.
use crate::bwe::link::{self, Told};
use crate::bwe::pass::{self, MOST_RECORDS, SHORT_RECORDS};
use crate::bwe::AckedPacket;
use crate::make::Random;
use std::hint::black_box;
use std::time::Instant;

unsafe extern "C" {
    fn hornetpewter_list(file: *const u8, file_length: usize, out: *mut u8, out_length: usize) -> i64;
    fn hornetpewter_open(link: *mut [u64; 100], start_bitrate: f64, initial_window: u64, window: u64) -> i64;
    fn hornetpewter_report(
        link: *mut [u64; 100],
        sequences: *const u64,
        sequences_length: usize,
        sizes: *const u64,
        sizes_length: usize,
        sends: *const u64,
        sends_length: usize,
        remotes: *const u64,
        remotes_length: usize,
        receives: *const u64,
        receives_length: usize,
        has_probe: u32,
        probe: f64,
        now: u64,
        bitrate: *mut f64,
        hypothesis: *mut u32,
        next_timeout: *mut u64,
    ) -> i64;
    fn hornetpewter_timeout(link: *mut [u64; 100], now: u64, bitrate: *mut f64, hypothesis: *mut u32, next_timeout: *mut u64) -> i64;
    fn hornetpewter_read(link: *const [u64; 100], bitrate: *mut f64, hypothesis: *mut u32, next_timeout: *mut u64, threshold: *mut f64) -> i64;
}

const MS: u64 = 1_000_000;

/// A packet, report or timeout: kind, size, sequence, send, remote, receive or now.
type Record = (u8, u16, u64, u64, u64, u64);

fn report(now: u64) -> Record {
    (2, 0, 0, 0, 0, now)
}

fn timeout(now: u64) -> Record {
    (3, 0, 0, 0, 0, now)
}

/// 30 frames a second, 5 packets each, over a path that keeps their order with up to 3 ms of jitter; a report every 50 ms, and 25 ms after it the timeout that is due.
/// At most so many records.
fn typical(most: usize) -> Vec<Record> {
    let mut r = Random::from_seed(1);
    let (mut records, mut waiting, mut last, mut sequence) = (vec![], std::collections::VecDeque::new(), 0, 0);
    for ms in 0.. {
        let now = (1000 + ms) * MS;
        if ms % 100 % 33 == 0 && ms % 100 != 99 {
            for i in 0..5 {
                let send = now + i * MS / 2;
                last = (send + 20 * MS + r.below(3 * MS)).max(last + MS / 10);
                waiting.push_back((1, 1200, sequence, send, last, last + 25 * MS));
                sequence += 1;
            }
        }
        if ms % 50 == 49 {
            let n = waiting.iter().take_while(|p| p.5 <= now).count();
            if records.len() + n + 2 > most {
                return records;
            }
            records.extend(waiting.drain(..n));
            records.push(report(now));
        } else if ms % 50 == 24 {
            records.push(timeout(now));
        }
    }
    unreachable!()
}

/// One report of 1,024 packets, a millisecond apart, in the order that is given.
fn large(order: impl Iterator<Item = u64>) -> Vec<Record> {
    let mut records: Vec<Record> = order.map(|i| (1, 1200, i, (1000 + i) * MS, (1020 + i) * MS, (1040 + i) * MS)).collect();
    records.push(report(3000 * MS));
    records
}

fn shuffled() -> Vec<u64> {
    let mut r = Random::from_seed(1);
    let mut order: Vec<u64> = (0..1024).collect();
    for i in (1..order.len()).rev() {
        order.swap(i, r.below(i as u64 + 1) as usize);
    }
    order
}

fn file(records: &[Record]) -> Vec<u8> {
    let mut file = vec![];
    for (i, (kind, size, sequence, send, remote, receive)) in records.iter().enumerate() {
        let next = if i + 1 == records.len() { 0 } else { i as u32 + 2 };
        file.extend(next.to_le_bytes());
        file.extend([*kind, 0]);
        file.extend(size.to_le_bytes());
        for word in [*sequence, *send, *remote, *receive, 0] {
            file.extend(word.to_le_bytes());
        }
    }
    file
}

fn ours(file: &[u8], out: &mut [u8]) -> usize {
    let n = unsafe { hornetpewter_list(file.as_ptr(), file.len(), out.as_mut_ptr(), out.len()) };
    assert!(n >= 0, "refused with {}", -n);
    n as usize
}

/// The calls of a pass on a lent link, as a gateway makes them: packets gathered in five lists.
fn live_ours(records: &[Record], link: &mut [u64; 100], mut told: impl FnMut(Told)) {
    let (mut bitrate, mut hypothesis, mut next) = (0.0, 0, 0);
    let (mut lists, mut n) = ([[0; 1024]; 5], 0);
    unsafe {
        hornetpewter_open(link, 1e6, 500 * MS, 150 * MS);
        for &(kind, size, sequence, send, remote, receive) in records {
            if kind == 1 {
                for (list, x) in lists.iter_mut().zip([sequence, size as u64, send, remote, receive]) {
                    list[n] = x;
                }
                n += 1;
                continue;
            }
            let code = if kind == 2 {
                let [a, b, c, d, e] = lists.each_ref().map(|list| list.as_ptr());
                let code = hornetpewter_report(link, a, n, b, n, c, n, d, n, e, n, 0, 0.0, receive, &mut bitrate, &mut hypothesis, &mut next);
                n = 0;
                code
            } else {
                hornetpewter_timeout(link, receive, &mut bitrate, &mut hypothesis, &mut next)
            };
            assert!(code == 0, "refused with {}", -code);
            told((bitrate, hypothesis, next));
        }
    }
}

/// A packet for the Rust, or a call's moment: what a gateway with the Rust's objects has at hand.
enum Event {
    Packet(AckedPacket),
    Report(u64),
    Timeout(u64),
}

fn events(records: &[Record]) -> Vec<Event> {
    let event = |&(kind, size, sequence, send, remote, receive): &Record| match kind {
        1 => Event::Packet(pass::packet(sequence, size as u64, send, remote, receive)),
        2 => Event::Report(receive),
        _ => Event::Timeout(receive),
    };
    records.iter().map(event).collect()
}

/// The same calls on the Rust's objects.
fn live_rust(events: &[Event], mut told: impl FnMut(Told)) {
    let mut link = link::open(1e6, 500 * MS, 150 * MS).ok().unwrap();
    let mut waiting = vec![];
    for event in events {
        match event {
            Event::Packet(p) => {
                waiting.push(*p);
                continue;
            }
            Event::Report(now) => link.update(std::mem::take(&mut waiting), None, *now),
            Event::Timeout(now) => {
                link.timeout(*now);
            }
        }
        told(link.told());
    }
}

/// The least time of one listing, in ns.
fn timed(turns: u32, mut list: impl FnMut()) -> f64 {
    let start = Instant::now();
    for _ in 0..turns {
        list();
    }
    start.elapsed().as_nanos() as f64 / turns as f64
}

fn passes() -> [(&'static str, Vec<Record>); 6] {
    [
        ("typical", typical(SHORT_RECORDS)),
        ("typical, up to 65,535 records", typical(MOST_RECORDS)),
        ("1,024 packets in order", large(0..1024)),
        ("1,024 packets, last first", large((0..1024).rev())),
        ("1,024 packets, shuffled", large(shuffled().into_iter())),
        ("timeouts only", (0..SHORT_RECORDS as u64).map(|i| timeout((1000 + 25 * i) * MS)).collect()),
    ]
}

/// Listings a round: one of some 65,535 records takes longer than 20 of the other passes.
fn turns_a_round(records: &[Record]) -> u32 {
    if records.len() > SHORT_RECORDS { 1 } else { 20 }
}

/// Lists one pass so many times on one side, for a count of instructions.
pub fn turns(name: &str, side: &str, turns: u32) {
    let (_, records) = passes().into_iter().find(|(n, _)| *n == name).expect("no such pass");
    let file = file(&records);
    let mut out = vec![0; pass::least_output(records.len()) as usize];
    let mut theirs = Vec::with_capacity(out.len());
    let events = events(&records);
    for _ in 0..turns {
        match side {
            "ours" => {
                ours(&file, &mut out);
            }
            "live" => live_ours(&records, &mut [0; 100], |t| {
                black_box(t);
            }),
            "live_Rust" => live_rust(&events, |t| {
                black_box(t);
            }),
            _ => {
                theirs.clear();
                pass::list_plain(&file, &mut theirs);
            }
        }
    }
}

/// Prints a line a pass: its packets, its calls, and the least time of a listing on both sides, in ns.
pub fn times(rounds: u32) {
    for (name, records) in passes() {
        let file = file(&records);
        let mut out = vec![0; pass::least_output(records.len()) as usize];
        let n = ours(&file, &mut out);
        let mut theirs = Vec::with_capacity(out.len());
        pass::list_plain(&file, &mut theirs);
        assert!(out[..n] == theirs[..], "{name}: the listings differ");
        let (turns, mut a, mut b) = (turns_a_round(&records), f64::INFINITY, f64::INFINITY);
        for _ in 0..rounds {
            a = a.min(timed(turns, || {
                black_box(ours(black_box(&file), &mut out));
            }));
            b = b.min(timed(turns, || {
                theirs.clear();
                pass::list_plain(black_box(&file), black_box(&mut theirs));
            }));
        }
        let packets = records.iter().filter(|r| r.0 == 1).count();
        println!("{name}\t{packets}\t{}\t{a}\t{b}", records.len() - packets);
    }
    for (name, records) in passes() {
        let events = events(&records);
        let (mut link, mut said, mut theirs) = ([0; 100], vec![], vec![]);
        live_ours(&records, &mut link, |t| said.push(t));
        live_rust(&events, |t| theirs.push(t));
        assert!(said == theirs, "{name}: the live calls differ");
        let (turns, mut a, mut b) = (turns_a_round(&records), f64::INFINITY, f64::INFINITY);
        for _ in 0..rounds {
            a = a.min(timed(turns, || {
                live_ours(black_box(&records), &mut link, |t| {
                    black_box(t);
                })
            }));
            b = b.min(timed(turns, || {
                live_rust(black_box(&events), |t| {
                    black_box(t);
                })
            }));
        }
        let packets = records.iter().filter(|r| r.0 == 1).count();
        println!("live: {name}\t{packets}\t{}\t{a}\t{b}", records.len() - packets);
    }
    alone(rounds);
}

/// The least times of reading a link after the typical pass (words to a link, question 1) and of opening one (a link to words).
fn alone(rounds: u32) {
    let (mut link, mut other) = ([0; 100], [0; 100]);
    live_ours(&typical(SHORT_RECORDS), &mut link, |_| ());
    let (mut bitrate, mut hypothesis, mut next, mut threshold) = (0.0, 0, 0, 0.0);
    let (mut read, mut open) = (f64::INFINITY, f64::INFINITY);
    for _ in 0..rounds {
        read = read.min(timed(1000, || {
            let code = unsafe { hornetpewter_read(black_box(&link), &mut bitrate, &mut hypothesis, &mut next, &mut threshold) };
            assert!(code == 0, "refused with {}", -code);
        }));
        open = open.min(timed(1000, || {
            black_box(unsafe { hornetpewter_open(black_box(&mut other), 1e6, 500 * MS, 150 * MS) });
        }));
    }
    println!("live: read\t0\t1\t{read}\tNaN");
    println!("live: open\t0\t1\t{open}\tNaN");
}

/// Name, packets, calls, and the times of the two sides.
pub type Line = (String, usize, usize, f64, f64);

/// The lines of a command with the least times of several processes: where a process has its stack and its buffers, which differs from one to the next, changes a time by some 8 %.
pub fn least(command: &str, processes: u32, rounds: u32) -> Vec<Line> {
    let mut least: Vec<Line> = vec![];
    for _ in 0..processes {
        let me = std::env::current_exe().expect("no path of this program");
        let run = std::process::Command::new(me).args([command, &rounds.to_string()]).output().expect("a process was not started");
        assert!(run.status.success(), "{}", String::from_utf8_lossy(&run.stderr));
        for (i, line) in String::from_utf8_lossy(&run.stdout).lines().enumerate() {
            let f: Vec<&str> = line.split('\t').collect();
            let (a, b) = (f[3].parse().unwrap(), f[4].parse().unwrap());
            if i == least.len() {
                least.push((f[0].into(), f[1].parse().unwrap(), f[2].parse().unwrap(), a, b));
            } else {
                least[i].3 = least[i].3.min(a);
                least[i].4 = least[i].4.min(b);
            }
        }
    }
    least
}

pub fn bench(processes: u32, rounds: u32) {
    println!("{:<36} {:>7} {:>5} {:>19} {:>19} {:>6}", "", "", "", "ns a packet", "ns a call", "");
    println!("{:<36} {:>7} {:>5} {:>9} {:>9} {:>9} {:>9} {:>6}", "pass", "packets", "calls", "ours", "Rust", "ours", "Rust", "ratio");
    for (name, packets, calls, a, b) in least("times", processes, rounds) {
        let each = |time: f64, n: usize| if n == 0 || time.is_nan() { "-".into() } else { format!("{:.1}", time / n as f64) };
        let ratio = if b.is_nan() { "-".into() } else { format!("{:.2}", a / b) };
        println!("{name:<36} {packets:>7} {calls:>5} {:>9} {:>9} {:>9} {:>9} {ratio:>6}", each(a, packets), each(b, packets), each(a, calls), each(b, calls));
    }
}
