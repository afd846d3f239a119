//! Times the proved library's reading of feedback messages beside the Rust's, from one driver, on the same messages (tools/bench). Both must tell the same packets.
use crate::bench::least;
use crate::feedback::{self, time_zero, Answer, Header, Parts, EXTEND_FROM};
use crate::feedback_make::{received, written};
use crate::make::Random;
use crate::rtcp::twcc::Twcc;
use crate::rtp_::TwccSeq;
use std::hint::black_box;
use std::time::Instant;

unsafe extern "C" {
    fn hornetpewter_feedback_start(
        message: *const u8,
        length: usize,
        reader: *mut [u64; 7],
        base_seq: *mut u16,
        status_count: *mut u16,
        reference_time: *mut i32,
        feedback_count: *mut u8,
    ) -> i64;
    fn hornetpewter_feedback_next(
        message: *const u8,
        length: usize,
        reader: *mut [u64; 7],
        sequence: *mut u16,
        statuses: *mut u8,
        statuses_length: usize,
        ticks: *mut i32,
        ticks_length: usize,
    ) -> i64;
}

/// What a gateway keeps to read messages with: lists of so many packets.
struct Lists {
    statuses: Vec<u8>,
    ticks: Vec<i32>,
}

impl Lists {
    fn of(packets: usize) -> Self {
        Lists { statuses: vec![0; packets], ticks: vec![0; packets] }
    }
}

/// As receivers write them: bursts of one to eight packets, 0 to 3 ticks apart, 20 to 79 between bursts. The typical message has 3 of 50 lost and no large delta; the others have
/// some 5 % lost and some 1 % large deltas.
fn messages() -> [(&'static str, Vec<u8>); 3] {
    let mut r = Random::from_seed(1);
    let mut typical = received(&mut r, 50, 0, 0);
    for place in [11, 12, 33] {
        typical[place] = None;
    }
    let mut like = |n| written(65_000, 1000, 7, &received(&mut r, n, 50, 10));
    [("typical, 3 of 50 lost", written(65_000, 1000, 7, &typical)), ("1,000 statuses", like(1000)), ("65,535 statuses", like(65_535))]
}

fn start(message: &[u8], reader: &mut [u64; 7]) -> Header {
    let mut h = Header { base: 0, count: 0, reference: 0, feedback: 0 };
    let code = unsafe { hornetpewter_feedback_start(message.as_ptr(), message.len(), reader, &mut h.base, &mut h.count, &mut h.reference, &mut h.feedback) };
    assert!(code == 0, "refused with {}", -code);
    h
}

/// All packets, as many a call as the lists have places for; what a call left in them is told.
fn ours(message: &[u8], lists: &mut Lists, mut told: impl FnMut(u16, &[u8], &[i32])) -> Header {
    let (mut reader, mut sequence) = ([0; 7], 0);
    let header = start(message, &mut reader);
    let (statuses, ticks) = (&mut lists.statuses, &mut lists.ticks);
    loop {
        let (s, t) = (statuses.as_mut_ptr(), ticks.as_mut_ptr());
        let n = unsafe { hornetpewter_feedback_next(message.as_ptr(), message.len(), &mut reader, &mut sequence, s, statuses.len(), t, ticks.len()) };
        if n == 0 {
            return header;
        }
        told(sequence, &statuses[..n as usize], &ticks[..n as usize]);
    }
}

/// The Rust's message has the two identifiers in front. Its packets go to a list too.
fn rust(whole: &[u8], zero: Instant, packets: &mut Vec<(TwccSeq, Option<Instant>)>) {
    packets.clear();
    packets.extend(Twcc::try_from(whole).unwrap().into_iter(zero, EXTEND_FROM).map(|(sequence, _, instant)| (sequence, instant)));
}

fn timed(turns: usize, mut read: impl FnMut()) -> f64 {
    let start = Instant::now();
    for _ in 0..turns {
        read();
    }
    start.elapsed().as_nanos() as f64 / turns as f64
}

/// Prints three lines a message: its packets, its calls of ours, and the least time on both sides, in ns, of judging or parsing it alone, of that with all its packets in lists, ours handed
/// out by one call, and of the same with a call for each packet.
pub fn times(rounds: u32) {
    let (mut all, mut one, mut list) = (Lists::of(65_535), Lists::of(1), Vec::with_capacity(65_535));
    for (name, message) in messages() {
        let with_identifiers = [&[0; 8], &message[..]].concat();
        let n = check(name, &message, &mut [&mut all, &mut one]);
        let (turns, zero, mut reader) = (1 + 20_000 / n, time_zero(), [0; 7]);
        let mut least = [f64::INFINITY; 5];
        for _ in 0..rounds {
            let times = [
                timed(turns, || {
                    black_box(start(black_box(&message), &mut reader));
                }),
                timed(turns, || {
                    black_box(Twcc::try_from(black_box(&with_identifiers[..])).unwrap());
                }),
                timed(turns, || {
                    ours(black_box(&message), &mut all, |sequence, statuses, ticks| {
                        black_box((sequence, statuses, ticks));
                    });
                }),
                timed(turns, || {
                    ours(black_box(&message), &mut one, |sequence, statuses, ticks| {
                        black_box((sequence, statuses, ticks));
                    });
                }),
                timed(turns, || {
                    rust(black_box(&with_identifiers), zero, &mut list);
                    black_box(&list);
                }),
            ];
            least = std::array::from_fn(|i| least[i].min(times[i]));
        }
        println!("{name}\t0\t1\t{}\t{}", least[0], least[1]);
        println!("{name}\t{n}\t1\t{}\t{}", least[2], least[4]);
        println!("{name}\t{n}\t{n}\t{}\t{}", least[3], least[4]);
    }
}

/// With each of the lists ours tells what the Rust does, and what document 02 says. Gives the number of packets.
fn check(name: &str, message: &[u8], lists: &mut [&mut Lists]) -> usize {
    let mut n = 0;
    for lists in lists {
        let mut packets = vec![];
        let header = ours(message, lists, |sequence, statuses, ticks| {
            for i in 0..statuses.len() {
                packets.push((sequence.wrapping_add(i as u16), (statuses[i] != 0).then_some(ticks[i])));
            }
        });
        n = packets.len();
        let said = Answer::Told(header, packets);
        assert!(said == feedback::rust(message), "{name}: the two sides differ");
        assert!(said == feedback::read(message, Parts::default()), "{name}: not as document 02 has it");
    }
    n
}

/// The least times of several processes. The packets' own time is what reading takes beyond judging.
pub fn bench(processes: u32, rounds: u32) {
    println!("\n{:<24} {:>7} {:>7} {:>26} {:>26} {:>26}", "", "", "packets", "judging, ns", "handing out, ns a packet", "both, ns a packet");
    println!("{:<24} {:>7} {:>7}{}", "feedback message", "packets", "a call", format!(" {:>9} {:>9} {:>6}", "ours", "Rust", "ratio").repeat(3));
    for three in least("feedback_times", processes, rounds).chunks(3) {
        let (name, _, _, judge, parse) = &three[0];
        for (_, packets, calls, ours, rust) in &three[1..] {
            let n = *packets as f64;
            let times = [(*judge, *parse), ((ours - judge) / n, (rust - parse) / n), (ours / n, rust / n)];
            let columns: String = times.iter().map(|(a, b)| format!(" {a:>9.1} {b:>9.1} {:>6.2}", a / b)).collect();
            println!("{name:<24} {packets:>7} {:>7}{columns}", packets / calls);
        }
    }
}
