//! Transport-wide feedback messages (order 2 of document 02), the part after the media source identifier: what the document's words say of one, what the Rust says,
//! and a model of both that tells exactly where they part.
use crate::feedback_make;
use crate::make::Random;
use crate::rtcp::twcc::Twcc;
use crate::rtp_::TwccSeq;
use std::collections::VecDeque;
use std::io::{BufWriter, Write};
use std::panic::{catch_unwind, AssertUnwindSafe};
use std::time::{Duration, Instant};

#[derive(Debug, Clone, Copy, PartialEq, Eq)]
pub struct Header {
    pub base: u16,
    pub count: u16,
    pub reference: i32,
    pub feedback: u8,
}

/// A sequence, and the ticks from the reference of a received packet.
pub type Packet = (u16, Option<i32>);

#[derive(Debug, Clone, PartialEq, Eq)]
pub enum Answer {
    Refused(u32),
    Told(Header, Vec<Packet>),
    /// The Rust only: after these packets.
    Panics(Header, Vec<Packet>),
}
use Answer::*;

/// Where the Rust parts from document 02.
#[derive(Clone, Copy, Default)]
pub struct Parts {
    /// A count of 0 is a message without packets, not refused with 16.
    pub zero_count: bool,
    /// The reference is unsigned.
    pub unsigned_reference: bool,
    /// The symbol 3 is not received, not refused with 15.
    pub reserved_symbol: bool,
    /// The spare symbols of the last chunk want deltas too.
    pub past_count: bool,
    /// After a run of n large deltas the next delta is looked for n bytes on, not 2n.
    pub large_run: bool,
    /// A run of length 0 goes on to the last packet. Its symbol wants no delta of its own: it takes what is left of the others', of the wrong size it panics, and with none left
    /// the packets end.
    pub empty_run: bool,
}

pub const NAMES: [&str; 6] = ["zero count", "unsigned reference", "reserved symbol", "past count", "large run", "empty run"];

impl Parts {
    pub fn all() -> Self {
        Parts { zero_count: true, unsigned_reference: true, reserved_symbol: true, past_count: true, large_run: true, empty_run: true }
    }

    pub fn alone(n: usize) -> Self {
        let is = |i| i == n;
        Parts { zero_count: is(0), unsigned_reference: is(1), reserved_symbol: is(2), past_count: is(3), large_run: is(4), empty_run: is(5) }
    }
}

struct Chunk(u16);

impl Chunk {
    fn is_run(&self) -> bool {
        self.0 < 0x8000
    }

    fn len(&self) -> usize {
        match self.0 >> 14 {
            0 | 1 => self.0 as usize & 0x1fff,
            2 => 14,
            _ => 7,
        }
    }

    fn symbol(&self, place: usize) -> u16 {
        match self.0 >> 14 {
            0 | 1 => self.0 >> 13,
            2 => self.0 >> (13 - place) & 1,
            _ => self.0 >> (12 - 2 * place) & 3,
        }
    }
}

/// What document 02 says of a message, but for these parts.
pub fn read(message: &[u8], parts: Parts) -> Answer {
    let word = |at: usize| message.get(at..at + 2).map(|b| u16::from_be_bytes([b[0], b[1]]));
    if message.len() < 8 {
        return Refused(14);
    }
    let count = word(2).unwrap() as usize;
    let reference = i32::from_be_bytes([message[4], message[5], message[6], 0]) >> 8;
    let reference = if parts.unsigned_reference { reference & 0xff_ffff } else { reference };
    let header = Header { base: word(0).unwrap(), count: count as u16, reference, feedback: message[7] };
    if count == 0 && !parts.zero_count {
        return Refused(16);
    }

    let (mut at, mut chunks, mut left) = (8, vec![], count);
    while left > 0 {
        let Some(x) = word(at) else { return Refused(14) };
        let chunk = Chunk(x);
        let counted = chunk.len().min(left);
        if !parts.reserved_symbol && (0..counted).any(|i| chunk.symbol(i) == 3) {
            return Refused(15);
        }
        (at, left) = (at + 2, left - counted);
        chunks.push(chunk);
    }

    let (mut deltas, mut left) = (VecDeque::new(), count);
    for chunk in &chunks {
        let counted = chunk.len().min(left);
        let (first, wanted) = (at, if parts.past_count { chunk.len() } else { counted });
        for i in 0..wanted {
            let size = match chunk.symbol(i) {
                1 => 1,
                2 => 2,
                _ => continue,
            };
            let Some(b) = message.get(at..at + size) else { return Refused(14) };
            deltas.push_back((size as u16, if size == 1 { b[0] as i32 } else { i16::from_be_bytes([b[0], b[1]]) as i32 }));
            at += size;
        }
        if parts.large_run && chunk.is_run() && chunk.symbol(0) == 2 {
            at = first + wanted;
        }
        left -= counted;
    }

    let (mut packets, mut ticks) = (Vec::with_capacity(count), 0);
    for chunk in &chunks {
        let left = count - packets.len();
        let n = if parts.empty_run && chunk.len() == 0 { left } else { chunk.len().min(left) };
        for i in 0..n {
            let symbol = chunk.symbol(i);
            let received = if symbol == 1 || symbol == 2 {
                let Some((size, delta)) = deltas.pop_front() else { return Told(header, packets) };
                if size != symbol {
                    return Panics(header, packets);
                }
                ticks += delta;
                Some(ticks)
            } else {
                None
            };
            packets.push((header.base.wrapping_add(packets.len() as u16), received));
        }
    }
    Told(header, packets)
}

/// What the Rust's own instants start from: so far ahead that no packet's comes before the first that there is.
pub fn time_zero() -> Instant {
    crate::util::zero() + Duration::from_secs(1_000_000)
}

/// A multiple of 65,536: sequences are compared modulo that.
pub const EXTEND_FROM: TwccSeq = TwccSeq(1 << 32);

fn ticks(from: Instant, to: Instant) -> i32 {
    let (far, sign) = if to < from { (from - to, -1) } else { (to - from, 1) };
    let micros = far.as_micros() as i64;
    assert!(micros % 250 == 0);
    (micros / 250 * sign) as i32
}

/// What the Rust says: 14 for each of its errors.
pub fn rust(message: &[u8]) -> Answer {
    let zero = time_zero();
    let mut header = Header { base: 0, count: 0, reference: 0, feedback: 0 };
    let mut packets = vec![];
    // two identifiers stand in front
    let whole = [&[0; 8], message].concat();
    let said = catch_unwind(AssertUnwindSafe(|| {
        let twcc = Twcc::try_from(&whole[..])?;
        header = Header { base: twcc.base_seq, count: twcc.status_count, reference: twcc.reference_time as i32, feedback: twcc.feedback_count };
        let reference = zero + Duration::from_millis(64 * twcc.reference_time as u64);
        for (sequence, _, instant) in twcc.into_iter(zero, EXTEND_FROM) {
            packets.push((*sequence as u16, instant.map(|t| ticks(reference, t))));
        }
        Ok::<(), &'static str>(())
    }));
    match said {
        Ok(Ok(())) => Told(header, packets),
        Ok(Err(_)) => Refused(14),
        Err(_) => Panics(header, packets),
    }
}

/// The Rust's panics are answers: they are not printed.
pub fn silence() {
    let usual = std::panic::take_hook();
    std::panic::set_hook(Box::new(move |info| {
        if !info.location().is_some_and(|l| l.file().ends_with("twcc.rs")) {
            usual(info);
        }
    }));
}

pub fn hex(message: &[u8]) -> String {
    message.iter().map(|b| format!("{b:02x}")).collect()
}

/// What the Rust says, which the model with all parts says too; else this ends.
pub fn rust_checked(message: &[u8]) -> Answer {
    let (theirs, model) = (rust(message), read(message, Parts::all()));
    if theirs != model {
        eprintln!("the model is not the Rust on {}\nthe Rust: {theirs:?}\nthe model: {model:?}", hex(message));
        std::process::exit(1);
    }
    theirs
}

/// A case: six words of 4 bytes, little-endian (length of the message, number, base sequence, status count, reference, feedback count), the message, and where the number is 0
/// for each packet 8 bytes: sequence, 1 where received, ticks.
pub fn write_case(out: &mut impl Write, message: &[u8], answer: &Answer) {
    let (number, words, packets) = match answer {
        Told(h, packets) => (0, [h.base as u32, h.count as u32, h.reference as u32, h.feedback as u32], &packets[..]),
        Refused(number) => (*number, [0; 4], &[][..]),
        Panics(..) => unreachable!("document 02 never panics"),
    };
    for word in [message.len() as u32, number].into_iter().chain(words) {
        out.write_all(&word.to_le_bytes()).unwrap();
    }
    out.write_all(message).unwrap();
    for (sequence, received) in packets {
        out.write_all(&sequence.to_le_bytes()).unwrap();
        out.write_all(&(received.is_some() as u16).to_le_bytes()).unwrap();
        out.write_all(&received.unwrap_or(0).to_le_bytes()).unwrap();
    }
}

/// So many messages with document 02's answers.
pub fn make(seed: u64, count: u64) {
    silence();
    let mut r = Random::from_seed(seed);
    let mut out = BufWriter::with_capacity(1 << 20, std::io::stdout().lock());
    for _ in 0..count {
        let message = feedback_make::message(&mut r);
        rust_checked(&message);
        write_case(&mut out, &message, &read(&message, Parts::default()));
    }
}

/// How many of those messages get which answer, have the same from the Rust, and change theirs by each part alone.
pub fn counts(seed: u64, count: u64) {
    silence();
    let mut r = Random::from_seed(seed);
    let (mut numbers, mut same, mut panics, mut packets, mut bytes) = ([0; 17], [0; 17], 0, 0, 0);
    let mut changed = [0; NAMES.len()];
    for _ in 0..count {
        let message = feedback_make::message(&mut r);
        let (theirs, answer) = (rust_checked(&message), read(&message, Parts::default()));
        let number = match &answer {
            Refused(number) => *number as usize,
            Told(_, p) => {
                packets += p.len();
                0
            }
            Panics(..) => unreachable!(),
        };
        bytes += message.len();
        numbers[number] += 1;
        same[number] += (theirs == answer) as u64;
        panics += matches!(theirs, Panics(..)) as u64;
        for (n, c) in changed.iter_mut().enumerate() {
            *c += (read(&message, Parts::alone(n)) != answer) as u64;
        }
    }
    println!("messages {count}, bytes {bytes}, packets {packets}");
    for number in [0, 14, 15, 16] {
        println!("answered {number}: {}, of which the Rust says the same of {}", numbers[number], same[number]);
    }
    println!("the Rust says the same: {}; it panics: {panics}", same.iter().sum::<u64>());
    for (name, n) in NAMES.iter().zip(changed) {
        println!("{name} alone changes: {n}");
    }
}
