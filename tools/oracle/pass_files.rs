//! Pass files: the Rust's listing of one, and files made from a seed with their listings.
use crate::bwe::pass::{self, least_output, LEAST_OUTPUT, MOST_RECORDS, RECORD_BYTES, SHORT_RECORDS};
use crate::longer::longer;
use crate::make::{Maker, Random};
use std::io::{BufWriter, Read, Write};
use std::ops::Range;

fn standard_input() -> Vec<u8> {
    let mut file = vec![];
    std::io::stdin().lock().read_to_end(&mut file).unwrap();
    file
}

/// As `passrun`: a pass file from standard input, its listing or a number to standard output.
pub fn list() {
    let mut out = vec![];
    if let Err(number) = pass::list(&standard_input(), SHORT_RECORDS, &mut out) {
        out = format!("{number}\n").into_bytes();
    }
    std::io::stdout().lock().write_all(&out).unwrap();
}

/// The case of a pass file from standard input, with so many bytes of output or with `enough`.
pub fn case(room: &str) {
    let file = standard_input();
    let room = if room == "enough" { least_output(file.len() / RECORD_BYTES) } else { room.parse().unwrap() };
    write_case(&mut std::io::stdout().lock(), &file, room);
}

/// So many cases: five words of 4 bytes, little-endian (length of the file, length of the output, number, length of the listing, linked packets), the file, the listing.
/// A short file has some dozen records, seldom more, a long one up to 1,365, a longer one most often some thousands, up to 65,535.
pub fn make(seed: u64, count: u64, size: &str) {
    let mut r = Random::from_seed(seed);
    let mut out = BufWriter::with_capacity(1 << 20, std::io::stdout().lock());
    for _ in 0..count {
        let (file, room) = match size {
            "short" => up_to_1365(&mut r, false),
            "long" => up_to_1365(&mut r, true),
            "longer" => longer(&mut r),
            _ => panic!("no such size"),
        };
        write_case(&mut out, &file, room);
    }
}

/// A short or long file, and a length of the output.
fn up_to_1365(r: &mut Random, long: bool) -> (Vec<u8>, u32) {
    let records = match r.below(8) {
        0 => 1 + r.below(4) as usize,
        1 if long => SHORT_RECORDS,
        _ if long => 1000 + r.below(366) as usize,
        1 if r.one_in(5) => 200 + r.below(1166) as usize,
        _ => 1 + r.below(60) as usize,
    };
    let mut file = good(r, records, 0..0);
    if r.one_in(if long { 8 } else { 3 }) {
        for _ in 0..1 + r.below(3) {
            damage(r, &mut file, SHORT_RECORDS);
        }
    }
    let room = if r.one_in(50) { r.pick(&[0, 1, LEAST_OUTPUT - 1, LEAST_OUTPUT + 1, 70_000]) } else { LEAST_OUTPUT };
    (file, room)
}

pub fn write_case(out: &mut impl Write, file: &[u8], room: u32) {
    let mut listing = vec![];
    let mut number = pass::list(file, MOST_RECORDS, &mut listing).err().unwrap_or(0) as u32;
    if number == 0 && room < least_output(file.len() / RECORD_BYTES) {
        number = 13;
        listing.clear();
    }
    let packets = if number == 0 { pass::packets(file) } else { 0 };
    for word in [file.len() as u32, room, number, listing.len() as u32, packets] {
        out.write_all(&word.to_le_bytes()).unwrap();
    }
    out.write_all(file).unwrap();
    out.write_all(&listing).unwrap();
}

/// A record but for its next.
pub fn fields(op: u64, i: [u64; 5], r: &mut Random) -> [u8; RECORD_BYTES] {
    let mut record = [0; RECORD_BYTES];
    let mut put = |place: usize, bytes: &[u8]| record[place..place + bytes.len()].copy_from_slice(bytes);
    put(4, &[(op - 90) as u8]);
    // what a kind does not use has any value
    if r.one_in(2) {
        let other = [r.next(), r.next(), r.next(), r.next(), r.next()];
        for (n, word) in other.iter().enumerate() {
            put(8 + 8 * n, &word.to_le_bytes());
        }
        put(5, &[r.next() as u8]);
    }
    match op {
        91 => {
            put(6, &(i[1].min(65_535) as u16).to_le_bytes());
            for (place, word) in [(8, i[0]), (16, i[2]), (24, i[3]), (32, i[4])] {
                put(place, &word.to_le_bytes());
            }
        }
        92 => {
            put(5, &[i[0] as u8]);
            put(32, &i[2].to_le_bytes());
            put(40, &i[1].to_le_bytes());
        }
        _ => put(32, &i[0].to_le_bytes()),
    }
    record
}

/// A file whose chain is whole: the calls of one link, unlinked records among them, and maybe packets after the last report. The chain passes over `gap`.
pub fn good(r: &mut Random, records: usize, gap: Range<usize>) -> Vec<u8> {
    let unlinked = if r.one_in(3) { 1 + r.below(6) } else { 0 };
    let mut maker = Maker::default();
    let mut file = vec![0; records * RECORD_BYTES];
    maker.opening(r);
    maker.started = true;
    let mut last = None;
    for k in 1..=records {
        let at = (k - 1) * RECORD_BYTES;
        if gap.contains(&k) || k > 1 && unlinked > 0 && r.below(12) < unlinked {
            for b in &mut file[at..at + RECORD_BYTES] {
                *b = r.next() as u8;
            }
            continue;
        }
        let (op, i) = maker.link(r, u64::MAX, 300);
        file[at..at + RECORD_BYTES].copy_from_slice(&fields(op, i, r));
        if let Some(before) = last.replace(at) {
            file[before..before + 4].copy_from_slice(&(k as u32).to_le_bytes());
        }
    }
    file
}

/// One thing that is wrong, or may be; `most` is the limit of records that a file is taken past.
pub fn damage(r: &mut Random, file: &mut Vec<u8>, most: usize) {
    let records = (file.len() / RECORD_BYTES) as u64;
    let at = if records == 0 { 0 } else { r.below(records) as usize * RECORD_BYTES };
    match r.below(8) {
        0 => file.truncate(r.below(file.len() as u64 + 1) as usize),
        1 => file.extend(std::iter::repeat_n(0, r.pick(&[1, 47, 48, 96]))),
        _ if records == 0 => {}
        2 if r.one_in(20) => file.resize((most + 1) * RECORD_BYTES, 0),
        3 => file[at + 4] = r.pick(&[0, 1, 2, 3, 4, 255]),
        4 => file[at + 5] = r.pick(&[0, 1, 2, 255]),
        5 => {
            let own = (at / RECORD_BYTES) as u64 + 1;
            let next = r.pick(&[0, 1, own, own - 1, own + 1, own + 2, records, records + 1, u32::MAX as u64]);
            file[at..at + 4].copy_from_slice(&(next as u32).to_le_bytes());
        }
        _ => {
            let place = r.below(file.len() as u64) as usize;
            file[place] ^= 1 << r.below(8);
        }
    }
}
