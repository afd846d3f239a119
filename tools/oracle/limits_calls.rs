//! Cases of whole links and pass files at the limits of questions 2 to 13 and beside them, and with two questions that are answered with no: a fixed list.
use crate::bwe::drive::Answers;
use crate::bwe::pass::{least_output, LEAST_OUTPUT, MOST_RECORDS, RECORD_BYTES, SHORT_RECORDS};
use crate::limits::{b, beside, floats, Cases, LAST, MS};
use crate::pass_files::write_case;
use std::io::{BufWriter, Write};

/// The moment of a report.
const NOW: u64 = 1_000_000_000;

pub fn links() {
    let mut c = Cases::new();
    openings(&mut c);
    lists_instants_sizes(&mut c);
    moments_and_probes(&mut c);
    byte_sums(&mut c);
    two_questions(&mut c);
    equal_instants(&mut c);
    fresh(&mut c);
    c.write();
}

fn open(c: &mut Cases, start: f64, first: u64, second: u64) {
    c.run(90, [b(start), first, second, 0, 0]);
}

fn fresh(c: &mut Cases) {
    open(c, 1e6, 10_000 * MS, 10_000 * MS);
}

// A packet's size, send, remote and receive.
type Packet = [u64; 4];

const GOOD: Packet = [10, 21, 21, 41];

// A report of two packets, the first one good, in disorder where `back` is; `short` is the list that is one short, or 0.
fn report(c: &mut Cases, back: bool, packet: Packet, probe: Option<f64>, now: u64, short: u64) -> Answers {
    let (first, second) = ([0, 10, 20, 20, 40], [1, packet[0], packet[1], packet[2], packet[3]]);
    for p in if back { [second, first] } else { [first, second] } {
        c.run(91, p);
    }
    c.run(92, [probe.is_some() as u64, b(probe.unwrap_or(0.0)), now, short, 0])
}

fn openings(c: &mut Cases) {
    for start in floats(40_000.0).into_iter().chain(floats(1e10)).chain([f64::NAN, f64::INFINITY, -1e6]) {
        open(c, start, 500 * MS, 150 * MS);
    }
    let least = [0, 1, 1000, 500_000, MS - 1, MS, MS + 1, MS + 1000, 1_500_000, 2 * MS];
    let most = [9_999 * MS, 10_000 * MS - 1, 10_000 * MS, 10_000 * MS + 1, 10_001 * MS, u64::MAX];
    for window in least.into_iter().chain(most) {
        open(c, 1e6, window, 150 * MS);
        open(c, 1e6, 500 * MS, window);
    }
    // 2 and 3
    open(c, 39_999.0, 0, 150 * MS);
    fresh(c);
}

fn lists_instants_sizes(c: &mut Cases) {
    for back in [false, true] {
        for short in 0..6 {
            report(c, back, GOOD, None, NOW, short);
        }
        for place in 1..4 {
            for instant in beside(LAST).into_iter().chain([u64::MAX]) {
                let mut packet = GOOD;
                packet[place] = instant;
                report(c, back, packet, None, NOW, 0);
            }
            fresh(c);
        }
        for size in [0, 1, 2] {
            report(c, back, [size, 21, 21, 41], None, NOW, 0);
        }
    }
}

fn moments_and_probes(c: &mut Cases) {
    let first = [0, 1, 1000, 500_000, MS - 1, MS, MS + 1, MS + 1000, 1_500_000];
    let last = [LAST - MS, LAST - 1, LAST, LAST + 1, LAST + MS, u64::MAX];
    for moment in first.into_iter().chain(last) {
        fresh(c);
        report(c, false, GOOD, None, moment, 0);
        c.run(93, [moment, 0, 0, 0, 0]);
    }
    let least = f64::from_bits(1);
    for probe in [-1.0, -least, -0.0, 0.0, least].into_iter().chain(floats(1e14)).chain([f64::INFINITY, f64::NAN]) {
        fresh(c);
        report(c, false, GOOD, Some(probe), NOW, 0);
    }
}

// The window's byte sum after each packet, of which the first has 10 bytes.
fn byte_sums(c: &mut Cases) {
    for size in beside(2_147_483_637).into_iter().chain([1 << 31, 1 << 32, i64::MAX as u64, 1 << 63, u64::MAX]) {
        fresh(c);
        report(c, false, [size, 21, 21, 41], None, NOW, 0);
        report(c, false, [1, 21, 21, 41], None, NOW, 0);
        fresh(c);
        // a packet from before the last clears the sum, and its size is not added
        report(c, true, [size, 21, 19, 41], None, NOW, 0);
        report(c, false, [size, 21, 19, 41], None, NOW + MS, 0);
    }
}

// Two neighbouring questions at once: the first answers.
fn two_questions(c: &mut Cases) {
    fresh(c);
    let over = 1 << 31;
    for back in [false, true] {
        report(c, back, [10, LAST + 1, 21, 41], None, NOW, 2); // 4 and 5
        report(c, back, [0, LAST + 1, 21, 41], None, NOW, 0); // 5 and 6
        report(c, back, [0, 21, 21, 41], None, 1, 0); // 6 and 7
        report(c, back, GOOD, Some(-1.0), 1, 0); // 7 and 8
        report(c, back, [over, 21, 21, 41], Some(-1.0), NOW, 0); // 8 and 9
        report(c, back, [over, 21, 21, 41], None, NOW, 0); // 9
        report(c, back, [0, LAST + 1, 21, 41], Some(-1.0), 1, 2); // 4 to 8
    }
    report(c, false, GOOD, None, NOW, 0);
}

// Packets with equal instants, told apart by their sequences, then by the order in which they came; the acknowledged rate tells which size was added.
fn equal_instants(c: &mut Cases) {
    for (sequences, remote) in [([2, 1], 5), ([1, 2], 5), ([1, 1], 5), ([2, 1], 500)] {
        fresh(c);
        report(c, false, [10, 100, 100, 140], None, NOW, 0);
        for (sequence, size) in sequences.into_iter().zip([100, 1000]) {
            c.run(91, [sequence, size, 30, remote, 70]);
        }
        c.run(92, [0, 0, NOW + MS, 0, 0]);
        for k in 1..4 {
            c.run(91, [5, 1, 30, remote + 4_000 * MS * k, 70]);
        }
        c.run(92, [0, 0, NOW + 2 * MS, 0, 0]);
    }
}

// ---- pass files
const PACKET: u8 = 1;
const REPORT: u8 = 2;
const TIMEOUT: u8 = 3;

/// A remote instant in whose window packets are acknowledged.
const LATER: u64 = 10_000_000_000;

type Record = [u8; RECORD_BYTES];

// A record with its next, kind and flag, whose instants are 1 s; a packet's size is 100.
fn record(next: u32, kind: u8, flag: u8) -> Record {
    let mut record = [0; RECORD_BYTES];
    record[..4].copy_from_slice(&next.to_le_bytes());
    record[4..8].copy_from_slice(&[kind, flag, 100, 0]);
    for place in [16, 24, 32] {
        record[place..place + 8].copy_from_slice(&NOW.to_le_bytes());
    }
    record[40..].copy_from_slice(&b(2e6).to_le_bytes());
    record
}

fn with(mut record: Record, place: usize, bytes: &[u8]) -> Record {
    record[place..place + bytes.len()].copy_from_slice(bytes);
    record
}

// At a moment that question 7 turns down.
fn early(record: Record) -> Record {
    with(record, 32, &1u64.to_le_bytes())
}

fn packet(sequence: u64, size: u16, remote: u64) -> Record {
    let record = with(with(record(0, PACKET, 0), 6, &size.to_le_bytes()), 8, &sequence.to_le_bytes());
    with(record, 24, &remote.to_le_bytes())
}

// The records in a chain, each with the next one's number.
pub fn chained(mut records: Vec<Record>) -> Vec<u8> {
    let last = records.len() - 1;
    for k in 0..last {
        records[k][..4].copy_from_slice(&(k as u32 + 2).to_le_bytes());
    }
    records.concat()
}

pub fn passes() {
    let mut out = BufWriter::new(std::io::stdout().lock());
    files(&mut out);
    two_questions_of_a_file(&mut out);
    calls(&mut out);
    acknowledged(&mut out);
}

fn files(out: &mut impl Write) {
    let timeout = record(0, TIMEOUT, 0);
    // 10: whole records (the program `at_limits` has the files of 1,365 and 1,366)
    for length in [0, 1, 47, 48, 49, 95, 96] {
        write_case(out, &[timeout, timeout].concat()[..length], LEAST_OUTPUT);
    }
    // 11: kinds and flags
    for kind in [0, PACKET, REPORT, TIMEOUT, 4, 255] {
        for flag in [0, 1, 2, 255] {
            write_case(out, &[record(2, kind, flag), record(0, TIMEOUT, 2)].concat(), LEAST_OUTPUT);
        }
    }
    // 12: next, of the second record of four
    for next in [0, 1, 2, 3, 4, 5, u32::MAX] {
        write_case(out, &[record(2, PACKET, 0), record(next, REPORT, 0), record(4, TIMEOUT, 0), timeout].concat(), LEAST_OUTPUT);
    }
    write_case(out, &record(1, TIMEOUT, 0), LEAST_OUTPUT);
    // 13: the output
    for room in [0, LEAST_OUTPUT - 1, LEAST_OUTPUT, LEAST_OUTPUT + 1] {
        write_case(out, &timeout, room);
    }
}

// 10 before 11, 12 and 13; 11 before 12 and 13; 12 before 13; along the chain the record that comes first.
fn two_questions_of_a_file(out: &mut impl Write) {
    let (timeout, bad_kind, bad_next, both) = (record(0, TIMEOUT, 0), record(0, 4, 0), record(1, TIMEOUT, 0), record(1, 4, 0));
    for room in [LEAST_OUTPUT, LEAST_OUTPUT - 1] {
        for first in [timeout, bad_kind, bad_next, both] {
            write_case(out, &[&first[..], &[0]].concat(), room);
            write_case(out, &first, room);
        }
        write_case(out, &[record(2, 4, 0), bad_next].concat(), room);
        write_case(out, &[record(2, TIMEOUT, 0), both].concat(), room);
        write_case(out, &[record(2, TIMEOUT, 0), bad_kind].concat(), room);
        write_case(out, &[record(3, TIMEOUT, 0), bad_kind].concat(), room);
        write_case(out, &[record(3, TIMEOUT, 0), both, record(0, REPORT, 0)].concat(), room);
    }
}

// ---- files by the length
/// A file of so many bytes with the next and the kind of record 1; all else is 0, but records 1,365, 1,366 and 65,535 are timeouts (the program `file_limits`).
fn sparse(bytes: usize, next: u32, kind: u8) -> Vec<u8> {
    let mut file = vec![0; bytes.max((MOST_RECORDS + 1) * RECORD_BYTES)];
    for k in [SHORT_RECORDS, SHORT_RECORDS + 1, MOST_RECORDS] {
        file[(k - 1) * RECORD_BYTES + 4] = TIMEOUT;
    }
    file[..4].copy_from_slice(&next.to_le_bytes());
    file[4] = kind;
    file.truncate(bytes);
    file
}

/// The case of such a file and an output of so many bytes: number, length of the listing, output that the length wants.
fn sparse_case(out: &mut impl Write, bytes: usize, next: u32, kind: u8, room: u32) {
    let mut case = vec![];
    write_case(&mut case, &sparse(bytes, next, kind), room);
    let word = |n: usize| u32::from_le_bytes(case[4 * n..4 * n + 4].try_into().unwrap()) as u64;
    let wanted = if word(2) == 10 { 0 } else { least_output(bytes / RECORD_BYTES) as u64 };
    for x in [110, bytes as u64, next as u64, kind as u64, room as u64, 0, word(2), word(3), wanted, 0, 0, 0] {
        out.write_all(&x.to_le_bytes()).unwrap();
    }
}

/// Both neighbours of one record, of 1,365, 1,366 and 65,535: of the length by a byte and by a record, of the output by a byte, of the next by one; and two questions.
pub fn lengths() {
    let mut out = BufWriter::new(std::io::stdout().lock());
    for records in [0, 1, 2, SHORT_RECORDS - 1, SHORT_RECORDS, SHORT_RECORDS + 1, MOST_RECORDS - 1, MOST_RECORDS, MOST_RECORDS + 1] {
        let (bytes, enough) = (records * RECORD_BYTES, least_output(records));
        for length in [bytes.saturating_sub(1), bytes, bytes + 1] {
            sparse_case(&mut out, length, 0, TIMEOUT, enough);
        }
        for room in [0, LEAST_OUTPUT - 1, LEAST_OUTPUT, enough - 1, enough, enough + 1] {
            for (next, kind) in [(0, PACKET), (0, REPORT), (0, TIMEOUT), (0, 0), (0, 4), (1, TIMEOUT), (1, 4)] {
                sparse_case(&mut out, bytes, next, kind, room);
            }
        }
        for next in [1364, 1365, 1366, 1367, 65_534, 65_535, 65_536, 65_537] {
            sparse_case(&mut out, bytes, next, TIMEOUT, enough);
        }
    }
}

// Inside a file: 5, 5 and 6, 6, 6 and 7, 7, 7 and 8, 8; the report takes its packets, refused or not.
fn calls(out: &mut impl Write) {
    let (good, report, timeout) = (record(0, PACKET, 0), record(0, REPORT, 1), record(0, TIMEOUT, 0));
    let (late, empty) = (with(good, 16, &(LAST + 1).to_le_bytes()), with(good, 6, &[0, 0]));
    let bad_probe = with(report, 40, &b(-1.0).to_le_bytes());
    for (packet, call) in [
        (late, report),
        (with(late, 6, &[0, 0]), report),
        (empty, report),
        (empty, early(report)),
        (good, early(report)),
        (good, early(bad_probe)),
        (good, bad_probe),
    ] {
        write_case(out, &chained(vec![packet, call, record(0, REPORT, 0), early(timeout), timeout]), LEAST_OUTPUT);
    }
}

// Estimates that become 1.5 times the acknowledged rate.
fn acknowledged(out: &mut impl Write) {
    let report = record(0, REPORT, 0);
    // the windows of 500 and 150 ms
    let first = [(0, 41_000), (250 * MS, 500), (500 * MS - 1, 1), (500 * MS, 12_000)];
    let later = [(600 * MS, 400), (650 * MS - 1, 1), (650 * MS, 12_000), (700 * MS, 300), (800 * MS, 1)];
    let records = first.into_iter().chain(later).flat_map(|(remote, size)| [packet(1, size, LATER + remote), report]);
    write_case(out, &chained(records.collect()), LEAST_OUTPUT);
    // packets with equal instants, received before the last: the first by its sequence is not added; they wait past a timeout that is refused
    for sequences in [[1, 1 << 56], [1 << 56, 1], [255, 256], [256, 255]] {
        let mut records = vec![packet(1, 1, LATER), report];
        records.extend([packet(sequences[0], 41_000, LATER - 1), packet(sequences[1], 41_200, LATER - 1), early(record(0, TIMEOUT, 0)), report]);
        records.extend([packet(1, 500, LATER + 250 * MS), packet(1, 1, LATER + 500 * MS), report]);
        write_case(out, &chained(records), LEAST_OUTPUT);
    }
}
