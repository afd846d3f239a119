//! Pass files on the Rust's estimators: the listing of a file behind document 01's questions 4 to 12, and the plain listing that the benchmark times.
use super::drive::{at, bits, since_zero};
use super::link::{open, Link, Lists};
use super::{AckedPacket, BandwidthUsage};
use crate::rtp_::{DataSize, TwccSeq};
use std::io::Write;

pub const RECORD_BYTES: usize = 48;

/// The most records of a file that the library takes.
pub const MOST_RECORDS: usize = 65_535;

/// The most that `passrun` takes. Question 13 asks for `LEAST_OUTPUT` bytes up to here.
pub const SHORT_RECORDS: usize = 1365;

pub const LEAST_OUTPUT: u32 = 65_536;

/// The least output that question 13 asks for where a file has so many records, linked or not.
pub fn least_output(records: usize) -> u32 {
    if records <= SHORT_RECORDS { LEAST_OUTPUT } else { (records * RECORD_BYTES) as u32 }
}

/// A record's fields.
#[derive(Clone, Copy)]
struct Record<'f>(&'f [u8]);

impl Record<'_> {
    fn word(&self, place: usize) -> u64 {
        u64::from_le_bytes(self.0[place..place + 8].try_into().unwrap())
    }

    fn next(&self) -> usize {
        u32::from_le_bytes(self.0[..4].try_into().unwrap()) as usize
    }

    fn kind(&self) -> u8 {
        self.0[4]
    }

    fn flag(&self) -> u8 {
        self.0[5]
    }

    fn size(&self) -> u64 {
        u16::from_le_bytes(self.0[6..8].try_into().unwrap()) as u64
    }

    fn probe(&self) -> Option<f64> {
        (self.flag() == 1).then(|| f64::from_bits(self.word(40)))
    }
}

/// The record with a number, counted from 1.
fn record(file: &[u8], number: usize) -> Record<'_> {
    Record(&file[(number - 1) * RECORD_BYTES..number * RECORD_BYTES])
}

/// Questions 10 to 12, of a file of at most so many records.
fn judge(file: &[u8], most: usize) -> Result<(), u64> {
    let records = file.len() / RECORD_BYTES;
    if file.len() % RECORD_BYTES != 0 || !(1..=most).contains(&records) {
        return Err(10);
    }
    let mut k = 1;
    while k != 0 {
        let r = record(file, k);
        if !(1..=3).contains(&r.kind()) || r.kind() == 2 && r.flag() > 1 {
            return Err(11);
        }
        let next = r.next();
        if next != 0 && !(k + 1..=records).contains(&next) {
            return Err(12);
        }
        k = next;
    }
    Ok(())
}

/// How many packets are linked.
pub fn packets(file: &[u8]) -> u32 {
    let (mut n, mut k) = (0, 1);
    while k != 0 {
        n += (record(file, k).kind() == 1) as u32;
        k = record(file, k).next();
    }
    n
}

/// Record number, refusal number or 0, hypothesis letter, estimate bits, next timeout.
fn line(link: &Link, record: usize, number: u64, out: &mut impl Write) {
    let letter = match link.control.peek().0.hypothesis() {
        BandwidthUsage::Overuse => 'O',
        BandwidthUsage::Normal => 'N',
        BandwidthUsage::Underuse => 'U',
    };
    let estimate = bits(link.control.last_estimate().unwrap().as_f64());
    let timeout = since_zero(link.control.poll_timeout());
    writeln!(out, "{record} {number} {letter} {estimate:016x} {timeout}").unwrap();
}

/// The listing of a file of at most so many records, or the number of the question that it fails.
pub fn list(file: &[u8], most: usize, out: &mut impl Write) -> Result<(), u64> {
    judge(file, most)?;
    let mut link = open(1e6, 500_000_000, 150_000_000)?;
    let mut waiting = Lists::default();
    let mut k = 1;
    while k != 0 {
        let r = record(file, k);
        match r.kind() {
            1 => {
                for (list, x) in waiting.iter_mut().zip([r.word(8), r.size(), r.word(16), r.word(24), r.word(32)]) {
                    list.push(x);
                }
            }
            2 => {
                let number = link.report(&std::mem::take(&mut waiting), r.probe(), r.word(32));
                line(&link, k, number, out);
            }
            _ => {
                let number = link.timeout(r.word(32));
                line(&link, k, number, out);
            }
        }
        k = r.next();
    }
    Ok(())
}

/// The linked records of a file as cases of module `link`, its opening first.
pub fn cases(file: &[u8]) -> Vec<(u64, [u64; 5])> {
    let mut cases = vec![(90, [bits(1e6), 500_000_000, 150_000_000, 0, 0])];
    let mut k = 1;
    while k != 0 {
        let r = record(file, k);
        cases.push(match r.kind() {
            1 => (91, [r.word(8), r.size(), r.word(16), r.word(24), r.word(32)]),
            2 => (92, [r.flag() as u64, r.word(40), r.word(32), 0, 0]),
            _ => (93, [r.word(32), 0, 0, 0, 0]),
        });
        k = r.next();
    }
    cases
}

/// A packet as the Rust has it; instants are ns.
pub fn packet(sequence: u64, size: u64, send: u64, remote: u64, receive: u64) -> AckedPacket {
    AckedPacket {
        seq_no: TwccSeq(sequence),
        size: DataSize::bytes(size as i64),
        local_send_time: at(send),
        remote_recv_time: at(remote),
        local_recv_time: at(receive),
    }
}

/// The same of a file whose calls are all accepted, as the Rust runs it: packets in one list, no question asked.
pub fn list_plain(file: &[u8], out: &mut impl Write) {
    let mut link = open(1e6, 500_000_000, 150_000_000).ok().unwrap();
    let mut waiting: Vec<AckedPacket> = vec![];
    let mut k = 1;
    while k != 0 {
        let r = record(file, k);
        match r.kind() {
            1 => waiting.push(packet(r.word(8), r.size(), r.word(16), r.word(24), r.word(32))),
            2 => {
                link.update(std::mem::take(&mut waiting), r.probe(), r.word(32));
                line(&link, k, 0, out);
            }
            _ => {
                link.timeout(r.word(32));
                line(&link, k, 0, out);
            }
        }
        k = r.next();
    }
}
