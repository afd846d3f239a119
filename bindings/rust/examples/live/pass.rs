//! Pass files by live calls: the calls of a file, put to a link one by one, and the line of each.
use hornetpewter::{BandwidthUsage, Estimate, Link, Packet, Refusal};

pub const RECORD_BYTES: usize = 48;

/// A record's fields.
#[derive(Clone, Copy)]
struct Record<'f>(&'f [u8]);

impl Record<'_> {
    fn word(self, place: usize) -> u64 {
        u64::from_le_bytes(self.0[place..place + 8].try_into().unwrap())
    }

    fn next(self) -> usize {
        u32::from_le_bytes(self.0[..4].try_into().unwrap()) as usize
    }

    fn kind(self) -> u8 {
        self.0[4]
    }

    fn packet(self) -> Packet {
        Packet {
            sequence: self.word(8),
            size: u64::from(u16::from_le_bytes([self.0[6], self.0[7]])),
            send: self.word(16),
            remote: self.word(24),
            receive: self.word(32),
        }
    }

    fn probe(self) -> Option<f64> {
        (self.0[5] == 1).then(|| f64::from_bits(self.word(40)))
    }

    fn now(self) -> u64 {
        self.word(32)
    }
}

/// A call of a pass file, with the number of its record.
pub enum Call {
    Report(usize, Vec<Packet>, Option<f64>, u64),
    Timeout(usize, u64),
}

/// The calls along the chain of a file that `list` accepts.
pub fn calls(file: &[u8]) -> Vec<Call> {
    let mut calls = vec![];
    let mut waiting = vec![];
    let mut number = 1;
    while number != 0 {
        let record = Record(&file[(number - 1) * RECORD_BYTES..number * RECORD_BYTES]);
        match record.kind() {
            1 => waiting.push(record.packet()),
            2 => {
                let packets = std::mem::take(&mut waiting);
                calls.push(Call::Report(number, packets, record.probe(), record.now()));
            }
            _ => calls.push(Call::Timeout(number, record.now())),
        }
        number = record.next();
    }
    calls
}

/// The link that `list` opens.
pub fn open() -> Link {
    Link::open(1_000_000.0, 500_000_000, 150_000_000).unwrap()
}

impl Call {
    fn record(&self) -> usize {
        match self {
            Call::Report(record, ..) | Call::Timeout(record, _) => *record,
        }
    }

    fn put(&self, link: &mut Link) -> Result<Estimate, Refusal> {
        match self {
            Call::Report(_, packets, probe, now) => link.report(packets, *probe, *now),
            Call::Timeout(_, now) => link.timeout(*now),
        }
    }

    /// Puts the call to a link. What it answers is what the link then holds, and a refusal leaves the
    /// link as it was; the line shows the link in both cases.
    pub fn line(&self, link: &mut Link) -> String {
        let before = link.clone();
        let answer = self.put(link);
        let held = link.read().unwrap().estimate;
        match answer {
            Ok(estimate) => {
                assert_eq!(estimate, held);
                line(self.record(), 0, estimate)
            }
            Err(refusal) => {
                assert_eq!(*link, before);
                line(self.record(), refusal.number(), held)
            }
        }
    }
}

fn line(record: usize, number: u8, estimate: Estimate) -> String {
    let letter = match estimate.hypothesis {
        BandwidthUsage::Overuse => 'O',
        BandwidthUsage::Normal => 'N',
        BandwidthUsage::Underuse => 'U',
    };
    let bits = estimate.bitrate.to_bits();
    let timeout = estimate.next_timeout;
    format!("{record} {number} {letter} {bits:016x} {timeout}\n")
}
