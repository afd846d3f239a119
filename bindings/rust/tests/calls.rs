//! The calls of a link and their refusals.
use std::time::Duration;

use hornetpewter::{
    BandwidthUsage, Estimate, Feedback, LEAST_OUTPUT, LINK_WORDS, Link, MOST_OUTPUT, MOST_PACKETS,
    MOST_RECORDS, Packet, Refusal, list, room, whole_ms, whole_ns,
};

const MS: u64 = 1_000_000;
const MOST_INSTANT: u64 = 1_000_000_000_000_000_000;

fn open() -> Link {
    Link::open(1e6, 500 * MS, 150 * MS).unwrap()
}

/// A packet every 5 ms, 20 ms on its way, reported after 40 ms.
fn packet(sequence: u64) -> Packet {
    let send = 1000 * MS + sequence * 5 * MS;
    Packet {
        sequence,
        size: 1200,
        send,
        remote: send + 20 * MS,
        receive: send + 40 * MS,
    }
}

fn packets(count: usize) -> Vec<Packet> {
    (0..count as u64).map(packet).collect()
}

/// A link that has had a second of packets.
fn used() -> Link {
    let mut link = open();
    for part in packets(200).chunks(10) {
        let now = whole_ms(part[9].receive);
        link.report(part, None, now).unwrap();
        link.timeout(now + 25 * MS).unwrap();
    }
    link
}

/// A report that is refused, and leaves the link as it was.
fn refused(packets: &[Packet], probe: Option<f64>, now: u64) -> Refusal {
    let mut link = used();
    let before = link.clone();
    let refusal = link.report(packets, probe, now).unwrap_err();
    assert_eq!(link, before);
    refusal
}

fn with(change: impl Fn(&mut Packet)) -> Vec<Packet> {
    let mut packets = packets(3);
    change(&mut packets[1]);
    packets
}

fn record(next: u32, kind: u8, flag: u8) -> [u8; 48] {
    let mut record = [0; 48];
    record[..4].copy_from_slice(&next.to_le_bytes());
    record[4] = kind;
    record[5] = flag;
    record
}

/// A listing that is refused, and leaves the output as it was.
fn unlisted(file: &[u8], room: usize) -> Refusal {
    let mut out = vec![0xa5; room];
    let refusal = list(file, &mut out).unwrap_err();
    assert!(out.iter().all(|byte| *byte == 0xa5));
    refusal
}

#[test]
fn each_question_has_its_number() {
    let loaded = Link::from_words([0; LINK_WORDS]);
    let far = MOST_INSTANT + 1;
    let refusals = [
        loaded.read().unwrap_err(),
        Link::open(39_999.0, 500 * MS, 150 * MS).unwrap_err(),
        Link::open(1e6, 500 * MS, 150 * MS + 1).unwrap_err(),
        refused(&packets(MOST_PACKETS + 1), None, 2000 * MS),
        refused(&with(|p| p.remote = far), None, 2000 * MS),
        refused(&with(|p| p.size = 0), None, 2000 * MS),
        refused(&packets(3), None, 2000 * MS + 1),
        refused(&packets(3), Some(f64::NAN), 2000 * MS),
        refused(&with(|p| p.size = 1 << 31), None, 2000 * MS),
        unlisted(&[0; 47], LEAST_OUTPUT),
        unlisted(&record(0, 4, 0), LEAST_OUTPUT),
        unlisted(&record(1, 3, 0), LEAST_OUTPUT),
        unlisted(&record(0, 3, 0), LEAST_OUTPUT - 1),
        Feedback::read(&[0; 7]).unwrap_err(),
        Feedback::read(&[0, 0, 0, 1, 0, 0, 0, 0, 0x60, 1]).unwrap_err(),
        Feedback::read(&[0; 8]).unwrap_err(),
    ];
    let numbers: Vec<u8> = refusals.iter().map(|refusal| refusal.number()).collect();
    assert_eq!(numbers, (1..=16).collect::<Vec<u8>>());
}

#[test]
fn a_refusal_says_its_question() {
    assert_eq!(
        Refusal::BadSize.to_string(),
        "a packet has a size of 0 (question 6)"
    );
    let error: Box<dyn std::error::Error + Send + Sync> = Refusal::OutOfRange.into();
    assert_eq!(error.to_string(), "the link is out of range (question 1)");
}

#[test]
fn a_refused_timeout_leaves_the_link() {
    let mut link = used();
    let before = link.clone();
    for now in [2000 * MS + 1, MOST_INSTANT + MS, u64::MAX] {
        assert_eq!(link.timeout(now), Err(Refusal::BadMoment));
        assert_eq!(link, before);
    }
    link.timeout(MOST_INSTANT).unwrap();
    assert_ne!(link, before);
}

#[test]
fn an_opening_at_its_limits() {
    for rate in [40_000.0, 1e10] {
        assert_eq!(
            Link::open(rate, MS, 10_000 * MS).unwrap().read().unwrap(),
            hornetpewter::Reading {
                estimate: Estimate {
                    bitrate: rate,
                    hypothesis: BandwidthUsage::Normal,
                    next_timeout: 0
                },
                threshold_ms: 12.5
            }
        );
    }
    for rate in [39_999.999, 1.000_000_1e10, -1e6, f64::NAN, f64::INFINITY] {
        assert_eq!(
            Link::open(rate, 500 * MS, 150 * MS),
            Err(Refusal::BadStartBitrate)
        );
    }
    for window in [0, MS - 1, MS + 1, 10_001 * MS] {
        assert_eq!(Link::open(1e6, window, 150 * MS), Err(Refusal::BadWindow));
        assert_eq!(Link::open(1e6, 500 * MS, window), Err(Refusal::BadWindow));
    }
}

#[test]
fn as_many_packets_as_a_report_may_have() {
    let now = whole_ms(packet(2000).receive);
    let mut link = open();
    let before = link.clone();
    for count in [MOST_PACKETS + 1, MOST_PACKETS + 2, 5 * MOST_PACKETS] {
        assert_eq!(
            link.report(&packets(count), None, now),
            Err(Refusal::BadLists)
        );
        assert_eq!(link, before);
    }
    let estimate = link.report(&packets(MOST_PACKETS), None, now).unwrap();
    assert_eq!(link.read().unwrap().estimate, estimate);
    assert_ne!(link, before);
}

/// Each field of a packet reaches the library as itself, the last packet's of a full report too.
#[test]
fn every_field_of_every_packet_is_read() {
    let whole = packets(MOST_PACKETS);
    let report = |packets: &[Packet]| {
        let mut link = used();
        let now = 9000 * MS;
        link.report(packets, None, now).map(|_| link)
    };
    let unchanged = report(&whole).unwrap();
    for place in [0, 511, MOST_PACKETS - 1] {
        let changed = |change: fn(&mut Packet)| {
            let mut packets = whole.clone();
            change(&mut packets[place]);
            report(&packets)
        };
        assert_eq!(changed(|p| p.size = 0), Err(Refusal::BadSize));
        assert_eq!(changed(|p| p.send = u64::MAX), Err(Refusal::BadInstant));
        assert_eq!(changed(|p| p.remote = u64::MAX), Err(Refusal::BadInstant));
        assert_eq!(changed(|p| p.receive = u64::MAX), Err(Refusal::BadInstant));
        // one long round trip shows in the smoothed one
        assert_ne!(changed(|p| p.receive += 3000 * MS).unwrap(), unchanged);
        assert_eq!(changed(|p| p.sequence = u64::MAX).unwrap(), unchanged);
    }
}

/// Of two packets with equal instants the one with the lower sequence comes first. Here the instants
/// go back, so that the first one's size is left out of the window's sum (word 6).
#[test]
fn the_sequence_orders_equals() {
    let sum = |sequences: [u64; 2]| {
        let mut pair = [packet(0), packet(0)];
        (pair[0].sequence, pair[0].size) = (sequences[0], 100);
        (pair[1].sequence, pair[1].size) = (sequences[1], 1000);
        let mut link = used();
        link.report(&pair, None, 3000 * MS).unwrap();
        link.words()[6]
    };
    assert_eq!(sum([1, 2]), 1000);
    assert_eq!(sum([2, 1]), 100);
}

#[test]
fn the_first_no_counts() {
    let mut loaded = Link::from_words([7; LINK_WORDS]);
    let many = packets(MOST_PACKETS + 1);
    assert_eq!(loaded.report(&many, None, 1), Err(Refusal::OutOfRange));
    assert_eq!(loaded.timeout(1), Err(Refusal::OutOfRange));
    assert_eq!(*loaded.words(), [7; LINK_WORDS]);

    let mut wrong = many;
    wrong[0].size = 0;
    wrong[0].send = u64::MAX;
    assert_eq!(refused(&wrong, Some(-1.0), 1), Refusal::BadLists);
    wrong.truncate(2);
    assert_eq!(refused(&wrong, Some(-1.0), 1), Refusal::BadInstant);
    wrong[0].send = 0;
    assert_eq!(refused(&wrong, Some(-1.0), 1), Refusal::BadSize);
    wrong[0].size = u64::MAX;
    assert_eq!(refused(&wrong, Some(-1.0), 1), Refusal::BadMoment);
    assert_eq!(refused(&wrong, Some(-1.0), MS), Refusal::BadProbe);
    wrong[0].remote = packet(200).remote;
    assert_eq!(refused(&wrong, None, MS), Refusal::TooManyBytes);
}

/// Timeouts at the last instant, whose lines are long, each linked to the next one.
fn timeouts(records: usize) -> Vec<u8> {
    let mut file = vec![];
    for number in 1..=records {
        let next = if number == records { 0 } else { number + 1 };
        let mut timeout = record(next as u32, 3, 0);
        timeout[32..40].copy_from_slice(&MOST_INSTANT.to_le_bytes());
        file.extend(timeout);
    }
    file
}

/// How many lines a file has that is listed into so much output, of which the rest stays as it was.
fn lines(file: &[u8], room: usize) -> usize {
    let mut out = vec![0xa5; room];
    let length = list(file, &mut out).unwrap();
    assert!(out[length..].iter().all(|byte| *byte == 0xa5));
    out[..length].iter().filter(|byte| **byte == b'\n').count()
}

/// Numbers of records on both sides of the limits, and the output that they want.
const LIMITS: [(usize, usize); 5] = [
    (1, LEAST_OUTPUT),
    (1_365, LEAST_OUTPUT),
    (1_366, 65_568),
    (65_534, 3_145_632),
    (MOST_RECORDS, MOST_OUTPUT),
];

#[test]
fn room_at_its_limits() {
    for (records, output) in LIMITS {
        assert_eq!(room(48 * records - 1), Err(Refusal::BadLength));
        assert_eq!(room(48 * records), Ok(output));
        assert_eq!(room(48 * records + 1), Err(Refusal::BadLength));
    }
    let long = 48 * (MOST_RECORDS + 1);
    let last = usize::MAX / 48 * 48;
    for length in [0, 1, long, 3 << 32, (3 << 32) + 48, last, usize::MAX] {
        assert_eq!(room(length), Err(Refusal::BadLength));
    }
}

#[test]
fn a_listing_at_its_limits() {
    for (records, output) in LIMITS {
        let file = timeouts(records);
        assert_eq!(unlisted(&file, 0), Refusal::ShortOutput);
        assert_eq!(unlisted(&file, output - 1), Refusal::ShortOutput);
        assert_eq!(lines(&file, output), records);
        assert_eq!(lines(&file, output + 1), records);
    }
    let longer = timeouts(MOST_RECORDS + 1);
    assert_eq!(unlisted(&longer, MOST_OUTPUT + 48), Refusal::BadLength);
}

/// A longer file of which one record is linked.
#[test]
fn records_that_are_not_linked_want_output() {
    let mut file = timeouts(1_366);
    file[..4].fill(0);
    assert_eq!(unlisted(&file, LEAST_OUTPUT), Refusal::ShortOutput);
    assert_eq!(unlisted(&file, 65_567), Refusal::ShortOutput);
    assert_eq!(lines(&file, 65_568), 1);
}

/// The faults of a file's last record, with an output that is too short.
#[test]
fn the_first_no_of_a_file_counts() {
    for (records, output) in LIMITS {
        let mut file = timeouts(records);
        let last = 48 * (records - 1);
        file[last..last + 5].copy_from_slice(&[1, 0, 0, 0, 4]);
        let cut = &file[..last + 47];
        assert_eq!(unlisted(cut, output - 1), Refusal::BadLength);
        assert_eq!(unlisted(&file, output - 1), Refusal::BadKind);
        file[last + 4] = 3;
        assert_eq!(unlisted(&file, output - 1), Refusal::BadNext);
        file[last] = 0;
        assert_eq!(unlisted(&file, output - 1), Refusal::ShortOutput);
    }
}

#[test]
fn words_of_another_format_or_with_an_unknown_tag() {
    let link = used();
    // the format; tags of options (window's last update, groups), of the hypothesis, of the state
    for (place, tag) in [(0, 0), (0, 2), (8, 2), (12, 2), (17, 5), (76, 3), (77, 3)] {
        let mut words = *link.words();
        words[place] = tag;
        let mut loaded = Link::from_words(words);
        assert_eq!(loaded.read(), Err(Refusal::OutOfRange));
        assert_eq!(loaded.timeout(2000 * MS), Err(Refusal::OutOfRange));
        assert_eq!(
            loaded.report(&[], None, 2000 * MS),
            Err(Refusal::OutOfRange)
        );
        assert_eq!(*loaded.words(), words);
    }
    assert_eq!(link.words()[0], 1);
}

#[test]
fn words_out_of_range() {
    let link = used();
    // the rate at 78, the threshold at 68
    for (place, value) in [
        (78, 39_999.0),
        (78, f64::NAN),
        (68, 0.0),
        (68, f64::INFINITY),
    ] {
        let mut words = *link.words();
        words[place] = f64::to_bits(value);
        assert_eq!(Link::from_words(words).read(), Err(Refusal::OutOfRange));
    }
}

#[test]
fn a_probe_is_the_estimate() {
    let mut link = open();
    let estimate = link.report(&[], Some(2e6), 1000 * MS).unwrap();
    let expected = Estimate {
        bitrate: 2e6,
        hypothesis: BandwidthUsage::Normal,
        next_timeout: 1025 * MS,
    };
    assert_eq!(estimate, expected);
    for probe in [-1.0, 1.1e14, f64::NAN, f64::INFINITY] {
        assert_eq!(
            link.report(&[], Some(probe), 1010 * MS),
            Err(Refusal::BadProbe)
        );
    }
    // a report without one leaves the estimate, which a probe of 0 would not
    assert_eq!(link.report(&[], None, 1010 * MS).unwrap().bitrate, 2e6);
    assert_eq!(
        link.report(&[], Some(0.0), 1010 * MS).unwrap().bitrate,
        40_000.0
    );
}

#[test]
fn growing_delays_are_overuse() {
    let mut link = used();
    let mut seen = vec![];
    for part in 20..60 {
        let mut late: Vec<Packet> = (part * 10..part * 10 + 10).map(packet).collect();
        for packet in &mut late {
            let queue = (packet.sequence - 200) * 3 * MS;
            packet.remote += queue;
            packet.receive += queue;
        }
        let now = whole_ms(late[9].receive);
        seen.push(link.report(&late, None, now).unwrap());
    }
    let overuse = seen
        .iter()
        .filter(|e| e.hypothesis == BandwidthUsage::Overuse);
    assert!(overuse.count() > 0);
    assert!(seen[39].bitrate < seen[0].bitrate);
    assert!(link.read().unwrap().threshold_ms > 6.0);
}

/// A report without packets, 100 ms after the last update and without a round trip, on a link whose
/// acknowledged rate is its average: it adds half a packet of 1200 * 8 bits or less, and at least
/// 1,000 bps.
#[test]
fn a_step_near_convergence() {
    let rows = [
        (40_000.0, 41_000.0),
        (60_000.0, 61_000.0),
        (288_000.0, 292_800.0),
        (1e6, 1_004_166.6666666666),
    ];
    for (start, estimate) in rows {
        let mut words = *Link::open(start, 500 * MS, 150 * MS).unwrap().words();
        for (tag, value) in [
            (3, 1e6_f64.to_bits()),
            (84, 1e6_f64.to_bits()),
            (88, 1000 * MS),
        ] {
            (words[tag], words[tag + 1]) = (1, value);
        }
        let answer = Link::from_words(words).report(&[], None, 1100 * MS);
        assert_eq!(answer.unwrap().bitrate, estimate);
    }
}

#[test]
fn a_link_is_plain_data() {
    fn plain<T: Send + Sync + Unpin + Clone + 'static>() {}
    plain::<Link>();
    assert_eq!(size_of::<Link>(), 8 * LINK_WORDS);
    let mut link = used();
    let other = link.clone();
    let there = std::thread::spawn(move || {
        let mut other = other;
        other.timeout(3000 * MS).map(|estimate| (estimate, other))
    });
    let here = link.timeout(3000 * MS).unwrap();
    assert_eq!(there.join().unwrap(), Ok((here, link)));
}

#[test]
fn moments_and_durations() {
    assert_eq!(whole_ms(0), 0);
    assert_eq!(whole_ms(1), MS);
    assert_eq!(whole_ms(MS), MS);
    assert_eq!(whole_ms(MOST_INSTANT), MOST_INSTANT);
    assert!(whole_ms(u64::MAX) > MOST_INSTANT);
    assert_eq!(whole_ns(Duration::from_micros(3)), 3000);
    assert_eq!(whole_ns(Duration::MAX), u64::MAX);
}
