//! Feedback messages, read whole.
use hornetpewter::{Feedback, FeedbackHeader, FeedbackPacket, Refusal};

type Reading = Result<(FeedbackHeader, Vec<Option<i32>>), Refusal>;

fn bytes(hex: &str) -> Vec<u8> {
    let digits: Vec<u32> = hex.chars().filter_map(|c| c.to_digit(16)).collect();
    let byte = |two: &[u32]| (two[0] << 4 | two[1]) as u8;
    digits.chunks(2).map(byte).collect()
}

/// What the crate says of a message; the sequence numbers follow the header's one by one.
fn read(message: &[u8]) -> Reading {
    let mut feedback = Feedback::read(message)?;
    let header = feedback.header();
    let mut all = vec![];
    while let Some(FeedbackPacket { sequence, ticks }) = feedback.next() {
        assert_eq!(sequence, header.base_seq.wrapping_add(all.len() as u16));
        all.push(ticks);
        assert_eq!(feedback.len(), usize::from(header.status_count) - all.len());
    }
    assert_eq!(all.len(), usize::from(header.status_count));
    assert_eq!(feedback.header(), header);
    assert_eq!((feedback.next(), feedback.next()), (None, None));
    Ok((header, all))
}

fn symbols(chunk: u16) -> Vec<u16> {
    match chunk >> 14 {
        0 | 1 => vec![chunk >> 13; usize::from(chunk & 0x1fff)],
        2 => (0..14).rev().map(|bit| chunk >> bit & 1).collect(),
        _ => (0..7).rev().map(|two| chunk >> (2 * two) & 3).collect(),
    }
}

/// What document 02 says of a message.
fn by_document(message: &[u8]) -> Reading {
    let Some((&[a, b, c, d, e, f, g, feedback_count], mut rest)) = message.split_first_chunk()
    else {
        return Err(Refusal::CutShort);
    };
    let header = FeedbackHeader {
        base_seq: u16::from_be_bytes([a, b]),
        status_count: u16::from_be_bytes([c, d]),
        reference_time: i32::from_be_bytes([e, f, g, 0]) >> 8,
        feedback_count,
    };
    let count = usize::from(header.status_count);
    if count == 0 {
        return Err(Refusal::NoStatus);
    }
    let mut all = vec![];
    while all.len() < count {
        let (chunk, after) = rest.split_first_chunk().ok_or(Refusal::CutShort)?;
        let mut counted = symbols(u16::from_be_bytes(*chunk));
        counted.truncate(count - all.len());
        if counted.contains(&3) {
            return Err(Refusal::Reserved);
        }
        all.extend(counted);
        rest = after;
    }
    let mut sum = 0;
    let mut ticks = |symbol| -> Result<Option<i32>, Refusal> {
        let (delta, after) = rest
            .split_at_checked(usize::from(symbol))
            .ok_or(Refusal::CutShort)?;
        rest = after;
        sum += match *delta {
            [] => return Ok(None),
            [small] => i32::from(small),
            _ => i32::from(i16::from_be_bytes([delta[0], delta[1]])),
        };
        Ok(Some(sum))
    };
    let ticks: Result<Vec<Option<i32>>, Refusal> =
        all.iter().map(|symbol| ticks(*symbol)).collect();
    Ok((header, ticks?))
}

/// Ticks in order, `-` where not received.
fn told(base_seq: u16, reference_time: i32, feedback_count: u8, ticks: &str) -> Reading {
    let ticks: Vec<Option<i32>> = ticks.split(' ').map(|tick| tick.parse().ok()).collect();
    let header = FeedbackHeader {
        base_seq,
        status_count: ticks.len() as u16,
        reference_time,
        feedback_count,
    };
    Ok((header, ticks))
}

fn worked() -> Vec<(&'static str, Reading)> {
    use Refusal::{CutShort, NoStatus, Reserved};
    let ticks = |ticks| told(0, 0, 0, ticks);
    vec![
        // the header
        ("", Err(CutShort)),
        ("0000 0000 0000 00", Err(CutShort)),
        ("0000 0001 0000 00", Err(CutShort)),
        ("0000 0000 000000 00", Err(NoStatus)),
        ("0000 0000 000000 00 6001", Err(NoStatus)),
        (
            "1234 0001 123456 78 2001 05",
            told(4660, 1_193_046, 120, "5"),
        ),
        ("0000 0001 ffffff 00 2001 05", told(0, -1, 0, "5")),
        (
            "ffff 0001 7fffff 80 2001 ff",
            told(65_535, 8_388_607, 128, "255"),
        ),
        (
            "fffe 0005 800000 ff 2005 0001020304",
            told(65_534, -8_388_608, 255, "0 1 3 6 10"),
        ),
        // the reserved symbol, and what is cut short
        ("0000 0001 000000 00", Err(CutShort)),
        ("0000 0001 000000 00 60", Err(CutShort)),
        ("0000 0001 000000 00 6001", Err(Reserved)),
        ("0000 0002 000000 00 6001", Err(Reserved)),
        ("0000 0002 000000 00 2001 60", Err(CutShort)),
        ("0000 0002 000000 00 2001 6001", Err(Reserved)),
        ("0000 0001 000000 00 2001", Err(CutShort)),
        ("0000 0001 000000 00 4001 05", Err(CutShort)),
        ("0000 0002 000000 00 4001 2001 0506", Err(CutShort)),
        // padding that is left on stands in for a delta
        ("0000 0002 000000 00 2002 05", Err(CutShort)),
        ("0000 0002 000000 00 2002 05 00", ticks("5 5")),
        ("0000 0001 000000 00 2001 05 ffffff", ticks("5")),
        // the draft's chunks
        ("0000 0003 000000 00 00dd", ticks("- - -")),
        ("0000 00de 000000 00 00dd", Err(CutShort)),
        ("0000 0018 000000 00 6018", Err(Reserved)),
        (
            "000a 000e 000001 02 9f1c 0102030405060708",
            told(10, 1, 2, "- 1 3 6 10 15 - - - 21 28 36 - -"),
        ),
        ("000a 000e 000001 02 9f1c 01020304050607", Err(CutShort)),
        ("0000 0001 000000 00 cd50", ticks("-")),
        ("0000 0002 000000 00 cd50 0102030405", Err(Reserved)),
        (
            "0000 0007 000000 00 d258 0a fffe 03 04 8000",
            ticks("10 - 8 11 15 -32753 -"),
        ),
        // spare symbols, runs past the count and of no packets
        ("0000 0003 000000 00 bfff 010203", ticks("1 3 6")),
        ("0000 0001 000000 00 dfff 09", ticks("9")),
        ("0000 0002 000000 00 dfff 09", Err(Reserved)),
        ("0000 0001 000000 00 2002 05", ticks("5")),
        ("0000 0002 000000 00 2002 6001", ticks("96 97")),
        ("0000 0001 000000 00 0000", Err(CutShort)),
        ("0000 0001 000000 00 0000 2001 05", ticks("5")),
        ("0000 0001 000000 00 4000 2001 05", ticks("5")),
        ("0000 0001 000000 00 6000 2001 05", ticks("5")),
        // small and large deltas
        ("0000 0002 000000 00 2002 80ff", ticks("128 383")),
        ("0000 0001 000000 00 4001 00ff", ticks("255")),
        ("0000 0001 000000 00 4001 ffff", ticks("-1")),
        ("0000 0002 000000 00 4002 7fff7fff", ticks("32767 65534")),
        ("0000 0002 000000 00 4002 80008000", ticks("-32768 -65536")),
        ("0000 0002 000000 00 4001 2001 0506 07", ticks("1286 1293")),
        (
            "0000 0005 000000 00 2001 0002 2002 010203",
            ticks("1 - - 3 6"),
        ),
    ]
}

#[test]
fn worked_messages() {
    for (hex, reading) in worked() {
        assert_eq!(read(&bytes(hex)), reading, "{hex}");
        assert_eq!(by_document(&bytes(hex)), reading, "{hex}");
    }
}

/// A message of 65,535 packets: so many chunks of one kind, and the same two bytes as deltas.
fn longest(base: u16, chunk: u16, chunks: usize, delta: u16, deltas: usize) -> Vec<u8> {
    let mut message = vec![];
    message.extend(base.to_be_bytes());
    message.extend([0xff, 0xff, 0, 0, 0, 0]);
    message.extend(chunk.to_be_bytes().repeat(chunks));
    message.extend(delta.to_be_bytes().repeat(deltas));
    message
}

#[test]
fn the_longest_messages() {
    for (message, last) in [
        (longest(1, 0x5fff, 9, 0x7fff, 65_535), Some(2_147_385_345)),
        (
            longest(65_535, 0x5fff, 9, 0x8000, 65_535),
            Some(-2_147_450_880),
        ),
        (longest(0, 0x1fff, 9, 0, 0), None),
        (longest(0, 0x8000, 4_682, 0, 0), None),
        (
            longest(40_000, 0xe000, 9_363, 0x0102, 65_535),
            Some(9_363 * 258),
        ),
    ] {
        let reading = read(&message);
        assert_eq!(reading, by_document(&message));
        assert_eq!(reading.unwrap().1.last(), Some(&last));
    }
    let short = longest(1, 0x5fff, 9, 0x7fff, 65_534);
    assert_eq!(read(&short), Err(Refusal::CutShort));
}

/// The value of a key of a line of JSON.
fn value<'a>(line: &'a str, key: &str) -> Option<&'a str> {
    let (_, after) = line.split_once(&format!("\"{key}\": "))?;
    Some(after)
}

/// The reading that a line has: the header and [sequence, ticks] of each packet, or the refusal's
/// number.
fn of_line(line: &str) -> Result<(FeedbackHeader, Vec<Option<i32>>), u8> {
    if let Some(number) = value(line, "refused") {
        return Err(number.trim_end_matches('}').parse().unwrap());
    }
    let list = |text: &str| -> Vec<Option<i32>> {
        let text = text.trim_matches(['[', ']', '}']);
        text.split(", ").map(|number| number.parse().ok()).collect()
    };
    let (header, _) = value(line, "header").unwrap().split_once(']').unwrap();
    let header: Vec<i32> = list(header).into_iter().flatten().collect();
    let header = FeedbackHeader {
        base_seq: header[0] as u16,
        status_count: header[1] as u16,
        reference_time: header[2],
        feedback_count: header[3] as u8,
    };
    let mut ticks = vec![];
    for packet in value(line, "packets").unwrap().split("], [").map(list) {
        let sequence = header.base_seq.wrapping_add(ticks.len() as u16);
        assert_eq!(packet[0], Some(i32::from(sequence)));
        ticks.push(packet[1]);
    }
    Ok((header, ticks))
}

fn samples() -> String {
    let folder = concat!(env!("CARGO_MANIFEST_DIR"), "/../../samples");
    std::fs::read_to_string(format!("{folder}/feedback.jsonl")).unwrap()
}

fn message_of(line: &str) -> Vec<u8> {
    let (_, text) = value(line, "message").unwrap().split_once('"').unwrap();
    bytes(text.split_once('"').unwrap().0)
}

/// 143 messages of three receivers, each with the reading on which three readers agree.
#[test]
fn messages_of_real_receivers() {
    let (mut accepted, mut refused) = (0, 0);
    for line in samples().lines() {
        let message = message_of(line);
        let reading = read(&message);
        assert_eq!(reading, by_document(&message), "{line}");
        match reading {
            Ok(_) => accepted += 1,
            Err(_) => refused += 1,
        }
        assert_eq!(reading.map_err(Refusal::number), of_line(line), "{line}");
    }
    assert_eq!((accepted, refused), (142, 1));
}

/// Messages that are cut off, or have a byte changed, read as document 02 has it.
#[test]
fn damaged_messages() {
    let mut state = 1_u64;
    let mut below = |n: usize| {
        state = state
            .wrapping_mul(6_364_136_223_846_793_005)
            .wrapping_add(1_442_695_040_888_963_407);
        (state >> 33) as usize % n
    };
    let whole: Vec<Vec<u8>> = samples()
        .lines()
        .map(message_of)
        .chain(worked().iter().map(|(hex, _)| bytes(hex)))
        .filter(|message| message.len() < 200)
        .collect();
    for message in &whole {
        for length in 0..message.len() {
            let cut = &message[..length];
            assert_eq!(read(cut), by_document(cut), "{cut:x?}");
        }
    }
    for _ in 0..20_000 {
        let mut message = whole[below(whole.len())].clone();
        for _ in 0..below(4) {
            if !message.is_empty() {
                let place = below(message.len().min(16));
                message[place] = below(256) as u8;
            }
        }
        assert_eq!(read(&message), by_document(&message), "{message:x?}");
    }
}

/// A copy goes on from where it was made, and neither is seen by the other.
#[test]
fn a_copy_goes_on_alike() {
    let message = longest(65_000, 0xb555, 4_682, 0xff01, 18_725);
    let mut feedback = Feedback::read(&message).unwrap();
    for taken in [0, 1, 62, 1, 1, 63, 500] {
        feedback.by_ref().take(taken).for_each(drop);
        let copy = feedback.clone();
        assert_eq!(copy.len(), feedback.len());
        assert!(copy.eq(feedback.clone()));
    }
    assert_eq!(
        feedback.next().unwrap().sequence,
        65_000_u16.wrapping_add(628)
    );
    assert_eq!(feedback.count(), 65_535 - 629);
}

#[test]
fn a_reader_is_plain_data() {
    fn plain<T: Send + Sync + Unpin + Clone>() {}
    plain::<Feedback<'static>>();
    assert!(size_of::<Feedback<'static>>() <= 450);
    assert_eq!(
        Refusal::CutShort.to_string(),
        "the feedback message is cut short (question 14)"
    );
}
