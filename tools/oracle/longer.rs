//! Pass files at and near the library's limit of 65,535 records, and beyond 1,365, where question 13 asks for 48 bytes a record.
use crate::bwe::pass::{least_output, LEAST_OUTPUT, MOST_RECORDS, RECORD_BYTES, SHORT_RECORDS};
use crate::limits::{LAST, MS};
use crate::limits_calls::chained;
use crate::make::Random;
use crate::pass_files::{damage, fields, good};

/// A file, damaged or not, and a length of the output.
pub fn longer(r: &mut Random) -> (Vec<u8>, u32) {
    let mut file = whole(r);
    if r.one_in(8) {
        for _ in 0..1 + r.below(3) {
            damage(r, &mut file, MOST_RECORDS);
        }
    }
    if r.one_in(20) {
        let cut = r.pick(&[1, RECORD_BYTES - 1, RECORD_BYTES, RECORD_BYTES + 1]);
        file.truncate(file.len().saturating_sub(cut));
    }
    // pass_replay has room for a file and an output of two records past the limit
    file.truncate((MOST_RECORDS + 2) * RECORD_BYTES - 1);
    let enough = least_output(file.len() / RECORD_BYTES);
    let room = match r.below(8) {
        0 => r.pick(&[enough - 1, enough - RECORD_BYTES as u32, enough / 2, LEAST_OUTPUT, LEAST_OUTPUT - 1, 0]),
        1 => enough + 1,
        _ => enough,
    };
    (file, room)
}

fn whole(r: &mut Random) -> Vec<u8> {
    let (short, most) = (SHORT_RECORDS as u64, MOST_RECORDS as u64);
    let records = match r.below(16) {
        0 => r.near(short),
        1 => r.near(most),
        2 | 3 => short + 1 + r.below(most - short),
        _ => short + 1 + r.below(6000),
    } as usize;
    match r.below(40) {
        0 => byte_sum(r),
        1..6 => long_lines(r, records),
        kind => {
            // a third of the chains has a gap, most often after the first record
            let first = if kind < 16 { 2 } else { 2 + r.below(records as u64) as usize };
            let gap = if kind < 20 { r.below(records as u64) as usize } else { 0 };
            good(r, records, first..first + gap)
        }
    }
}

/// A line a record, the longest there are: the next timeout has 19 digits. Some calls are refused, with 7 or 8.
fn long_lines(r: &mut Random, records: usize) -> Vec<u8> {
    let call = |k| {
        let now = LAST - MS * r.below(25) + (k > 0 && r.one_in(8)) as u64;
        let probe = if k > 0 && r.one_in(8) { -1.0 } else { r.sized(34) as f64 };
        let (op, i) = if r.one_in(2) { (93, [now, 0, 0, 0, 0]) } else { (92, [r.below(2), probe.to_bits(), now, 0, 0]) };
        fields(op, i, r)
    };
    chained((0..records).map(call).collect())
}

/// Question 9's limit: 32,768 packets of 65,535 bytes in one window leave 32,767 bytes, and some more packets come near that.
fn byte_sum(r: &mut Random) -> Vec<u8> {
    let (mut records, mut packets, mut waiting) = (vec![], 0, 0);
    for k in 0..32_801 + r.below(400) {
        let now = 1000 * MS + k * 1000;
        if waiting == 1024 || packets >= 32_768 && r.one_in(2) {
            records.push(fields(92, [0, 0, now / MS * MS, 0, 0], r));
            waiting = 0;
            continue;
        }
        let size = if packets < 32_768 { 65_535 } else { r.pick(&[1, 2, 32_765, 32_766, 32_767, 32_768, 65_535]) };
        records.push(fields(91, [packets, size, now, now + 20 * MS, now + 40 * MS], r));
        (packets, waiting) = (packets + 1, waiting + 1);
    }
    chained(records)
}
