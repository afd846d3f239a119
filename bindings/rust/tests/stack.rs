//! Every call on a thread with a small stack.
use std::thread;

use hornetpewter::{Feedback, LEAST_OUTPUT, Link, MOST_PACKETS, Packet, list, room};

const MS: u64 = 1_000_000;
const STACK: usize = 128 << 10;

/// As many packets as a report may have, the last one first, so that they are put in order too.
fn packets() -> Vec<Packet> {
    let packet = |sequence: u64| Packet {
        sequence,
        size: 1200,
        send: sequence * 5 * MS,
        remote: sequence * 5 * MS,
        receive: sequence * 5 * MS,
    };
    (1..=MOST_PACKETS as u64).rev().map(packet).collect()
}

fn every_call(packets: &[Packet], out: &mut [u8]) -> usize {
    let mut link = Link::open(1e6, 500 * MS, 150 * MS).unwrap();
    link.report(packets, None, 6000 * MS).unwrap();
    link.timeout(6025 * MS).unwrap();
    link.read().unwrap();
    let lost = [0, 0, 0x1f, 0xff, 0, 0, 0, 0, 0x1f, 0xff];
    assert_eq!(Feedback::read(&lost).unwrap().count(), 8_191);
    let mut file = [0; 48];
    file[4] = 2;
    assert_eq!(room(file.len()), Ok(out.len()));
    list(&file, out).unwrap()
}

#[test]
fn a_stack_of_128_kib_is_enough() {
    let packets = packets();
    let mut out = vec![0; LEAST_OUTPUT];
    let calls = move || every_call(&packets, &mut out);
    let thread = thread::Builder::new().stack_size(STACK).spawn(calls);
    assert!(thread.unwrap().join().unwrap() > 0);
}
