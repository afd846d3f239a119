//! Pass files by live calls, beside their listings.
#[path = "../examples/live/pass.rs"]
mod pass;

use hornetpewter::{LEAST_OUTPUT, Link, list, room};
use pass::{RECORD_BYTES, calls, open};

fn listing(file: &[u8]) -> String {
    let mut out = vec![0; room(file.len()).unwrap()];
    let length = list(file, &mut out).unwrap();
    out.truncate(length);
    String::from_utf8(out).unwrap()
}

/// The sample files of the repository.
fn sample(name: &str) -> Vec<u8> {
    let folder = concat!(env!("CARGO_MANIFEST_DIR"), "/../../samples");
    std::fs::read(format!("{folder}/{name}.pass")).unwrap()
}

/// Each line of the listing is the live call's; gives how many there are.
fn agree(file: &[u8]) -> usize {
    let listing = listing(file);
    let lines: Vec<&str> = listing.split_inclusive('\n').collect();
    let calls = calls(file);
    assert_eq!(lines.len(), calls.len());
    let mut link = open();
    for (call, line) in calls.iter().zip(&lines) {
        assert_eq!(call.line(&mut link), *line);
    }
    lines.len()
}

/// The example of document 01.
fn example() -> Vec<u8> {
    let mut file = vec![0; 3 * RECORD_BYTES];
    let mut put = |record: usize, place: usize, bytes: &[u8]| {
        let at = (record - 1) * RECORD_BYTES + place;
        file[at..at + bytes.len()].copy_from_slice(bytes);
    };
    put(1, 0, &3_u32.to_le_bytes());
    put(1, 4, &[3]);
    put(1, 32, &1_000_000_000_u64.to_le_bytes());
    put(3, 4, &[2, 1]);
    put(3, 32, &1_010_000_000_u64.to_le_bytes());
    put(3, 40, &2_000_000_f64.to_le_bytes());
    file
}

#[test]
fn the_example_of_document_01() {
    let lines = "1 0 N 412e848000000000 1025000000\n3 0 N 413e848000000000 1035000000\n";
    assert_eq!(listing(&example()), lines);
    assert_eq!(agree(&example()), 2);
}

#[test]
fn the_sample_with_congestion() {
    assert!(agree(&sample("congestion")) > 100);
}

#[test]
fn the_sample_with_empty_packets() {
    let file = sample("empty_packets");
    assert!(agree(&file) > 100);
    let refused = listing(&file)
        .lines()
        .filter(|line| line.contains(" 6 "))
        .count();
    assert!(refused > 0);
}

#[test]
fn the_sample_with_a_handover() {
    let file = sample("handover");
    assert!(file.len() > 1_365 * RECORD_BYTES);
    assert!(agree(&file) > 100);
}

#[test]
fn bytes_after_the_listing_stay() {
    let mut out = vec![0xa5; LEAST_OUTPUT + 10];
    let length = list(&sample("congestion"), &mut out).unwrap();
    assert!(out[length..].iter().all(|byte| *byte == 0xa5));
    assert!(out[..length].ends_with(b"\n"));
}

/// A link that is stored and loaded before every call goes on as one that is not.
#[test]
fn a_loaded_link_goes_on_alike() {
    let file = sample("congestion");
    let (mut kept, mut stored) = (open(), *open().words());
    for call in calls(&file) {
        let mut loaded = Link::from_words(stored);
        assert_eq!(call.line(&mut loaded), call.line(&mut kept));
        assert_eq!(loaded, kept);
        stored = *loaded.words();
    }
}
