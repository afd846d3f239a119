//! Pass files through the live calls, beside the Rust's listings: the cases of the oracle, from
//! standard input.
//!
//!     export CARGO_TARGET_DIR=target/cargo
//!     target/oracle/oracle passes SEED COUNT long | cargo run --release --manifest-path bindings/rust/Cargo.toml --example live
//!
//! A case is five words of 4 bytes, little-endian (length of the file, room of the output, number,
//! length of the listing, linked packets), the file and the listing. A file that the Rust accepts is
//! listed and put through the live calls, both equal to the Rust's listing, the calls line by line;
//! one that it refuses is refused by `list` with the same number. Prints the counts, and exits with 1
//! where there is a difference or no case.
mod pass;

use std::io::{self, BufReader, Read};
use std::process::ExitCode;

use hornetpewter::list;
use pass::{Call, calls, open};

struct Case {
    file: Vec<u8>,
    room: usize,
    number: usize,
    listing: Vec<u8>,
}

fn word(words: &[u8; 20], place: usize) -> usize {
    u32::from_le_bytes(words[4 * place..4 * place + 4].try_into().unwrap()) as usize
}

/// The next case, or none at the end of the input.
fn next(input: &mut impl Read) -> io::Result<Option<Case>> {
    let mut words = [0; 20];
    if input.read(&mut words[..1])? == 0 {
        return Ok(None);
    }
    input.read_exact(&mut words[1..])?;
    let mut file = vec![0; word(&words, 0)];
    let mut listing = vec![0; word(&words, 3)];
    input.read_exact(&mut file)?;
    input.read_exact(&mut listing)?;
    Ok(Some(Case {
        file,
        room: word(&words, 1),
        number: word(&words, 2),
        listing,
    }))
}

#[derive(Default)]
struct Counts {
    files: u64,
    refused_files: u64,
    reports: u64,
    timeouts: u64,
    packets: u64,
    refused_calls: u64,
    different: u64,
}

impl Counts {
    fn call(&mut self, call: &Call, line: &str) {
        match call {
            Call::Report(_, packets, ..) => {
                self.reports += 1;
                self.packets += packets.len() as u64;
            }
            Call::Timeout(..) => self.timeouts += 1,
        }
        self.refused_calls += u64::from(line.split(' ').nth(1) != Some("0"));
    }
}

/// Whether each live call's line is the listing's.
fn live(case: &Case, counts: &mut Counts) -> bool {
    let mut link = open();
    let mut lines = case.listing.split_inclusive(|byte| *byte == b'\n');
    for call in calls(&case.file) {
        let line = call.line(&mut link);
        counts.call(&call, &line);
        if lines.next() != Some(line.as_bytes()) {
            eprintln!("file {}: live: {line}", counts.files);
            return false;
        }
    }
    lines.next().is_none()
}

/// Whether the file is listed, or refused, as the Rust does.
fn listed(case: &Case) -> bool {
    let mut out = vec![0; case.room];
    match list(&case.file, &mut out) {
        Ok(length) => case.number == 0 && out[..length] == case.listing,
        Err(refusal) => usize::from(refusal.number()) == case.number,
    }
}

fn main() -> io::Result<ExitCode> {
    let mut input = BufReader::with_capacity(1 << 20, io::stdin().lock());
    let mut counts = Counts::default();
    while let Some(case) = next(&mut input)? {
        counts.files += 1;
        let accepted = case.number == 0;
        counts.refused_files += u64::from(!accepted);
        if !listed(&case) || accepted && !live(&case, &mut counts) {
            counts.different += 1;
            eprintln!("file {} differs", counts.files);
        }
    }
    println!(
        "{} files ({} refused), {} reports with {} packets, {} timeouts, {} calls refused; {} files differ",
        counts.files,
        counts.refused_files,
        counts.reports,
        counts.packets,
        counts.timeouts,
        counts.refused_calls,
        counts.different
    );
    let good = counts.files > 0 && counts.different == 0;
    Ok(if good {
        ExitCode::SUCCESS
    } else {
        ExitCode::FAILURE
    })
}
