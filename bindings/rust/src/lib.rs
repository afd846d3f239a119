//! The delay estimator of str0m (WebRTC bandwidth estimation) as a library that is proved: every call
//! gets an answer and does nothing undefined, every answer equals str0m's to the bit (its one `powf`
//! by a table, and its packet size by the draft's), and no list of calls can jam an estimate. This
//! crate calls it safely. It needs no other crate, no `std` and no allocator.
//!
//! A [`Link`] is opened, then handed the reports and timeouts of one connection as they come. Each
//! call answers with an [`Estimate`], or with a [`Refusal`] and leaves the link as it was.
//!
//! ```
//! use hornetpewter::{BandwidthUsage, Link, Packet, Refusal};
//!
//! let mut link = Link::open(1_000_000.0, 500_000_000, 150_000_000)?; // windows of 500 and 150 ms
//! let packets = [
//!     Packet { sequence: 1, size: 1_200, send: 1_000_000_000, remote: 77_020_000_000, receive: 1_040_000_000 },
//!     Packet { sequence: 2, size: 1_200, send: 1_002_000_000, remote: 77_022_000_000, receive: 1_040_000_000 },
//! ];
//! let estimate = link.report(&packets, None, 1_041_000_000)?;
//! assert_eq!(estimate.bitrate, 1_000_000.0);
//! assert_eq!(estimate.hypothesis, BandwidthUsage::Normal);
//! assert_eq!(estimate.next_timeout, 1_066_000_000);
//!
//! let estimate = link.timeout(1_066_000_000)?;
//! assert_eq!(estimate.next_timeout, 1_091_000_000);
//! # Ok::<(), Refusal>(())
//! ```
//!
//! A report's packets come from a feedback message, which [`Feedback`] reads.
//!
//! # Instants and the two clocks
//!
//! Instants are whole ns from an origin of the caller's, up to 10^18 (31 years). There are two clocks,
//! each with its own origin, and the library never compares one with the other:
//!
//! - the local clock has a packet's `send` and `receive`, and `now`;
//! - the remote clock has a packet's `remote`.
//!
//! An instant must not lie before its clock's origin, so choose the origins early enough: the instant
//! at which the program started, or an hour before the first remote instant. The clocks may go back
//! and calls may come in any order; the answers are then what str0m's are.
//!
//! `now` is also a whole ms: [`whole_ms`] rounds it up. [`whole_ns`] gives the ns of a `Duration`.
//!
//! # When to call
//!
//! - [`Link::report`] with the packets of each feedback message that were received, also where all
//!   were lost;
//! - [`Link::timeout`] once the last estimate's `next_timeout` is reached. It is 0 before the first
//!   call, which means due.
//!
//! The example `gateway` has the loop, and what changes in a program that calls str0m's estimator. Near
//! convergence an increase adds half a packet of 1200 * 8 bits, as draft-ietf-rmcat-gcc-02 has it, or
//! less, but at least 1,000 bps; str0m adds 1,000 bps whatever the estimate.
//!
//! # Refusals
//!
//! A call is judged by numbered questions, in their order; the first no turns it down. A refused call
//! has no effect at all: the next one finds the link, and everything that was lent, as they were. So a
//! gateway may log a refusal and go on. Two deserve a look:
//!
//! - [`Refusal::BadSize`]: a packet of size 0 was counted, where the header has bytes too. Count whole
//!   packets.
//! - [`Refusal::OutOfRange`]: the words are no link's that calls had reached. Every call asks, since
//!   words that are loaded can be any ([`Link::from_words`]); a link that was opened and called never
//!   meets it. Open the link anew.
//!
//! # The archive
//!
//! `build.rs` looks for the proved archive, libhornetpewter.a, in the folder that the environment
//! variable `HORNETPEWTER_LIB_DIR` names; without it in `lib/` of this crate, then in `target/dist/lib`
//! of the repository. `tools/dist` in the repository makes it, and a copy of this crate that has it.
//! The archive needs `memcpy` and `memset`, which every Rust program has.
//!
//! # Threads, memory and stack
//!
//! A [`Link`] is 100 numbers and nothing else: `Send`, `Sync`, free to be moved, cloned, stored and
//! loaded again. The library has no state of its own, so links can be called on as many threads as
//! there are links. Nothing is allocated. A thread with a stack of 128 KiB can make every call: a
//! report takes some 95,000 bytes of it (104,000 unoptimised), of which 41,000 are a copy of the
//! packets, [`list`] 61,000, the other calls less than 8,000. A [`Feedback`] is some 450 bytes and
//! borrows its message.
#![no_std]
#![deny(missing_docs)]
#![deny(unsafe_code)]

use core::fmt;
use core::time::Duration;

mod feedback;
#[allow(unsafe_code)]
mod ffi;
mod refusal;

pub use feedback::{Feedback, FeedbackHeader, FeedbackPacket};
pub use refusal::Refusal;

/// How many numbers a [`Link`] is.
pub const LINK_WORDS: usize = 100;

/// The most packets that a report may have.
pub const MOST_PACKETS: usize = 1_024;

/// The most records that a pass file may have.
pub const MOST_RECORDS: usize = 65_535;

/// The least output that [`list`] asks for, in bytes: enough for a file of up to 1,365 records.
pub const LEAST_OUTPUT: usize = 65_536;

/// Output that is enough for every file, in bytes.
pub const MOST_OUTPUT: usize = 3_145_680;

/// A packet that the other side received, as a report has it.
#[derive(Clone, Copy, Debug, PartialEq, Eq)]
pub struct Packet {
    /// The sequence number, which orders packets whose instants are equal.
    pub sequence: u64,
    /// The size in bytes, at least 1: the whole packet with its headers.
    pub size: u64,
    /// When it was sent, in ns of the local clock.
    pub send: u64,
    /// When the other side received it, in ns of the remote clock.
    pub remote: u64,
    /// When the feedback about it came in, in ns of the local clock.
    pub receive: u64,
}

/// What the delays of the packets say about the use of the line.
#[derive(Clone, Copy, Debug, PartialEq, Eq)]
pub enum BandwidthUsage {
    /// Queues are growing: more is sent than the line takes.
    Overuse,
    /// The delay is steady.
    Normal,
    /// Queues are draining.
    Underuse,
}

impl fmt::Display for BandwidthUsage {
    fn fmt(&self, f: &mut fmt::Formatter<'_>) -> fmt::Result {
        f.write_str(match self {
            BandwidthUsage::Overuse => "overuse",
            BandwidthUsage::Normal => "normal",
            BandwidthUsage::Underuse => "underuse",
        })
    }
}

/// The answer of an accepted call.
#[derive(Clone, Copy, Debug, PartialEq)]
pub struct Estimate {
    /// The estimated rate in bps, from 40,000 to 10^10.
    pub bitrate: f64,
    /// The hypothesis about the line.
    pub hypothesis: BandwidthUsage,
    /// When to call [`Link::timeout`] next, in ns of the local clock. 0 before the first call.
    pub next_timeout: u64,
}

/// What a link holds, without a call.
#[derive(Clone, Copy, Debug, PartialEq)]
pub struct Reading {
    /// The estimate, as the last accepted call answered it.
    pub estimate: Estimate,
    /// The delay threshold by which overuse is judged, in ms.
    pub threshold_ms: f64,
}

/// The estimator of one connection: 100 numbers, of which the first is the format.
///
/// Links are equal if their numbers are. Two that differ can still answer alike, since a number that
/// belongs to an absent field is not read; calls write such a number as 0.
#[derive(Clone, Debug, PartialEq, Eq)]
pub struct Link {
    words: [u64; LINK_WORDS],
}

impl Link {
    /// Opens a link at a rate in bps, with two windows in ns for the rate at which packets are
    /// acknowledged: one until the first sample, one after it. str0m has 500 and 150 ms.
    ///
    /// ```
    /// use hornetpewter::{Link, Refusal};
    ///
    /// let link = Link::open(1_000_000.0, 500_000_000, 150_000_000)?;
    /// assert_eq!(link.read()?.estimate.bitrate, 1_000_000.0);
    /// assert_eq!(Link::open(39_999.0, 500_000_000, 150_000_000), Err(Refusal::BadStartBitrate));
    /// assert_eq!(Link::open(1_000_000.0, 0, 150_000_000), Err(Refusal::BadWindow));
    /// # Ok::<(), Refusal>(())
    /// ```
    ///
    /// # Errors
    ///
    /// [`Refusal::BadStartBitrate`], [`Refusal::BadWindow`]: questions 2 and 3.
    pub fn open(start_bitrate: f64, initial_window: u64, window: u64) -> Result<Link, Refusal> {
        ffi::open(start_bitrate, initial_window, window).map(|words| Link { words })
    }

    /// A report: the packets that it acknowledges, in any order, a probe's result in bps where one came
    /// with it, and the moment in ns of the local clock, a whole ms.
    ///
    /// ```
    /// use hornetpewter::{Link, Packet, Refusal};
    ///
    /// let mut link = Link::open(1_000_000.0, 500_000_000, 150_000_000)?;
    /// let estimate = link.report(&[], Some(2_000_000.0), 1_010_000_000)?;
    /// assert_eq!(estimate.bitrate, 2_000_000.0);
    ///
    /// let empty = Packet { sequence: 1, size: 0, send: 0, remote: 0, receive: 0 };
    /// assert_eq!(link.report(&[empty], None, 1_020_000_000), Err(Refusal::BadSize));
    /// assert_eq!(link.read()?.estimate, estimate); // the link is as it was
    /// # Ok::<(), Refusal>(())
    /// ```
    ///
    /// # Errors
    ///
    /// Questions 1 and 4 to 9, in this order: [`Refusal::OutOfRange`], [`Refusal::BadLists`],
    /// [`Refusal::BadInstant`], [`Refusal::BadSize`], [`Refusal::BadMoment`], [`Refusal::BadProbe`],
    /// [`Refusal::TooManyBytes`]. The link is then as it was.
    pub fn report(
        &mut self,
        packets: &[Packet],
        probe: Option<f64>,
        now: u64,
    ) -> Result<Estimate, Refusal> {
        ffi::report(&mut self.words, packets, probe, now)
    }

    /// A timeout at a moment in ns of the local clock, a whole ms.
    ///
    /// ```
    /// use hornetpewter::{Link, Refusal};
    ///
    /// let mut link = Link::open(1_000_000.0, 500_000_000, 150_000_000)?;
    /// assert_eq!(link.read()?.estimate.next_timeout, 0); // due
    /// assert_eq!(link.timeout(1_000_000_000)?.next_timeout, 1_025_000_000);
    /// # Ok::<(), Refusal>(())
    /// ```
    ///
    /// # Errors
    ///
    /// [`Refusal::OutOfRange`], [`Refusal::BadMoment`]: questions 1 and 7. The link is then as it was.
    pub fn timeout(&mut self, now: u64) -> Result<Estimate, Refusal> {
        ffi::timeout(&mut self.words, now)
    }

    /// What the link holds.
    ///
    /// # Errors
    ///
    /// [`Refusal::OutOfRange`]: question 1.
    pub fn read(&self) -> Result<Reading, Refusal> {
        ffi::read(&self.words)
    }

    /// The numbers, to be stored. The instants among them are of the two clocks, so the clocks' origins
    /// belong to them: a program that loads the link counts from the same ones.
    ///
    /// ```
    /// use hornetpewter::{Link, Refusal};
    ///
    /// let mut link = Link::open(1_000_000.0, 500_000_000, 150_000_000)?;
    /// let mut loaded = Link::from_words(*link.words());
    /// assert_eq!(loaded.timeout(1_000_000_000)?, link.timeout(1_000_000_000)?);
    /// # Ok::<(), Refusal>(())
    /// ```
    #[must_use]
    pub const fn words(&self) -> &[u64; LINK_WORDS] {
        &self.words
    }

    /// The link of stored numbers. It takes any: each call asks whether they are a link in range, and
    /// answers [`Refusal::OutOfRange`] if not, as it does for those of another format.
    ///
    /// ```
    /// use hornetpewter::{LINK_WORDS, Link, Refusal};
    ///
    /// let mut link = Link::from_words([0; LINK_WORDS]);
    /// assert_eq!(link.timeout(1_000_000_000), Err(Refusal::OutOfRange));
    /// ```
    #[must_use]
    pub const fn from_words(words: [u64; LINK_WORDS]) -> Link {
        Link { words }
    }
}

/// Lists a pass file, a recorded pass, into the start of `out` and gives the listing's length. The
/// bytes after it, and all of them after a refusal, are as they were. [`room`] says how long `out` has
/// to be.
///
/// ```
/// use hornetpewter::{Refusal, list, room};
///
/// let mut file = [0; 48]; // one record, the last:
/// file[4] = 3; // a timeout
/// file[32..40].copy_from_slice(&1_000_000_000_u64.to_le_bytes()); // at 1 s
/// let mut out = vec![0; room(file.len())?];
/// let length = list(&file, &mut out)?;
/// assert_eq!(&out[..length], b"1 0 N 412e848000000000 1025000000\n");
/// # Ok::<(), Refusal>(())
/// ```
///
/// # Errors
///
/// [`Refusal::BadLength`], [`Refusal::BadKind`], [`Refusal::BadNext`], [`Refusal::ShortOutput`]:
/// questions 10 to 13. A refused call of the file is a line of the listing.
pub fn list(file: &[u8], out: &mut [u8]) -> Result<usize, Refusal> {
    ffi::list(file, out)
}

/// How many bytes of output [`list`] wants for a file of that length: 65,536, or, where the file has
/// more than 1,365 records, 48 for each that it has, linked or not.
///
/// ```
/// use hornetpewter::{LEAST_OUTPUT, MOST_OUTPUT, MOST_RECORDS, Refusal, room};
///
/// assert_eq!(room(48 * 1_365), Ok(LEAST_OUTPUT));
/// assert_eq!(room(48 * 1_366), Ok(65_568));
/// assert_eq!(room(48 * MOST_RECORDS), Ok(MOST_OUTPUT));
/// assert_eq!(room(48 * MOST_RECORDS + 48), Err(Refusal::BadLength));
/// ```
///
/// # Errors
///
/// [`Refusal::BadLength`]: question 10.
pub fn room(file_length: usize) -> Result<usize, Refusal> {
    ffi::room(file_length)
}

const NS_PER_MS: u64 = 1_000_000;

/// A moment in ns as `now` takes it: rounded up to a whole ms.
///
/// Up, and not down, so that a timeout's moment is not before the instant at which it is made: a next
/// timeout less than 1 ms after the moment (a round trip can be so short) would be over at once, and
/// the loop would turn without waiting.
///
/// ```
/// use hornetpewter::whole_ms;
///
/// assert_eq!(whole_ms(1_000_000_001), 1_001_000_000);
/// assert_eq!(whole_ms(1_001_000_000), 1_001_000_000);
/// ```
#[must_use]
pub const fn whole_ms(ns: u64) -> u64 {
    ns.div_ceil(NS_PER_MS).saturating_mul(NS_PER_MS)
}

/// The ns of a duration, for windows, and for instants as durations since an origin. One that a u64
/// does not hold becomes the largest, which every call refuses.
///
/// ```
/// use core::time::Duration;
/// use hornetpewter::whole_ns;
///
/// assert_eq!(whole_ns(Duration::from_millis(150)), 150_000_000);
/// ```
#[must_use]
pub fn whole_ns(duration: Duration) -> u64 {
    u64::try_from(duration.as_nanos()).unwrap_or(u64::MAX)
}
