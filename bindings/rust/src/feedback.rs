use core::iter::FusedIterator;

use crate::{Refusal, ffi};

/// How many packets are handed out by one call of the library.
const BATCH: usize = 64;

/// The four numbers of a feedback message's header. All but the second wrap, so they are unwrapped
/// against those of the messages before.
#[derive(Clone, Copy, Debug, PartialEq, Eq)]
pub struct FeedbackHeader {
    /// The sequence number of the first packet.
    pub base_seq: u16,
    /// How many packets the message tells of, at least 1.
    pub status_count: u16,
    /// The reference time in units of 64 ms of the receiver's clock, signed, of 24 bits.
    pub reference_time: i32,
    /// The number of the message itself.
    pub feedback_count: u8,
}

/// A packet that a feedback message tells of.
#[derive(Clone, Copy, Debug, PartialEq, Eq)]
pub struct FeedbackPacket {
    /// The sequence number.
    pub sequence: u16,
    /// When it arrived, in ticks of 250 µs from the reference time; none where it was not received.
    pub ticks: Option<i32>,
}

/// Packets that the library handed out together, how many, and how many of them were handed on.
#[derive(Clone, Debug)]
struct Batch {
    /// Of the next one.
    sequence: u16,
    statuses: [u8; BATCH],
    ticks: [i32; BATCH],
    length: usize,
    used: usize,
}

impl Batch {
    const EMPTY: Batch = Batch {
        sequence: 0,
        statuses: [0; BATCH],
        ticks: [0; BATCH],
        length: 0,
        used: 0,
    };

    #[inline]
    fn next(&mut self) -> Option<FeedbackPacket> {
        let (sequence, place) = (self.sequence, self.used);
        let status = self.statuses[..self.length].get(place)?;
        let ticks = (*status != 0).then_some(self.ticks[place]);
        self.used += 1;
        self.sequence = sequence.wrapping_add(1);
        Some(FeedbackPacket { sequence, ticks })
    }
}

/// A feedback message that was judged whole, and an iterator over its packets, in sequence order
/// modulo 65,536.
///
/// The message is the part of the RTCP packet (transport-wide congestion control, FMT 15) after the
/// media source SSRC, without the padding that the P bit tells of. Take that off first: bytes that are
/// left on would stand in for deltas that were cut off. Bytes after the last delta are not read.
///
/// ```
/// use hornetpewter::{Feedback, FeedbackPacket, Refusal};
///
/// // from 65,535 on: received 5 ticks after the reference time, lost, received 2 ticks before it
/// let message = [0xff, 0xff, 0, 3, 0, 3, 0xe8, 7, 0xd2, 0, 5, 0xff, 0xf9];
/// let feedback = Feedback::read(&message)?;
/// let header = feedback.header();
/// assert_eq!((header.base_seq, header.status_count), (65_535, 3));
/// assert_eq!((header.reference_time, header.feedback_count), (1_000, 7));
///
/// let packets: Vec<FeedbackPacket> = feedback.collect();
/// assert_eq!(packets[0], FeedbackPacket { sequence: 65_535, ticks: Some(5) });
/// assert_eq!(packets[1], FeedbackPacket { sequence: 0, ticks: None });
/// assert_eq!(packets[2], FeedbackPacket { sequence: 1, ticks: Some(-2) });
///
/// // when the last one arrived, in ns of the receiver's clock
/// let ticks = packets[2].ticks.unwrap();
/// let arrival = i64::from(header.reference_time) * 64_000_000 + i64::from(ticks) * 250_000;
/// assert_eq!(arrival, 63_999_500_000);
///
/// assert_eq!(Feedback::read(&message[..12]).unwrap_err(), Refusal::CutShort);
/// # Ok::<(), Refusal>(())
/// ```
#[derive(Clone, Debug)]
pub struct Feedback<'a> {
    message: &'a [u8],
    reader: ffi::Reader,
    header: FeedbackHeader,
    /// Packets that are not yet handed on.
    left: u16,
    batch: Batch,
}

impl<'a> Feedback<'a> {
    /// Judges a message and stands before its first packet.
    ///
    /// # Errors
    ///
    /// [`Refusal::CutShort`], [`Refusal::Reserved`], [`Refusal::NoStatus`]: questions 14 to 16, in the
    /// order in which a message is read: the header's 8 bytes (14), its status count (16), the chunks
    /// one by one until the count is covered (14, or 15 where a chunk that is whole has the reserved
    /// symbol), then the deltas (14).
    pub fn read(message: &'a [u8]) -> Result<Feedback<'a>, Refusal> {
        let (reader, header) = ffi::feedback_start(message)?;
        Ok(Feedback {
            message,
            reader,
            header,
            left: header.status_count,
            batch: Batch::EMPTY,
        })
    }

    /// The numbers of the message's header, however many packets were taken.
    #[must_use]
    pub const fn header(&self) -> FeedbackHeader {
        self.header
    }

    /// The next packets, in the place of those that were handed on.
    fn refill(&mut self) {
        let batch = &mut self.batch;
        batch.length = ffi::feedback_next(
            self.message,
            &mut self.reader,
            &mut batch.sequence,
            &mut batch.statuses,
            &mut batch.ticks,
        );
        batch.used = 0;
    }
}

impl Iterator for Feedback<'_> {
    type Item = FeedbackPacket;

    #[inline]
    fn next(&mut self) -> Option<FeedbackPacket> {
        self.left = self.left.checked_sub(1)?;
        if self.batch.used == self.batch.length {
            self.refill();
        }
        self.batch.next()
    }

    #[inline]
    fn size_hint(&self) -> (usize, Option<usize>) {
        (usize::from(self.left), Some(usize::from(self.left)))
    }
}

impl ExactSizeIterator for Feedback<'_> {}
impl FusedIterator for Feedback<'_> {}
