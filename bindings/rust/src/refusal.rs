use core::error::Error;
use core::fmt;

/// The question that turned a call down. The first question whose answer is no gives the refusal; the
/// link, and what was lent to the call, are then as they were before it.
///
/// ```
/// use hornetpewter::{Link, Refusal};
///
/// let mut link = Link::open(1_000_000.0, 500_000_000, 150_000_000)?;
/// let before = link.clone();
/// assert_eq!(link.timeout(1_000_000_001), Err(Refusal::BadMoment)); // no whole ms
/// assert_eq!(Refusal::BadMoment.number(), 7);
/// assert_eq!(link, before);
/// # Ok::<(), Refusal>(())
/// ```
#[derive(Clone, Copy, Debug, PartialEq, Eq, Hash)]
#[repr(u8)]
pub enum Refusal {
    /// 1: is the link in range? Every link that was opened and then changed by calls only is, however
    /// many calls and whatever their arguments; a link of other words need not be. Open it anew.
    OutOfRange = 1,
    /// 2: is the start rate from 40,000 to 10^10 bps?
    BadStartBitrate = 2,
    /// 3: are both windows whole ms from 1 to 10,000?
    BadWindow = 3,
    /// 4: has the report at most 1,024 packets?
    BadLists = 4,
    /// 5: are the packets' instants at most 10^18 ns?
    BadInstant = 5,
    /// 6: is every packet's size at least 1 byte?
    BadSize = 6,
    /// 7: is now at most 10^18 ns and a whole ms?
    BadMoment = 7,
    /// 8: is a probe's result, where there is one, from 0 to 10^14 bps?
    BadProbe = 8,
    /// 9: does the byte sum of the acknowledged rate's window stay at or below 2,147,483,647 after
    /// each packet?
    TooManyBytes = 9,
    /// 10: is the pass file's length 48 times 1 to 65,535?
    BadLength = 10,
    /// 11: is each linked record's kind 1 to 3, and a report's flag 0 or 1?
    BadKind = 11,
    /// 12: is each linked record's next 0, or above its own number and not past the last?
    BadNext = 12,
    /// 13: is the output long enough: 65,536 bytes, or 48 a record where the file has more than 1,365?
    ShortOutput = 13,
    /// 14: are the feedback message's header, its chunks up to the status count and their deltas whole?
    CutShort = 14,
    /// 15: is no counted symbol the reserved 3?
    Reserved = 15,
    /// 16: is the feedback message's status count at least 1?
    NoStatus = 16,
}

impl Refusal {
    /// The question's number, 1 to 16.
    #[must_use]
    pub const fn number(self) -> u8 {
        self as u8
    }

    /// What is the matter.
    const fn matter(self) -> &'static str {
        match self {
            Refusal::OutOfRange => "the link is out of range",
            Refusal::BadStartBitrate => "the start rate is not from 40,000 to 10^10 bps",
            Refusal::BadWindow => "a window is not a whole number of ms from 1 to 10,000",
            Refusal::BadLists => "the report has more than 1,024 packets",
            Refusal::BadInstant => "an instant is above 10^18 ns",
            Refusal::BadSize => "a packet has a size of 0",
            Refusal::BadMoment => "now is above 10^18 ns or no whole ms",
            Refusal::BadProbe => "the probe's result is not from 0 to 10^14 bps",
            Refusal::TooManyBytes => "the window's byte sum is above 2,147,483,647",
            Refusal::BadLength => "the pass file's length is not 48 times 1 to 65,535",
            Refusal::BadKind => "a record's kind or flag is unknown",
            Refusal::BadNext => "a record's next is neither 0 nor a record after it",
            Refusal::ShortOutput => {
                "the output is too short: it wants 65,536 bytes, or 48 a record where the file has more than 1,365"
            }
            Refusal::CutShort => "the feedback message is cut short",
            Refusal::Reserved => "a counted symbol of the feedback message is the reserved 3",
            Refusal::NoStatus => "the feedback message has a status count of 0",
        }
    }
}

impl fmt::Display for Refusal {
    fn fmt(&self, f: &mut fmt::Formatter<'_>) -> fmt::Result {
        write!(f, "{} (question {})", self.matter(), self.number())
    }
}

impl Error for Refusal {}
