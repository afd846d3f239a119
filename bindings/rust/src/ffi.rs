//! The functions that the archive exports. All that is unsafe in this crate is here.

use core::mem::MaybeUninit;

use crate::{
    BandwidthUsage, Estimate, FeedbackHeader, LINK_WORDS, MOST_PACKETS, Packet, Reading, Refusal,
};

type Words = [u64; LINK_WORDS];

/// The words of a feedback message's reader.
pub type Reader = [u64; 7];

// The functions are proved to demand nothing of their caller but what C's types leave unsaid: that
// the places lent to a call are there, and that none that is written overlaps another. References
// say both, so a function that takes nothing else is safe to call.
unsafe extern "C" {
    safe fn hornetpewter_open(
        link: &mut Words,
        start_bitrate: f64,
        initial_window: u64,
        window: u64,
    ) -> i64;

    fn hornetpewter_report(
        link: &mut Words,
        sequences: *const u64,
        sequences_length: usize,
        sizes: *const u64,
        sizes_length: usize,
        sends: *const u64,
        sends_length: usize,
        remotes: *const u64,
        remotes_length: usize,
        receives: *const u64,
        receives_length: usize,
        has_probe: u32,
        probe: f64,
        now: u64,
        bitrate: &mut f64,
        hypothesis: &mut u32,
        next_timeout: &mut u64,
    ) -> i64;

    safe fn hornetpewter_timeout(
        link: &mut Words,
        now: u64,
        bitrate: &mut f64,
        hypothesis: &mut u32,
        next_timeout: &mut u64,
    ) -> i64;

    safe fn hornetpewter_read(
        link: &Words,
        bitrate: &mut f64,
        hypothesis: &mut u32,
        next_timeout: &mut u64,
        threshold: &mut f64,
    ) -> i64;

    fn hornetpewter_list(
        file: *const u8,
        file_length: usize,
        out: *mut u8,
        out_length: usize,
    ) -> i64;

    safe fn hornetpewter_room(file_length: usize) -> i64;

    fn hornetpewter_feedback_start(
        message: *const u8,
        message_length: usize,
        reader: &mut Reader,
        base_seq: &mut u16,
        status_count: &mut u16,
        reference_time: &mut i32,
        feedback_count: &mut u8,
    ) -> i64;

    fn hornetpewter_feedback_next(
        message: *const u8,
        message_length: usize,
        reader: &mut Reader,
        sequence: &mut u16,
        statuses: *mut u8,
        statuses_length: usize,
        ticks: *mut i32,
        ticks_length: usize,
    ) -> i64;
}

/// The refusal of a code below 0. The archive is proved to return 0, a length, or -1 to -16, so the
/// last arm has only -1 to meet. It takes every other number too, and does not panic: whoever reads
/// `OutOfRange` opens the link anew, which is also right if the archive should be another one.
fn refusal(code: i64) -> Refusal {
    match code {
        -2 => Refusal::BadStartBitrate,
        -3 => Refusal::BadWindow,
        -4 => Refusal::BadLists,
        -5 => Refusal::BadInstant,
        -6 => Refusal::BadSize,
        -7 => Refusal::BadMoment,
        -8 => Refusal::BadProbe,
        -9 => Refusal::TooManyBytes,
        -10 => Refusal::BadLength,
        -11 => Refusal::BadKind,
        -12 => Refusal::BadNext,
        -13 => Refusal::ShortOutput,
        -14 => Refusal::CutShort,
        -15 => Refusal::Reserved,
        -16 => Refusal::NoStatus,
        _ => Refusal::OutOfRange,
    }
}

fn accepted(code: i64) -> Result<(), Refusal> {
    if code == 0 {
        Ok(())
    } else {
        Err(refusal(code))
    }
}

fn length(code: i64) -> Result<usize, Refusal> {
    usize::try_from(code).map_err(|_| refusal(code))
}

/// The hypothesis of a tag, which is proved to be 0, 1 or 2. The last arm has only 0 to meet.
fn hypothesis(tag: u32) -> BandwidthUsage {
    match tag {
        1 => BandwidthUsage::Normal,
        2 => BandwidthUsage::Underuse,
        _ => BandwidthUsage::Overuse,
    }
}

/// The places that a call lends for its answer.
#[derive(Default)]
struct Places {
    bitrate: f64,
    hypothesis: u32,
    next_timeout: u64,
}

impl Places {
    fn estimate(&self) -> Estimate {
        Estimate {
            bitrate: self.bitrate,
            hypothesis: hypothesis(self.hypothesis),
            next_timeout: self.next_timeout,
        }
    }
}

pub fn open(start_bitrate: f64, initial_window: u64, window: u64) -> Result<Words, Refusal> {
    let mut words = [0; LINK_WORDS];
    accepted(hornetpewter_open(
        &mut words,
        start_bitrate,
        initial_window,
        window,
    ))?;
    Ok(words)
}

/// Room for one packet more than a report may have, so that the library itself turns down a longer
/// report, at its turn among the questions.
const ROOM: usize = MOST_PACKETS + 1;

/// A field of a report's packets. Only what is written is read, so nothing is cleared before.
type List = [MaybeUninit<u64>; ROOM];

fn fill(list: &mut List, packets: &[Packet], field: fn(&Packet) -> u64) -> *const u64 {
    for (place, packet) in list.iter_mut().zip(packets) {
        place.write(field(packet));
    }
    list.as_ptr().cast()
}

pub fn report(
    words: &mut Words,
    packets: &[Packet],
    probe: Option<f64>,
    now: u64,
) -> Result<Estimate, Refusal> {
    let mut lists: [List; 5] = [[MaybeUninit::uninit(); ROOM]; 5];
    let [sequences, sizes, sends, remotes, receives] = &mut lists;
    let sequences = fill(sequences, packets, |packet| packet.sequence);
    let sizes = fill(sizes, packets, |packet| packet.size);
    let sends = fill(sends, packets, |packet| packet.send);
    let remotes = fill(remotes, packets, |packet| packet.remote);
    let receives = fill(receives, packets, |packet| packet.receive);
    let length = packets.len().min(ROOM);
    let mut places = Places::default();
    // SAFETY: `fill` wrote the first `length` elements of each list, which live until the end of
    // this function and overlap nothing that is written.
    let code = unsafe {
        hornetpewter_report(
            words,
            sequences,
            length,
            sizes,
            length,
            sends,
            length,
            remotes,
            length,
            receives,
            length,
            u32::from(probe.is_some()),
            probe.unwrap_or(0.0),
            now,
            &mut places.bitrate,
            &mut places.hypothesis,
            &mut places.next_timeout,
        )
    };
    accepted(code)?;
    Ok(places.estimate())
}

pub fn timeout(words: &mut Words, now: u64) -> Result<Estimate, Refusal> {
    let mut places = Places::default();
    accepted(hornetpewter_timeout(
        words,
        now,
        &mut places.bitrate,
        &mut places.hypothesis,
        &mut places.next_timeout,
    ))?;
    Ok(places.estimate())
}

pub fn read(words: &Words) -> Result<Reading, Refusal> {
    let mut places = Places::default();
    let mut threshold_ms = 0.0;
    accepted(hornetpewter_read(
        words,
        &mut places.bitrate,
        &mut places.hypothesis,
        &mut places.next_timeout,
        &mut threshold_ms,
    ))?;
    Ok(Reading {
        estimate: places.estimate(),
        threshold_ms,
    })
}

pub fn list(file: &[u8], out: &mut [u8]) -> Result<usize, Refusal> {
    // SAFETY: the pointers and lengths are those of two slices, and `out` is borrowed by nobody else.
    let code = unsafe { hornetpewter_list(file.as_ptr(), file.len(), out.as_mut_ptr(), out.len()) };
    length(code)
}

pub fn room(file_length: usize) -> Result<usize, Refusal> {
    length(hornetpewter_room(file_length))
}

pub fn feedback_start(message: &[u8]) -> Result<(Reader, FeedbackHeader), Refusal> {
    let mut reader = [0; 7];
    let mut header = FeedbackHeader {
        base_seq: 0,
        status_count: 0,
        reference_time: 0,
        feedback_count: 0,
    };
    // SAFETY: the pointer and the length are those of a slice.
    let code = unsafe {
        hornetpewter_feedback_start(
            message.as_ptr(),
            message.len(),
            &mut reader,
            &mut header.base_seq,
            &mut header.status_count,
            &mut header.reference_time,
            &mut header.feedback_count,
        )
    };
    accepted(code)?;
    Ok((reader, header))
}

/// How many packets there are now in the lists, of which `sequence` is the first one's number.
pub fn feedback_next(
    message: &[u8],
    reader: &mut Reader,
    sequence: &mut u16,
    statuses: &mut [u8],
    ticks: &mut [i32],
) -> usize {
    // SAFETY: the pointers and lengths are those of slices, and the two lists are borrowed by nobody
    // else.
    let code = unsafe {
        hornetpewter_feedback_next(
            message.as_ptr(),
            message.len(),
            reader,
            sequence,
            statuses.as_mut_ptr(),
            statuses.len(),
            ticks.as_mut_ptr(),
            ticks.len(),
        )
    };
    length(code).unwrap_or(0)
}
