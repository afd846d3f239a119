/*
 * Hornetpewter: the delay estimator of a WebRTC link, for gateways in C and C++. Link with libhornetpewter.a (tools/dist).
 *
 * A link is opened once, then told of each feedback report as it comes, and of time by timeouts; the estimate says how
 * many bits per second (bps) the sender may send. The feedback message itself, as it comes in RTCP, is read here too.
 *
 * Answers. A call returns 0, or the opposite of the number of the question that turned it down: -6 is
 * -HORNETPEWTER_BAD_SIZE. (In the place of 0 hornetpewter_list returns the listing's length, hornetpewter_room that of
 * the output, and hornetpewter_feedback_next a number of packets.) Questions are put in the order of their numbers, 11 and
 * 12 record by record, 14 to 16 as a message is read, and the first no gives the number. After a refusal the link's words
 * and all lent places are as they were, and the link goes on with the next call.
 *
 * Clocks. All times are whole nanoseconds (ns) from an origin of the caller's, at most 10^18; the Unix time in ns is past
 * that, so use a monotonic clock or subtract an origin. There are two clocks: `sends`, `receives` and `now` are read from
 * the gateway's own, `remotes` from that of the receiver, as feedback tells them. They need not agree. `now` is a whole
 * millisecond: round it down.
 *
 * Links. A link is plain words. It may be copied, written to a file and loaded again by a program of the same byte order;
 * a copy goes on as the original would. Word 0 is the format. Words of another format, with an unknown tag or out of range
 * are turned down with HORNETPEWTER_OUT_OF_RANGE by every call, so that overwritten memory does no harm; but damaged words
 * can still be in range, and are then taken for the link that they make.
 *
 * Readers. A reader of a feedback message is plain words too, to copy and keep, with no pointer among them: lend the same
 * message to every call. There is nothing to close. Words that were overwritten, or are of another message, do no harm: a
 * call then hands out some packets or none, and touches nothing but the lent places.
 *
 * Threads. The library has no globals and keeps no pointer. Calls on different links and readers may run at the same time;
 * calls on one link or one reader may not, so keep it to one thread, or put a lock of your own around it.
 *
 * Memory. Nothing is allocated. No call needs more than HORNETPEWTER_STACK_BYTES of stack: as measured, open needs up to
 * 4 KB, report 54, timeout 9, read 2, list 61, room 1, feedback_start 1 and feedback_next 1. Pointers are valid and
 * aligned for their types, also where a call is refused; a list or a buffer of length 0 may be NULL. What a call writes
 * (the link, the reader, the results, the output) overlaps nothing else that is lent to it. The lists of a report are only
 * read and may overlap each other.
 *
 * Machines. The archive is for x86-64 with the System V calling convention (Linux), and needs memcpy and memset.
 * Floats are rounded to nearest and subnormal ones are kept, as a thread has it by default: do not link the gateway with
 * -ffast-math, which sets this otherwise for the whole program.
 */
#ifndef HORNETPEWTER_H
#define HORNETPEWTER_H

#include <stddef.h>
#include <stdint.h>

#ifdef __cplusplus
extern "C" {
#endif

#define HORNETPEWTER_LINK_WORDS 100
#define HORNETPEWTER_FORMAT 1            /* word 0 of a link */
#define HORNETPEWTER_MOST_PACKETS 1024   /* in a report */
#define HORNETPEWTER_RECORD_BYTES 48     /* of a pass file */
#define HORNETPEWTER_MOST_RECORDS 65535
#define HORNETPEWTER_LEAST_OUTPUT 65536  /* bytes of output for hornetpewter_list, enough for up to 1,365 records */
#define HORNETPEWTER_MOST_OUTPUT 3145680 /* enough for every file */
#define HORNETPEWTER_READER_WORDS 7
#define HORNETPEWTER_MOST_STATUSES 65535 /* of a feedback message */
#define HORNETPEWTER_STACK_BYTES 65536

typedef struct {
    uint64_t words[HORNETPEWTER_LINK_WORDS];
} hornetpewter_link;

typedef struct {
    uint64_t words[HORNETPEWTER_READER_WORDS];
} hornetpewter_feedback_reader;

/* The questions. A call that is turned down returns the opposite of one of these. */
enum hornetpewter_refusal {
    HORNETPEWTER_OUT_OF_RANGE = 1,       /* is the lent link in range? */
    HORNETPEWTER_BAD_START_BITRATE = 2,  /* is the start rate from 40,000 to 10^10 bps? */
    HORNETPEWTER_BAD_WINDOW = 3,         /* are both windows whole ms from 1 to 10,000? */
    HORNETPEWTER_BAD_LISTS = 4,          /* are the lists of equal length, at most 1,024? */
    HORNETPEWTER_BAD_INSTANT = 5,        /* are all instants at most 10^18 ns? */
    HORNETPEWTER_BAD_SIZE = 6,           /* is every size at least 1? */
    HORNETPEWTER_BAD_MOMENT = 7,         /* is now at most 10^18 ns and a whole ms? */
    HORNETPEWTER_BAD_PROBE = 8,          /* is a probe, if present, finite and from 0 to 10^14 bps? */
    HORNETPEWTER_TOO_MANY_BYTES = 9,     /* does the window's byte sum stay at or below 2,147,483,647? */
    HORNETPEWTER_BAD_LENGTH = 10,        /* is a pass file's length 48 times 1 to 65,535? */
    HORNETPEWTER_BAD_KIND = 11,          /* is a linked record's kind 1 to 3, and a report's flag 0 or 1? */
    HORNETPEWTER_BAD_NEXT = 12,          /* is its next 0, or above its own number and not past the last? */
    HORNETPEWTER_SHORT_OUTPUT = 13,      /* has the output 65,536 bytes, or 48 a record where there are more than 1,365? */
    HORNETPEWTER_CUT_SHORT = 14,         /* are a feedback message's header, counted chunks and their deltas whole? */
    HORNETPEWTER_RESERVED = 15,          /* is no counted symbol the reserved 3? */
    HORNETPEWTER_NO_STATUS = 16          /* is the status count at least 1? */
};

/* What the delays say of the path. */
enum hornetpewter_hypothesis {
    HORNETPEWTER_OVERUSE = 0,
    HORNETPEWTER_NORMAL = 1,
    HORNETPEWTER_UNDERUSE = 2
};

/*
 * Opens a link at a start rate in bps. The windows are those over which bytes are counted for the acknowledged rate, the
 * first one and the later ones, in ns: 500,000,000 and 150,000,000 are usual. Puts questions 2 and 3. What the words held
 * before does not matter.
 */
int64_t hornetpewter_open(hornetpewter_link *link, double start_bitrate, uint64_t initial_window, uint64_t window);

/*
 * Hands a report to a link: the packets that it acknowledges, in any order, as five lists of one length (0 is a report of
 * no packets). Of packet i, `sequences` has the number, `sizes` the bytes, `sends` when it was sent, `remotes` when it
 * arrived by the receiver's clock, and `receives` when the gateway got the feedback that told so. `probe` is the result of
 * a probe in bps, and is not read where `has_probe` is 0. Puts questions 1 and 4 to 9. Accepted, it writes the estimate in
 * bps, the hypothesis (enum hornetpewter_hypothesis) and when to call hornetpewter_timeout next, in ns of the local clock.
 */
int64_t hornetpewter_report(hornetpewter_link *link,
                            const uint64_t *sequences, size_t sequences_length,
                            const uint64_t *sizes, size_t sizes_length,
                            const uint64_t *sends, size_t sends_length,
                            const uint64_t *remotes, size_t remotes_length,
                            const uint64_t *receives, size_t receives_length,
                            uint32_t has_probe, double probe, uint64_t now,
                            double *bitrate, uint32_t *hypothesis, uint64_t *next_timeout);

/*
 * Tells a link that it is now this late, to be called when the next timeout is due; a call before that is taken too. It
 * updates the estimate where the last report is at most 50 ms and at most two round trips old, and else only sets the next
 * timeout. That lies 25 ms ahead, or a round trip if this is shorter: it need not be a whole ms, and may be less than one
 * away. Puts questions 1 and 7; results as above.
 */
int64_t hornetpewter_timeout(hornetpewter_link *link, uint64_t now,
                             double *bitrate, uint32_t *hypothesis, uint64_t *next_timeout);

/*
 * Reads a link and changes nothing of it: the estimate, the hypothesis, the next timeout (0 before the first call: due
 * now), and the delay threshold in ms by which overuse is judged. Puts question 1.
 */
int64_t hornetpewter_read(const hornetpewter_link *link,
                          double *bitrate, uint32_t *hypothesis, uint64_t *next_timeout, double *threshold);

/*
 * Lists a pass file, a recorded pass: a line for each report and timeout of a link opened at 1,000,000 bps with windows of
 * 500 and 150 ms, with record number, refusal number or 0, hypothesis letter (O, N, U), the bits of the estimate in
 * hexadecimal, and the next timeout. `out` has as many bytes as hornetpewter_room says, or more. Returns the listing's
 * length in bytes; bytes of `out` after it are as they were. Puts questions 10 to 13. A refused call inside a file is a
 * line of its listing.
 */
int64_t hornetpewter_list(const uint8_t *file, size_t file_length, uint8_t *out, size_t out_length);

/*
 * How many bytes of output hornetpewter_list wants for a file of that length: 65,536, or, where the file has more than
 * 1,365 records, 48 for each that it has, linked or not. Puts question 10.
 */
int64_t hornetpewter_room(size_t file_length);

/*
 * Judges a feedback message (transport-wide congestion control, draft-holmer-rmcat-transport-wide-cc-extensions-01) and
 * starts a reader before its first packet. The message is the part of the RTCP packet after the media source SSRC, without
 * the padding that the P bit tells of: take that off first, as bytes that are left on would stand in for deltas that were
 * cut off. Bytes after the last delta are not read. What the reader's words held before does not matter.
 *
 * Accepted, it writes the header's numbers: the sequence number of the first packet, how many packets the message tells of
 * (1 to 65,535), the reference time, signed and in units of 64 ms of the receiver's clock, and the message's own number.
 * All but the second wrap: unwrap them against those of the messages before. Puts questions 14 to 16 in the order in which
 * a message is read: the header's 8 bytes (14), its status count (16), the chunks one by one until the count is covered
 * (14, or 15 where a chunk that is whole has the reserved symbol), then the deltas (14).
 */
int64_t hornetpewter_feedback_start(const uint8_t *message, size_t message_length, hornetpewter_feedback_reader *reader,
                                    uint16_t *base_seq, uint16_t *status_count, int32_t *reference_time,
                                    uint8_t *feedback_count);

/*
 * Hands out the next packets of the message, as many as are left and both lists have places for, and returns how many.
 * `sequence` gets the sequence number of the first; those of the others follow it one by one modulo 65,536. Of packet i,
 * `statuses` gets 1 (received) or 0 (not received), and `ticks` when it arrived, in units of 250 us from the reference
 * time, below 0 before that, and 0 where it was not received. Places of the lists after these are as they were. Where none
 * is left it returns 0, however often it is called, and changes nothing; nor does it where a list has no place. It puts no
 * question.
 *
 *     static uint8_t statuses[HORNETPEWTER_MOST_STATUSES];
 *     static int32_t ticks[HORNETPEWTER_MOST_STATUSES];
 *     if (hornetpewter_feedback_start(message, length, &reader, &base_seq, &count, &reference_time, &feedback_count) == 0)
 *         hornetpewter_feedback_next(message, length, &reader, &sequence, statuses, count, ticks, count);
 *
 * reads a message at once; gateway.c reads it in parts, each for one report.
 */
int64_t hornetpewter_feedback_next(const uint8_t *message, size_t message_length, hornetpewter_feedback_reader *reader,
                                   uint16_t *sequence, uint8_t *statuses, size_t statuses_length,
                                   int32_t *ticks, size_t ticks_length);

#ifdef __cplusplus
}
#endif

#endif
