/*
 * A gateway's loop over one link, to copy from. It sends packets at the pace of the estimate, reads feedback messages and hands them to the link as they
 * come, and tells it of time when a timeout is due. In the place of a network it has a path of its own: a line of 600,000 bps, and 20 ms each way. It runs
 * for 1.5 s.
 */
#define _POSIX_C_SOURCE 200809L
#include "hornetpewter.h"

#include <inttypes.h>
#include <stdio.h>
#include <time.h>

#define MS UINT64_C(1000000)
#define SECOND (1000 * MS)
#define START 1000000 /* bps */
#define SIZE 1200     /* bytes on the wire, headers too, so that no packet has size 0 */
#define HISTORY 4096  /* packets that feedback may still name */
#define MESSAGE (10 + 2 * HISTORY)

/* ---- the two clocks, in whole ns */
static uint64_t local_clock(void)
{
    struct timespec t;
    clock_gettime(CLOCK_MONOTONIC, &t);
    return (uint64_t)t.tv_sec * SECOND + (uint64_t)t.tv_nsec;
}

static uint64_t remote_clock(int64_t reference, int32_t ticks)
{
    return (uint64_t)(reference * 64000000 + (int64_t)ticks * 250000);
}

/* `now` as the calls want it. */
static uint64_t whole_ms(uint64_t t)
{
    return t - t % MS;
}

/* ---- the path. Its receiver's clock is an hour ahead of ours, and it sends feedback every 50 ms. */
static uint64_t arrival[HISTORY], line_free, told, told_at;

static void path_send(uint64_t sequence, uint64_t t)
{
    line_free = (line_free > t ? line_free : t) + SIZE * 8 * SECOND / 600000;
    arrival[sequence % HISTORY] = line_free + 20 * MS;
}

static uint64_t path_wakes(void)
{
    return told_at + 70 * MS;
}

static void put16(uint8_t *place, uint64_t value)
{
    place[0] = (uint8_t)(value >> 8);
    place[1] = (uint8_t)value;
}

/* The message about the packets that arrived, without what RTCP has in front: a run of large deltas. Gives its length, or 0 where there is none. */
static size_t path_feedback(uint64_t t, uint64_t sent_count, uint8_t message[MESSAGE])
{
    static uint8_t feedback_count;
    uint64_t first = told, reference = 0, tick = 0;
    size_t length = 10;
    if (t < path_wakes())
        return 0;
    for (told_at = t - 20 * MS; told < sent_count && arrival[told % HISTORY] <= told_at; told++) {
        uint64_t remote = (arrival[told % HISTORY] + 3600 * SECOND) / 250000;
        if (told == first) {
            reference = remote / 256;
            tick = reference * 256;
        }
        put16(message + length, remote - tick);
        tick = remote;
        length += 2;
    }
    if (told == first)
        return 0;
    put16(message, first);
    put16(message + 2, told - first);
    put16(message + 4, reference >> 8);
    message[6] = (uint8_t)reference;
    message[7] = feedback_count++;
    put16(message + 8, 0x4000 | (told - first));
    return length;
}

/* ---- the link, and what it told last */
static hornetpewter_link link_words;
static double bitrate, threshold;
static uint32_t hypothesis;
static uint64_t next_timeout;

static void open_link(void)
{
    hornetpewter_open(&link_words, START, 500 * MS, 150 * MS);
    hornetpewter_read(&link_words, &bitrate, &hypothesis, &next_timeout, &threshold);
}

/*
 * A refused call left the link as it was, so the loop goes on: what the call had to say is lost, and the next one is judged on its own. The number says what
 * to mend in the gateway. Only a link that is out of range, its memory overwritten, is refused for good, and is opened anew.
 */
static void check(const char *call, int64_t answer)
{
    if (answer == 0)
        return;
    fprintf(stderr, "%s: refused with %" PRId64 "\n", call, -answer);
    if (answer == -HORNETPEWTER_OUT_OF_RANGE)
        open_link();
}

static uint64_t sent_at[HISTORY], sent_size[HISTORY];

/*
 * A message has 16 bits of a sequence number and 24 of a reference time; the last packet sent and the last reference time tell the others. Reference times
 * count from 2^24 here, so that no arrival is below 0.
 */
static uint64_t whole_sequence(uint16_t sequence, uint64_t sent_count)
{
    return sent_count - 1 - (uint16_t)(sent_count - 1 - sequence);
}

static int64_t whole_reference(int32_t reference_time)
{
    static int64_t last = 1 << 24;
    int64_t ahead = (reference_time - last) & 0xffffff;
    return last += ahead < 1 << 23 ? ahead : ahead - (1 << 24);
}

/* Each part of a message that fits a report is one. */
static void on_feedback(const uint8_t *message, size_t length, uint64_t sent_count, uint64_t arrived)
{
    enum { MOST = HORNETPEWTER_MOST_PACKETS };
    static uint64_t sequences[MOST], sizes[MOST], sends[MOST], remotes[MOST], receives[MOST];
    static uint8_t statuses[MOST];
    static int32_t ticks[MOST];
    hornetpewter_feedback_reader reader;
    uint16_t base_seq, status_count, first;
    int32_t reference_time;
    uint8_t feedback_count;
    int64_t count = hornetpewter_feedback_start(message, length, &reader, &base_seq, &status_count, &reference_time, &feedback_count);
    check("feedback", count);
    if (count != 0)
        return;
    int64_t reference = whole_reference(reference_time);
    while ((count = hornetpewter_feedback_next(message, length, &reader, &first, statuses, MOST, ticks, MOST)) > 0) {
        size_t n = 0;
        for (int64_t i = 0; i < count; i++) {
            uint64_t sequence = whole_sequence((uint16_t)(first + i), sent_count);
            if (statuses[i] == 0 || sequence + HISTORY < sent_count || sequence >= sent_count) /* lost, or not known */
                continue;
            sequences[n] = sequence;
            sizes[n] = sent_size[sequence % HISTORY];
            sends[n] = sent_at[sequence % HISTORY];
            remotes[n] = remote_clock(reference, ticks[i]);
            receives[n++] = arrived;
        }
        check("report", hornetpewter_report(&link_words, sequences, n, sizes, n, sends, n, remotes, n, receives, n, 0, 0, whole_ms(arrived), &bitrate,
                                            &hypothesis, &next_timeout));
    }
}

/* When to wake for a timeout: when `now` can reach it, and once a ms at most, as a short round trip may have it due at once. */
static uint64_t timeout_wakes(uint64_t t)
{
    uint64_t due = whole_ms(next_timeout + MS - 1), soonest = whole_ms(t) + MS;
    return due > soonest ? due : soonest;
}

static void sleep_until(uint64_t a, uint64_t b, uint64_t c)
{
    uint64_t first = a < b ? a : b, t = first < c ? first : c;
    struct timespec at = {(time_t)(t / SECOND), (long)(t % SECOND)};
    clock_nanosleep(CLOCK_MONOTONIC, TIMER_ABSTIME, &at, NULL);
}

int main(void)
{
    static const char *const names[] = {"overuse", "normal", "underuse"};
    static uint8_t message[MESSAGE];
    uint64_t start = local_clock(), send_at = start, line_at = start, sequence = 0;
    open_link();
    for (uint64_t t = start; t < start + 1500 * MS; t = local_clock()) {
        if (t >= send_at) {
            sent_at[sequence % HISTORY] = t;
            sent_size[sequence % HISTORY] = SIZE;
            path_send(sequence++, t);
            send_at = t + (uint64_t)(SIZE * 8 * 1e9 / bitrate);
        }
        size_t length = path_feedback(t, sequence, message);
        if (length > 0)
            on_feedback(message, length, sequence, t);
        if (whole_ms(t) >= next_timeout)
            check("timeout", hornetpewter_timeout(&link_words, whole_ms(t), &bitrate, &hypothesis, &next_timeout));
        if (t >= line_at) {
            printf("%4" PRIu64 " ms: %7.0f bps, %s\n", (t - start) / MS, bitrate, names[hypothesis]);
            line_at += 100 * MS;
        }
        sleep_until(send_at, path_wakes(), timeout_wakes(t));
    }
    return 0;
}
