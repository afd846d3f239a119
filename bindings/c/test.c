/* Tests of the calls from C: test SAMPLE.. prints a line a test and exits with 1 where one failed. (bindings/c/test runs it.) */
#define _DEFAULT_SOURCE
#include "check.h"
#include "hornetpewter.h"
#include "lent.h"
#include "listing.h"
#include "stack.h"

#include <math.h>
#include <pthread.h>
#include <stdio.h>
#include <stdlib.h>
#include <string.h>

#define MS UINT64_C(1000000)
#define LAST_INSTANT UINT64_C(1000000000000000000)

static const results SEVEN = {7, 7, 7, 7}; /* what no call gives */

static uint64_t bits(double x)
{
    uint64_t b;
    memcpy(&b, &x, sizeof b);
    return b;
}

static int equal(const hornetpewter_link *a, const hornetpewter_link *b)
{
    return memcmp(a, b, sizeof *a) == 0;
}

static hornetpewter_link opened(void)
{
    hornetpewter_link link = {{0}};
    ANSWERS(lent_open(&link, 1000000, 500 * MS, 150 * MS), 0);
    return link;
}

/* ---- packets */
static uint64_t store[LISTS][2048];

/* So many packets from a place on, each in its own list. */
static packets lists(size_t from, size_t count)
{
    packets p;
    for (int k = 0; k < LISTS; k++) {
        p.list[k] = store[k] + from;
        p.length[k] = count;
    }
    return p;
}

/* A steady sender: a packet of 1,200 bytes every 10 ms, 20 ms on its way, told of 20 ms after. The receiver's clock is an hour ahead. */
static packets steady(size_t from, size_t count)
{
    for (size_t i = 0; i < 2048; i++) {
        uint64_t send = 1000 * MS + 10 * MS * i;
        store[SEQUENCES][i] = i;
        store[SIZES][i] = 1200;
        store[SENDS][i] = send;
        store[REMOTES][i] = 3600000 * MS + send + 20 * MS;
        store[RECEIVES][i] = send + 40 * MS;
    }
    return lists(from, count);
}

/* When the report of the steady packets up to one of them comes. */
static uint64_t told_at(size_t last)
{
    return 1040 * MS + 10 * MS * last;
}

/* Reports of 10 steady packets each, from the first packet `from` on. */
static void run_steady(hornetpewter_link *link, size_t from, size_t reports, results *r)
{
    for (size_t k = 0; k < reports; k++) {
        packets p = steady(from + 10 * k, 10);
        ANSWERS(lent_report(link, &p, 0, 0, told_at(from + 10 * k + 9), r), 0);
    }
}

/* A link that has seen 3 s of steady packets: every option that they can set is present. */
static hornetpewter_link reached(void)
{
    hornetpewter_link link = opened();
    results r = SEVEN;
    run_steady(&link, 0, 30, &r);
    return link;
}

/* ---- opening */
static void open_at_its_limits(void)
{
    hornetpewter_link link = {{0}};
    results r = SEVEN;
    ANSWERS(lent_open(&link, 40000, MS, MS), 0);
    ANSWERS(lent_open(&link, 1e10, 10000 * MS, 10000 * MS), 0);
    CHECK(link.words[0] == HORNETPEWTER_FORMAT);
    ANSWERS(lent_read(&link, &r), 0);
    CHECK(r.bitrate == 1e10 && r.hypothesis == HORNETPEWTER_NORMAL && r.next_timeout == 0 && r.threshold == 12.5);
}

static void open_refusals(void)
{
    const double rates[] = {nextafter(40000, 0), nextafter(1e10, INFINITY), 0, -0.0, -40000, INFINITY, -INFINITY, NAN};
    const uint64_t windows[] = {0, 1, MS - 1, MS + 1, 10000 * MS + 1, 10001 * MS, UINT64_MAX};
    hornetpewter_link link = reached();
    for (size_t i = 0; i < sizeof rates / sizeof *rates; i++) {
        ANSWERS(lent_open(&link, rates[i], 500 * MS, 150 * MS), -HORNETPEWTER_BAD_START_BITRATE);
        ANSWERS(lent_open(&link, rates[i], 0, 0), -HORNETPEWTER_BAD_START_BITRATE);
    }
    for (size_t i = 0; i < sizeof windows / sizeof *windows; i++) {
        ANSWERS(lent_open(&link, 1000000, windows[i], 150 * MS), -HORNETPEWTER_BAD_WINDOW);
        ANSWERS(lent_open(&link, 1000000, 500 * MS, windows[i]), -HORNETPEWTER_BAD_WINDOW);
    }
}

/* ---- the example of document 01 */
static void example_by_live_calls(void)
{
    hornetpewter_link link = opened();
    packets none = lists(0, 0);
    results r = SEVEN;
    ANSWERS(lent_timeout(&link, UINT64_C(1000000000), &r), 0);
    CHECK(r.hypothesis == HORNETPEWTER_NORMAL && bits(r.bitrate) == UINT64_C(0x412e848000000000) && r.next_timeout == 1025000000);
    ANSWERS(lent_report(&link, &none, 1, 2000000, UINT64_C(1010000000), &r), 0);
    CHECK(r.hypothesis == HORNETPEWTER_NORMAL && bits(r.bitrate) == UINT64_C(0x413e848000000000) && r.next_timeout == 1035000000);
}

static void put(uint8_t *place, uint64_t value, size_t bytes)
{
    memcpy(place, &value, bytes);
}

/* The example's three records. */
static const uint8_t *example(void)
{
    static uint8_t file[3 * HORNETPEWTER_RECORD_BYTES];
    uint8_t *third = file + 2 * HORNETPEWTER_RECORD_BYTES;
    memset(file, 0, sizeof file);
    put(file, 3, 4);
    file[4] = 3;
    put(file + 32, 1000000000, 8);
    third[4] = 2;
    third[5] = 1;
    put(third + 32, 1010000000, 8);
    put(third + 40, bits(2000000), 8);
    return file;
}

static void example_as_a_file(void)
{
    static const char expected[] = "1 0 N 412e848000000000 1025000000\n3 0 N 413e848000000000 1035000000\n";
    const size_t length = sizeof expected - 1;
    const uint8_t *out;
    uint64_t lines = 0;
    ANSWERS(lent_list(example(), 3 * HORNETPEWTER_RECORD_BYTES, HORNETPEWTER_LEAST_OUTPUT, &out), (int64_t)length);
    CHECK(memcmp(out, expected, length) == 0);
    CHECK(listing_differs(example(), out, length, &lines) == 0 && lines == 2);
}

/* ---- refusals */
/* A report with every question's fault, then with the first fault mended, and so on: each number in its turn. */
static void report_refusals_in_order(void)
{
    hornetpewter_link good = reached(), link = good;
    results r = SEVEN;
    packets p = steady(300, 10);
    p.length[SIZES] = 9;
    store[SENDS][301] = LAST_INSTANT + 1;
    store[SIZES][302] = 0;
    store[SIZES][303] = UINT64_C(2147483648);
    double probe = NAN;
    uint64_t now = told_at(309) + 1;
    link.words[0] = 2;
    ANSWERS(lent_report(&link, &p, 1, probe, now, &r), -HORNETPEWTER_OUT_OF_RANGE);
    link = good;
    ANSWERS(lent_report(&link, &p, 1, probe, now, &r), -HORNETPEWTER_BAD_LISTS);
    p.length[SIZES] = 10;
    ANSWERS(lent_report(&link, &p, 1, probe, now, &r), -HORNETPEWTER_BAD_INSTANT);
    store[SENDS][301] = LAST_INSTANT;
    ANSWERS(lent_report(&link, &p, 1, probe, now, &r), -HORNETPEWTER_BAD_SIZE);
    store[SIZES][302] = 1;
    ANSWERS(lent_report(&link, &p, 1, probe, now, &r), -HORNETPEWTER_BAD_MOMENT);
    now -= 1;
    ANSWERS(lent_report(&link, &p, 1, probe, now, &r), -HORNETPEWTER_BAD_PROBE);
    ANSWERS(lent_report(&link, &p, 0, probe, now, &r), -HORNETPEWTER_TOO_MANY_BYTES);
    CHECK(equal(&link, &good) && r.bitrate == 7 && r.hypothesis == 7 && r.next_timeout == 7);
    store[SIZES][303] = 1200;
    ANSWERS(lent_report(&link, &p, 0, probe, now, &r), 0);
    CHECK(!equal(&link, &good));
}

static void report_lists(void)
{
    hornetpewter_link good = opened();
    for (int k = 0; k < LISTS; k++) {
        const size_t lengths[] = {0, 9, 11};
        for (size_t i = 0; i < sizeof lengths / sizeof *lengths; i++) {
            hornetpewter_link link = good;
            results r = SEVEN;
            packets p = steady(0, 10);
            p.length[k] = lengths[i];
            ANSWERS(lent_report(&link, &p, 0, 0, told_at(9), &r), -HORNETPEWTER_BAD_LISTS);
        }
    }
    for (size_t count = HORNETPEWTER_MOST_PACKETS; count <= HORNETPEWTER_MOST_PACKETS + 1; count++) {
        hornetpewter_link link = good;
        results r = SEVEN;
        packets p = steady(0, count);
        ANSWERS(lent_report(&link, &p, 0, 0, told_at(count - 1), &r), count == HORNETPEWTER_MOST_PACKETS ? 0 : -HORNETPEWTER_BAD_LISTS);
    }
}

static void report_instants_and_sizes(void)
{
    hornetpewter_link good = opened();
    const int instants[] = {SENDS, REMOTES, RECEIVES};
    for (size_t i = 0; i < 3; i++) {
        hornetpewter_link link = good;
        results r = SEVEN;
        packets p = steady(0, 10);
        store[instants[i]][9] = LAST_INSTANT;
        ANSWERS(lent_report(&link, &p, 0, 0, told_at(9), &r), 0);
        link = good;
        store[instants[i]][9] = LAST_INSTANT + 1;
        ANSWERS(lent_report(&link, &p, 0, 0, told_at(9), &r), -HORNETPEWTER_BAD_INSTANT);
        store[instants[i]][9] = UINT64_MAX;
        ANSWERS(lent_report(&link, &p, 0, 0, told_at(9), &r), -HORNETPEWTER_BAD_INSTANT);
    }
    const struct {
        uint64_t size;
        int64_t answer;
    } sizes[] = {{0, -6}, {1, 0}, {2147483647, 0}, {2147483648, -9}, {UINT64_C(1) << 63, -9}, {UINT64_MAX, -9}};
    for (size_t i = 0; i < sizeof sizes / sizeof *sizes; i++) {
        hornetpewter_link link = good;
        results r = SEVEN;
        packets p = steady(0, 1);
        store[SIZES][0] = sizes[i].size;
        ANSWERS(lent_report(&link, &p, 0, 0, told_at(0), &r), sizes[i].answer);
    }
}

static void report_probes(void)
{
    const double bad[] = {nextafter(1e14, INFINITY), -1, -5e-324, INFINITY, -INFINITY, NAN};
    const double good[] = {0, -0.0, 39999, 2000000, 1e14};
    const double estimates[] = {40000, 40000, 40000, 2000000, 1e10};
    for (size_t i = 0; i < sizeof bad / sizeof *bad; i++) {
        hornetpewter_link link = opened();
        results r = SEVEN;
        packets none = lists(0, 0);
        ANSWERS(lent_report(&link, &none, 1, bad[i], 1000 * MS, &r), -HORNETPEWTER_BAD_PROBE);
        ANSWERS(lent_report(&link, &none, 0, bad[i], 1000 * MS, &r), 0);
        CHECK(r.bitrate == 1000000);
    }
    for (size_t i = 0; i < sizeof good / sizeof *good; i++) {
        hornetpewter_link link = opened(), other = link;
        results r = SEVEN;
        packets none = lists(0, 0);
        ANSWERS(lent_report(&link, &none, 1, good[i], 1000 * MS, &r), 0);
        CHECK(r.bitrate == estimates[i]);
        ANSWERS(lent_report(&other, &none, UINT32_MAX, good[i], 1000 * MS, &r), 0);
        CHECK(equal(&link, &other));
    }
}

static void moments(void)
{
    const uint64_t bad[] = {1, MS - 1, MS + 1, LAST_INSTANT + 1, LAST_INSTANT + MS, UINT64_MAX};
    const uint64_t good[] = {0, MS, LAST_INSTANT};
    packets none = lists(0, 0);
    for (size_t i = 0; i < sizeof bad / sizeof *bad; i++) {
        hornetpewter_link link = reached();
        results r = SEVEN;
        ANSWERS(lent_timeout(&link, bad[i], &r), -HORNETPEWTER_BAD_MOMENT);
        ANSWERS(lent_report(&link, &none, 0, 0, bad[i], &r), -HORNETPEWTER_BAD_MOMENT);
        link.words[0] = 0;
        ANSWERS(lent_timeout(&link, bad[i], &r), -HORNETPEWTER_OUT_OF_RANGE);
    }
    for (size_t i = 0; i < sizeof good / sizeof *good; i++) {
        hornetpewter_link link = opened();
        results r = SEVEN;
        ANSWERS(lent_timeout(&link, good[i], &r), 0);
        CHECK(r.bitrate == 1000000 && r.next_timeout == good[i] + 25 * MS);
    }
}

/* ---- pass files and their outputs */
static void list_refusals(void)
{
    static uint8_t file[(HORNETPEWTER_MOST_RECORDS + 1) * HORNETPEWTER_RECORD_BYTES + 1];
    const size_t room = HORNETPEWTER_LEAST_OUTPUT, length = 3 * HORNETPEWTER_RECORD_BYTES, most = HORNETPEWTER_MOST_RECORDS * HORNETPEWTER_RECORD_BYTES;
    const size_t lengths[] = {0, 1, 47, 49, length - 1, length + 1, 65519, 65521, 65567, 65569, most - 1, most + 1, most + 47, most + 48, most + 49};
    const uint8_t *out;
    memcpy(file, example(), length);
    for (size_t i = 0; i < sizeof lengths / sizeof *lengths; i++) {
        ANSWERS(lent_list(file, lengths[i], HORNETPEWTER_MOST_OUTPUT, &out), -HORNETPEWTER_BAD_LENGTH);
        ANSWERS(lent_list(file, lengths[i], 0, &out), -HORNETPEWTER_BAD_LENGTH);
    }
    file[4] = 4;
    put(file, 1, 4);
    ANSWERS(lent_list(file, length, 0, &out), -HORNETPEWTER_BAD_KIND);
    file[4] = 2;
    file[5] = 2;
    ANSWERS(lent_list(file, length, 0, &out), -HORNETPEWTER_BAD_KIND);
    file[5] = 1;
    ANSWERS(lent_list(file, length, 0, &out), -HORNETPEWTER_BAD_NEXT);
    put(file, 4, 4);
    ANSWERS(lent_list(file, length, room, &out), -HORNETPEWTER_BAD_NEXT);
    put(file, 3, 4);
    ANSWERS(lent_list(file, length, room - 1, &out), -HORNETPEWTER_SHORT_OUTPUT);
    ANSWERS(lent_list(file, length, 0, &out), -HORNETPEWTER_SHORT_OUTPUT);
    CHECK(lent_list(file, length, room, &out) > 0 && !wrong);
}

/* So many timeouts at the last instant, whose lines are long, each linked to the next one. */
static uint8_t *timeouts(size_t records)
{
    static uint8_t file[HORNETPEWTER_MOST_RECORDS * HORNETPEWTER_RECORD_BYTES];
    for (size_t k = 0; k < records; k++) {
        uint8_t *record = file + k * HORNETPEWTER_RECORD_BYTES;
        memset(record, 0, HORNETPEWTER_RECORD_BYTES);
        put(record, k + 1 == records ? 0 : k + 2, 4);
        record[4] = 3;
        put(record + 32, LAST_INSTANT, 8);
    }
    return file;
}

/* Files on both sides of the limits, and what output they want. */
static const struct {
    size_t records, length, room;
} limits[] = {{1, 48, 65536},       {1364, 65472, 65536},      {1365, 65520, 65536},      {1366, 65568, 65568},
              {1367, 65616, 65616}, {65534, 3145632, 3145632}, {65535, 3145680, 3145680}};

static void room_at_its_limits(void)
{
    const size_t bad[] = {0, 1, 3145728, 3145776, (size_t)3 << 32, ((size_t)3 << 32) + 48, (size_t)3 << 62, SIZE_MAX / 48 * 48, SIZE_MAX - 1, SIZE_MAX};
    for (size_t i = 0; i < sizeof limits / sizeof *limits; i++) {
        CHECK(hornetpewter_room(limits[i].length - 1) == -HORNETPEWTER_BAD_LENGTH);
        CHECK(hornetpewter_room(limits[i].length) == (int64_t)limits[i].room);
        CHECK(hornetpewter_room(limits[i].length + 1) == -HORNETPEWTER_BAD_LENGTH);
    }
    for (size_t i = 0; i < sizeof bad / sizeof *bad; i++)
        CHECK(hornetpewter_room(bad[i]) == -HORNETPEWTER_BAD_LENGTH);
}

static void list_at_its_limits(void)
{
    for (size_t i = 0; i < sizeof limits / sizeof *limits; i++) {
        const uint8_t *file = timeouts(limits[i].records), *out;
        const size_t length = limits[i].length, room = limits[i].room;
        uint64_t lines = 0;
        ANSWERS(lent_list(file, length, 0, &out), -HORNETPEWTER_SHORT_OUTPUT);
        ANSWERS(lent_list(file, length, room - 1, &out), -HORNETPEWTER_SHORT_OUTPUT);
        int64_t listed = lent_list(file, length, room, &out);
        CHECK(listed > 0 && !wrong);
        CHECK(listed > 0 && listing_differs(file, out, (size_t)listed, &lines) == 0 && lines == limits[i].records);
        ANSWERS(lent_list(file, length, room + 1, &out), listed);
    }
}

/* Records that are not linked count: a longer file of which one record is linked. */
static void unlinked_records_want_output(void)
{
    static const char expected[] = "1 0 N 412e848000000000 1000000000025000000\n";
    uint8_t *file = timeouts(1366);
    const uint8_t *out;
    put(file, 0, 4);
    ANSWERS(lent_list(file, 65568, HORNETPEWTER_LEAST_OUTPUT, &out), -HORNETPEWTER_SHORT_OUTPUT);
    ANSWERS(lent_list(file, 65568, 65567, &out), -HORNETPEWTER_SHORT_OUTPUT);
    ANSWERS(lent_list(file, 65568, 65568, &out), (int64_t)sizeof expected - 1);
    CHECK(memcmp(out, expected, sizeof expected - 1) == 0);
    ANSWERS(lent_list(file, 65520, HORNETPEWTER_LEAST_OUTPUT, &out), (int64_t)sizeof expected - 1);
}

/* The last record of a file has a fault and the output is a byte short; the faults are mended in the order of the questions. */
static void list_refusals_in_order(void)
{
    for (size_t i = 0; i < sizeof limits / sizeof *limits; i++) {
        const size_t records = limits[i].records, length = limits[i].length, room = limits[i].room;
        uint8_t *file = timeouts(records), *last = file + length - HORNETPEWTER_RECORD_BYTES;
        const uint8_t *out;
        last[4] = 4;
        put(last, 1, 4);
        ANSWERS(lent_list(file, length - 1, room - 1, &out), -HORNETPEWTER_BAD_LENGTH);
        ANSWERS(lent_list(file, length, room - 1, &out), -HORNETPEWTER_BAD_KIND);
        last[4] = 2;
        last[5] = 2;
        ANSWERS(lent_list(file, length, room - 1, &out), -HORNETPEWTER_BAD_KIND);
        last[5] = 0;
        ANSWERS(lent_list(file, length, room - 1, &out), -HORNETPEWTER_BAD_NEXT);
        put(last, records, 4);
        ANSWERS(lent_list(file, length, room - 1, &out), -HORNETPEWTER_BAD_NEXT);
        put(last, records + 1, 4);
        ANSWERS(lent_list(file, length, room - 1, &out), -HORNETPEWTER_BAD_NEXT);
        put(last, 0, 4);
        ANSWERS(lent_list(file, length, room - 1, &out), -HORNETPEWTER_SHORT_OUTPUT);
    }
}

/* ---- words */
/* A link's words as a caller may find them: every call answers 1. */
static void refused_by_all(hornetpewter_link link)
{
    results r = SEVEN;
    packets p = steady(300, 10);
    ANSWERS(lent_report(&link, &p, 0, 0, told_at(309), &r), -HORNETPEWTER_OUT_OF_RANGE);
    ANSWERS(lent_timeout(&link, told_at(309), &r), -HORNETPEWTER_OUT_OF_RANGE);
    ANSWERS(lent_read(&link, &r), -HORNETPEWTER_OUT_OF_RANGE);
}

static void other_formats(void)
{
    const uint64_t formats[] = {0, 2, 3, 256, UINT64_C(1) << 32 | 1, UINT64_C(1) << 56, UINT64_MAX};
    hornetpewter_link link = {{0}};
    refused_by_all(link);
    for (size_t i = 0; i < sizeof formats / sizeof *formats; i++) {
        link = reached();
        link.words[0] = formats[i];
        refused_by_all(link);
    }
}

/* The layout stands at the head of crates/link_words/src/lib.rt; callers have no need of it. */
static void unknown_tags(void)
{
    const struct {
        unsigned word;
        uint64_t last;
    } tags[] = {{3, 1},  {8, 1},  {10, 1}, {12, 1}, {17, 1}, {22, 1}, {70, 1}, {72, 3}, {74, 1},
                {76, 2}, {77, 2}, {81, 1}, {84, 1}, {88, 1}, {90, 1}, {93, 1}, {98, 1}};
    hornetpewter_link good = reached();
    good.words[70] = 1;
    good.words[71] = 1;
    good.words[72] = 2;
    good.words[73] = 5 * MS;
    results r = SEVEN;
    ANSWERS(lent_read(&good, &r), 0);
    for (size_t i = 0; i < sizeof tags / sizeof *tags; i++) {
        hornetpewter_link link = good;
        CHECK(link.words[tags[i].word] <= tags[i].last);
        link.words[tags[i].word] = tags[i].last + 1;
        refused_by_all(link);
        link.words[tags[i].word] = UINT64_MAX;
        refused_by_all(link);
    }
}

/* Words of an absent option are not read. */
static void words_not_read(void)
{
    const unsigned unread[] = {4, 9, 11, 13, 14, 15, 16, 18, 19, 20, 21, 23, 71, 72, 73, 75, 82, 85, 89, 91, 94, 99};
    hornetpewter_link good = opened(), link = good, after;
    results a = SEVEN, b = SEVEN;
    for (size_t i = 0; i < sizeof unread / sizeof *unread; i++) {
        CHECK(good.words[unread[i]] == 0);
        link.words[unread[i]] = UINT64_MAX - i;
    }
    after = link;
    ANSWERS(lent_read(&good, &a), 0);
    ANSWERS(lent_read(&link, &b), 0);
    CHECK(bits(a.bitrate) == bits(b.bitrate) && a.hypothesis == b.hypothesis && a.next_timeout == b.next_timeout && a.threshold == b.threshold);
    run_steady(&good, 0, 30, &a);
    run_steady(&after, 0, 30, &b);
    CHECK(equal(&good, &after));
}

/* Nor is what the delay history holds past its length: the same answers, report by report. */
static void history_past_its_length(void)
{
    hornetpewter_link good = opened(), link = good;
    results a = SEVEN, b = SEVEN;
    for (unsigned i = 24; i < 64; i++)
        link.words[i] = i % 3 == 0 ? UINT64_MAX : bits(1e300 * i);
    for (size_t k = 0; k < 30; k++) {
        run_steady(&good, 10 * k, 1, &a);
        run_steady(&link, 10 * k, 1, &b);
        CHECK(bits(a.bitrate) == bits(b.bitrate) && a.hypothesis == b.hypothesis && a.next_timeout == b.next_timeout);
    }
}

/* A link stored as bytes and loaded again goes on as the one that stayed, and neither is seen by the other. */
static void copies_go_on_alike(void)
{
    hornetpewter_link stayed = opened(), loaded;
    unsigned char bytes[sizeof stayed], again[sizeof stayed];
    results a = SEVEN, b = SEVEN;
    run_steady(&stayed, 0, 20, &a);
    memcpy(bytes, &stayed, sizeof bytes);
    run_steady(&stayed, 200, 20, &a);
    memset(&loaded, 0xff, sizeof loaded);
    memcpy(&loaded, bytes, sizeof loaded);
    memcpy(again, &loaded, sizeof again);
    CHECK(memcmp(bytes, again, sizeof bytes) == 0 && !equal(&stayed, &loaded));
    run_steady(&loaded, 200, 20, &b);
    CHECK(equal(&stayed, &loaded) && bits(a.bitrate) == bits(b.bitrate) && a.next_timeout == b.next_timeout);
}

/* A refused report leaves a link that goes on as if it had not been called. */
static void refused_and_on(void)
{
    hornetpewter_link one = reached(), other = one;
    results a = SEVEN, b = SEVEN;
    packets p = steady(300, 10);
    store[SIZES][305] = 0;
    ANSWERS(lent_report(&one, &p, 0, 0, told_at(309), &a), -HORNETPEWTER_BAD_SIZE);
    run_steady(&one, 300, 10, &a);
    run_steady(&other, 300, 10, &b);
    CHECK(equal(&one, &other) && bits(a.bitrate) == bits(b.bitrate));
}

/* The lists of a report are only read: one list may stand for several. */
static void lists_that_overlap(void)
{
    uint64_t all[4] = {MS, 11 * MS, 21 * MS, 31 * MS}, copies[LISTS][4];
    hornetpewter_link one = opened(), other = one;
    double rate[2] = {7, 7};
    uint32_t hypothesis[2] = {7, 7};
    uint64_t next[2] = {7, 7};
    for (int k = 0; k < LISTS; k++)
        memcpy(copies[k], all, sizeof all);
    CHECK(hornetpewter_report(&one, all, 4, all, 4, all, 4, all, 4, all, 4, 0, 0, 1040 * MS, &rate[0], &hypothesis[0], &next[0]) == 0);
    CHECK(hornetpewter_report(&other, copies[0], 4, copies[1], 4, copies[2], 4, copies[3], 4, copies[4], 4, 0, 0, 1040 * MS, &rate[1], &hypothesis[1], &next[1])
          == 0);
    CHECK(equal(&one, &other) && rate[0] == rate[1] && hypothesis[0] == hypothesis[1] && next[0] == next[1]);
}

/* ---- threads */
#define THREADS 4
static uint64_t ticks[THREADS][10];

/* 2,000 reports on a link of the thread's own; each thread has packets of another spacing. */
static void *thread_run(void *argument)
{
    size_t own = (size_t)argument;
    hornetpewter_link *link = malloc(sizeof *link);
    if (!link || hornetpewter_open(link, 1000000, 500 * MS, 150 * MS) != 0)
        return NULL;
    for (uint64_t k = 1; k <= 2000; k++) {
        uint64_t *at = ticks[own], now = (1000 + 100 * k) * MS, sizes[10];
        double rate;
        uint32_t hypothesis;
        uint64_t next;
        for (uint64_t i = 0; i < 10; i++) {
            at[i] = now - (100 - (7 + own) * i) * MS;
            sizes[i] = 1000 + own;
        }
        if (hornetpewter_report(link, at, 10, sizes, 10, at, 10, at, 10, at, 10, 0, 0, now, &rate, &hypothesis, &next) != 0)
            return NULL;
    }
    return link;
}

static void links_of_their_own_threads(void)
{
    pthread_t threads[THREADS];
    void *together[THREADS];
    for (size_t t = 0; t < THREADS; t++)
        CHECK(pthread_create(&threads[t], NULL, thread_run, (void *)t) == 0);
    for (size_t t = 0; t < THREADS; t++)
        CHECK(pthread_join(threads[t], &together[t]) == 0);
    for (size_t t = 0; t < THREADS; t++) {
        void *alone = thread_run((void *)t);
        CHECK(alone && together[t] && equal(alone, together[t]));
        free(alone);
        free(together[t]);
    }
}

/* ---- stack */
/* The figures of the header's note on memory. */
static void stack_need(void)
{
    static const size_t most[STACK_CALLS] = {4000, 54000, 9000, 2000, 61000, 1000, 1000, 1000};
    size_t need[STACK_CALLS];
    CHECK(stack_needs(need) == 0);
    for (int k = 0; k < STACK_CALLS; k++) {
        CHECK(need[k] > 0 && need[k] <= most[k] && most[k] <= HORNETPEWTER_STACK_BYTES);
        fprintf(stderr, "stack of %s: %zu bytes\n", stack_call[k], need[k]);
    }
}

/* ---- near convergence */
/* A report without packets, 100 ms after the last update and without a round trip, on a link whose acknowledged rate is its average: it adds half a packet of
   1200 * 8 bits or less, and at least 1,000 bps. */
static void step_near_convergence(void)
{
    const double rows[][2] = {{40000, 41000}, {60000, 61000}, {288000, 292800}, {1000000, 1004166.6666666666}};
    packets none = lists(0, 0);
    for (size_t i = 0; i < sizeof rows / sizeof *rows; i++) {
        hornetpewter_link link = {{0}};
        results r = SEVEN;
        ANSWERS(lent_open(&link, rows[i][0], 500 * MS, 150 * MS), 0);
        link.words[3] = link.words[84] = link.words[88] = 1;
        link.words[4] = link.words[85] = bits(1000000);
        link.words[89] = 1000 * MS;
        ANSWERS(lent_report(&link, &none, 0, 0, 1100 * MS, &r), 0);
        CHECK(r.bitrate == rows[i][1]);
    }
}

/* ---- pass files */
static int samples;
static char **sample;

static void samples_by_live_calls(void)
{
    static uint8_t file[HORNETPEWTER_MOST_RECORDS * HORNETPEWTER_RECORD_BYTES + 1];
    const uint8_t *out;
    uint64_t lines = 0;
    for (int k = 0; k < samples; k++) {
        FILE *f = fopen(sample[k], "rb");
        CHECK(f != NULL);
        if (!f)
            continue;
        size_t length = fread(file, 1, sizeof file, f);
        fclose(f);
        int64_t room = hornetpewter_room(length);
        int64_t listed = room > 0 ? lent_list(file, length, (size_t)room, &out) : room;
        CHECK(listed > 0 && !wrong);
        CHECK(listed > 0 && listing_differs(file, out, (size_t)listed, &lines) == 0);
    }
    CHECK(samples > 0 && lines > 0);
}

static const test tests[] = {
    TEST(open_at_its_limits), TEST(open_refusals), TEST(example_by_live_calls), TEST(example_as_a_file), TEST(report_refusals_in_order),
    TEST(report_lists), TEST(report_instants_and_sizes), TEST(report_probes), TEST(moments), TEST(list_refusals), TEST(room_at_its_limits),
    TEST(list_at_its_limits), TEST(unlinked_records_want_output), TEST(list_refusals_in_order), TEST(other_formats), TEST(unknown_tags), TEST(words_not_read),
    TEST(history_past_its_length), TEST(copies_go_on_alike), TEST(refused_and_on), TEST(lists_that_overlap), TEST(links_of_their_own_threads), TEST(stack_need),
    TEST(step_near_convergence), TEST(samples_by_live_calls),
};

int main(int argc, char **argv)
{
    samples = argc - 1;
    sample = argv + 1;
    return run_tests(tests, sizeof tests / sizeof *tests);
}
