#include "listing.h"

#include "lent.h"

#include <inttypes.h>
#include <stdio.h>
#include <string.h>

/* A record's fields are little-endian, and so is every machine that the archive runs on. */
static uint64_t field64(const uint8_t *record, size_t place)
{
    uint64_t word;
    memcpy(&word, record + place, sizeof word);
    return word;
}

static uint32_t next_of(const uint8_t *record)
{
    uint32_t next;
    memcpy(&next, record, sizeof next);
    return next;
}

static uint64_t size_of(const uint8_t *record)
{
    uint16_t size;
    memcpy(&size, record + 6, sizeof size);
    return size;
}

static double probe_of(const uint8_t *record)
{
    double probe;
    memcpy(&probe, record + 40, sizeof probe);
    return probe;
}

/* Packets that wait for their report. */
static uint64_t waiting[LISTS][HORNETPEWTER_MOST_RECORDS];
static size_t count;

static void wait_for_report(const uint8_t *record)
{
    waiting[SEQUENCES][count] = field64(record, 8);
    waiting[SIZES][count] = size_of(record);
    waiting[SENDS][count] = field64(record, 16);
    waiting[REMOTES][count] = field64(record, 24);
    waiting[RECEIVES][count] = field64(record, 32);
    count++;
}

static int64_t report(hornetpewter_link *link, const uint8_t *record, results *r)
{
    packets p;
    for (int k = 0; k < LISTS; k++) {
        p.list[k] = waiting[k];
        p.length[k] = count;
    }
    count = 0;
    return lent_report(link, &p, record[5], probe_of(record), field64(record, 32), r);
}

/* A line as hornetpewter_list writes it: a refused call's shows the link as it was, which reading gives. */
static int line(char *text, size_t room, uint32_t number, int64_t answer, const results *r)
{
    uint64_t bits;
    memcpy(&bits, &r->bitrate, sizeof bits);
    return snprintf(text, room, "%" PRIu32 " %" PRId64 " %c %016" PRIx64 " %" PRIu64 "\n", number, -answer, "ONU"[r->hypothesis], bits, r->next_timeout);
}

static int same(const results *a, const results *b)
{
    return memcmp(&a->bitrate, &b->bitrate, sizeof a->bitrate) == 0 && a->hypothesis == b->hypothesis && a->next_timeout == b->next_timeout;
}

/* The call of a linked record and what the link holds after it; what is wrong with it, or NULL. */
static const char *call(hornetpewter_link *link, const uint8_t *record, int64_t *answer, results *held)
{
    results told = {0, 0, HORNETPEWTER_OVERUSE, 0};
    *answer = record[4] == 2 ? report(link, record, &told) : lent_timeout(link, field64(record, 32), &told);
    if (wrong)
        return wrong;
    if (lent_read(link, held) != 0)
        return "reading is refused";
    if (*answer == 0 && !same(&told, held))
        return "the call told something else than reading does";
    return wrong;
}

int listing_differs(const uint8_t *file, const uint8_t *listing, size_t listing_length, uint64_t *lines)
{
    hornetpewter_link link = {{0}};
    results held = {0, 0, HORNETPEWTER_OVERUSE, 0};
    size_t place = 0;
    count = 0;
    if (lent_open(&link, 1000000, 500000000, 150000000) != 0 || wrong) {
        fputs("no link was opened\n", stderr);
        return 1;
    }
    for (uint32_t number = 1, next; number != 0; number = next) {
        const uint8_t *record = file + (size_t)HORNETPEWTER_RECORD_BYTES * (number - 1);
        char text[96];
        int64_t answer;
        next = next_of(record);
        if (record[4] == 1) {
            wait_for_report(record);
            continue;
        }
        const char *fault = call(&link, record, &answer, &held);
        if (fault) {
            fprintf(stderr, "record %" PRIu32 ": %s\n", number, fault);
            return 1;
        }
        size_t length = (size_t)line(text, sizeof text, number, answer, &held);
        if (length > listing_length - place || memcmp(text, listing + place, length) != 0) {
            fprintf(stderr, "the live calls give another line: %s", text);
            return 1;
        }
        place += length;
        ++*lines;
    }
    if (place != listing_length)
        fputs("the listing has more lines\n", stderr);
    return place != listing_length;
}
