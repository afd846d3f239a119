#include "lent.h"

#include "fence.h"

#include <stdio.h>
#include <stdlib.h>
#include <string.h>

#define MOST_LENT HORNETPEWTER_MOST_RECORDS /* packets of a list */
#define MOST_FILE ((HORNETPEWTER_MOST_RECORDS + 1) * HORNETPEWTER_RECORD_BYTES + 1)
#define MOST_OUT (HORNETPEWTER_MOST_OUTPUT + 1)
#define MARK '#'

const char *wrong;

/* The memory that is lent. */
static hornetpewter_link *words;
static double *bitrate, *threshold;
static uint32_t *hypothesis;
static uint64_t *next_timeout, *lists[LISTS];

/* What it held before the call. */
static hornetpewter_link words_before;
static results before;

static void make_memory(void)
{
    if (words)
        return;
    words = fenced(sizeof *words);
    bitrate = fenced(sizeof *bitrate);
    threshold = fenced(sizeof *threshold);
    hypothesis = fenced(sizeof *hypothesis);
    next_timeout = fenced(sizeof *next_timeout);
    for (int k = 0; k < LISTS; k++)
        lists[k] = fenced(MOST_LENT * sizeof **lists);
}

static void lend(const hornetpewter_link *link, const results *r)
{
    make_memory();
    wrong = NULL;
    words_before = *link;
    before = *r;
    *words = *link;
    memcpy(bitrate, &r->bitrate, sizeof *bitrate);
    memcpy(threshold, &r->threshold, sizeof *threshold);
    *hypothesis = r->hypothesis;
    *next_timeout = r->next_timeout;
}

static void take_back(results *r)
{
    memcpy(&r->bitrate, bitrate, sizeof *bitrate);
    memcpy(&r->threshold, threshold, sizeof *threshold);
    r->hypothesis = *hypothesis;
    r->next_timeout = *next_timeout;
}

/* Bit by bit, as a place may hold no number. */
static int places_changed(void)
{
    return memcmp(bitrate, &before.bitrate, sizeof *bitrate) != 0 || memcmp(threshold, &before.threshold, sizeof *threshold) != 0
        || *hypothesis != before.hypothesis || *next_timeout != before.next_timeout;
}

static int fences_whole(void)
{
    int whole = fence_whole(words) && fence_whole(bitrate) && fence_whole(threshold) && fence_whole(hypothesis) && fence_whole(next_timeout);
    for (int k = 0; k < LISTS; k++)
        whole = whole && fence_whole(lists[k]);
    return whole;
}

/* `questions` has bit n set where the call puts question n. */
static int64_t check(int64_t answer, unsigned questions)
{
    if (answer > 0 || answer < -13 || (answer < 0 && !(questions >> -answer & 1)))
        wrong = "an answer of no question that the call puts";
    else if (!fences_whole())
        wrong = "memory beside a lent place changed";
    else if (answer != 0 && memcmp(words, &words_before, sizeof *words) != 0)
        wrong = "a word changed by a refused call";
    else if (answer != 0 && places_changed())
        wrong = "a place changed by a refused call";
    else if (answer == 0 && *hypothesis > HORNETPEWTER_UNDERUSE)
        wrong = "no hypothesis";
    else if (answer == 0 && !(*bitrate >= 40000 && *bitrate <= 1e10))
        wrong = "an estimate out of range";
    return answer;
}

int64_t lent_open(hornetpewter_link *link, double start_bitrate, uint64_t initial_window, uint64_t window)
{
    results none = {40000, 0, HORNETPEWTER_NORMAL, 0};
    lend(link, &none);
    int64_t answer = check(hornetpewter_open(words, start_bitrate, initial_window, window), 1u << 2 | 1u << 3);
    if (!wrong && places_changed())
        wrong = "a place changed that was not lent";
    *link = *words;
    return answer;
}

int64_t lent_report(hornetpewter_link *link, const packets *p, uint32_t has_probe, double probe, uint64_t now, results *r)
{
    const uint64_t *list[LISTS];
    lend(link, r);
    for (int k = 0; k < LISTS; k++) {
        if (p->length[k] > MOST_LENT) {
            fputs("a list is too long to be lent\n", stderr);
            exit(2);
        }
        /* the list's end is the fence; an empty list is no list at all */
        uint64_t *start = lists[k] + (MOST_LENT - p->length[k]);
        if (p->length[k] > 0)
            memcpy(start, p->list[k], p->length[k] * sizeof *start);
        list[k] = p->length[k] > 0 ? start : NULL;
    }
    int64_t answer = check(hornetpewter_report(words, list[SEQUENCES], p->length[SEQUENCES], list[SIZES], p->length[SIZES], list[SENDS], p->length[SENDS],
                                               list[REMOTES], p->length[REMOTES], list[RECEIVES], p->length[RECEIVES], has_probe, probe, now, bitrate,
                                               hypothesis, next_timeout),
                           1u << 1 | 0x3f0);
    for (int k = 0; k < LISTS; k++)
        if (list[k] && memcmp(list[k], p->list[k], p->length[k] * sizeof **list) != 0)
            wrong = "a list changed";
    *link = *words;
    take_back(r);
    return answer;
}

int64_t lent_timeout(hornetpewter_link *link, uint64_t now, results *r)
{
    lend(link, r);
    int64_t answer = check(hornetpewter_timeout(words, now, bitrate, hypothesis, next_timeout), 1u << 1 | 1u << 7);
    *link = *words;
    take_back(r);
    return answer;
}

int64_t lent_read(const hornetpewter_link *link, results *r)
{
    lend(link, r);
    int64_t answer = check(hornetpewter_read(words, bitrate, hypothesis, next_timeout, threshold), 1u << 1);
    if (memcmp(words, &words_before, sizeof *words) != 0)
        wrong = "a word changed by reading";
    take_back(r);
    return answer;
}

static int marked(const uint8_t *from, const uint8_t *end)
{
    while (from < end && *from == MARK)
        from++;
    return from == end;
}

int64_t lent_list(const uint8_t *file, size_t file_length, size_t out_length, const uint8_t **listing)
{
    static uint8_t *files, *outs;
    if (!files) {
        files = fenced(MOST_FILE);
        outs = fenced(MOST_OUT);
    }
    if (file_length > MOST_FILE || out_length > MOST_OUT) {
        fputs("a file or an output is too long to be lent\n", stderr);
        exit(2);
    }
    /* both end at their fences; an empty one is none at all */
    uint8_t *lent = files + (MOST_FILE - file_length), *out = outs + (MOST_OUT - out_length);
    if (file_length > 0)
        memcpy(lent, file, file_length);
    memset(outs, MARK, MOST_OUT);
    wrong = NULL;
    int64_t answer = hornetpewter_list(file_length > 0 ? lent : NULL, file_length, out_length > 0 ? out : NULL, out_length);
    size_t written = answer > 0 ? (size_t)answer : 0;
    if (written > out_length || answer < -13 || (answer < 0 && answer > -10))
        wrong = "a listing longer than the output, or an answer of no question that the call puts";
    else if (!fence_whole(files) || !fence_whole(outs) || !marked(outs, out) || !marked(out + written, outs + MOST_OUT))
        wrong = "memory beside the listing changed";
    else if (file_length > 0 && memcmp(lent, file, file_length) != 0)
        wrong = "the file changed";
    *listing = out;
    return answer;
}
