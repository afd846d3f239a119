#include "feedback.h"

#include "fence.h"
#include "lent.h"

#include <inttypes.h>
#include <stdio.h>
#include <stdlib.h>
#include <string.h>

#define MARK '#'

/* ---- the memory that is lent */
static uint8_t *messages, *statuses, *feedback_count;
static int32_t *ticks, *reference_time;
static uint16_t *base_seq, *status_count, *sequence;
static hornetpewter_feedback_reader *words;

/* The message in it. */
static const uint8_t *lent;
static size_t lent_length;

static void make_memory(void)
{
    if (messages)
        return;
    messages = fenced(MOST_MESSAGE);
    statuses = fenced(HORNETPEWTER_MOST_STATUSES * sizeof *statuses);
    ticks = fenced(HORNETPEWTER_MOST_STATUSES * sizeof *ticks);
    words = fenced(sizeof *words);
    base_seq = fenced(sizeof *base_seq);
    status_count = fenced(sizeof *status_count);
    reference_time = fenced(sizeof *reference_time);
    feedback_count = fenced(sizeof *feedback_count);
    sequence = fenced(sizeof *sequence);
}

static int fences_whole(void)
{
    return fence_whole(messages) && fence_whole(statuses) && fence_whole(ticks) && fence_whole(words) && fence_whole(base_seq) && fence_whole(status_count)
        && fence_whole(reference_time) && fence_whole(feedback_count) && fence_whole(sequence);
}

void feedback_lend(const uint8_t *message, size_t length)
{
    make_memory();
    if (length > MOST_MESSAGE) {
        fputs("a message is too long to be lent\n", stderr);
        exit(2);
    }
    uint8_t *start = messages + (MOST_MESSAGE - length);
    if (length > 0)
        memcpy(start, message, length);
    lent = length > 0 ? start : NULL; /* an empty message is none at all */
    lent_length = length;
}

int feedback_message_whole(const uint8_t *message, size_t length)
{
    return length == lent_length && (length == 0 || memcmp(lent, message, length) == 0);
}

/* ---- calls */
static int same_header(const feedback_header *a, const feedback_header *b)
{
    return a->base_seq == b->base_seq && a->status_count == b->status_count && a->reference_time == b->reference_time && a->feedback_count == b->feedback_count;
}

int64_t lent_feedback_start(hornetpewter_feedback_reader *reader, feedback_header *header)
{
    *words = *reader;
    *base_seq = header->base_seq;
    *status_count = header->status_count;
    *reference_time = header->reference_time;
    *feedback_count = header->feedback_count;
    int64_t answer = hornetpewter_feedback_start(lent, lent_length, words, base_seq, status_count, reference_time, feedback_count);
    feedback_header told = {*base_seq, *status_count, *reference_time, *feedback_count};
    wrong = NULL;
    if (answer != 0 && (answer > -HORNETPEWTER_CUT_SHORT || answer < -HORNETPEWTER_NO_STATUS))
        wrong = "an answer of no question that the call puts";
    else if (!fences_whole())
        wrong = "memory beside a lent place changed";
    else if (answer != 0 && memcmp(words, reader, sizeof *words) != 0)
        wrong = "a word changed by a refused call";
    else if (answer != 0 && !same_header(&told, header))
        wrong = "a place changed by a refused call";
    *reader = *words;
    *header = told;
    return answer;
}

static int marked(const void *from, const void *end)
{
    const uint8_t *p = from;
    while (p < (const uint8_t *)end && *p == MARK)
        p++;
    return p == end;
}

/* What is wrong with the first packets of two lists, or NULL. */
static const char *odd_packets(const uint8_t *status, const int32_t *tick, size_t count)
{
    for (size_t i = 0; i < count; i++) {
        if (status[i] > 1)
            return "a status that is neither 0 nor 1";
        if (status[i] == 0 && tick[i] != 0)
            return "a tick of a packet that was not received";
    }
    return NULL;
}

int64_t lent_feedback_next(hornetpewter_feedback_reader *reader, feedback_part *part)
{
    /* the lists end at their fences, and what stands before them is marked like them; an empty list is none at all */
    const size_t most = HORNETPEWTER_MOST_STATUSES, room = part->statuses_length < part->ticks_length ? part->statuses_length : part->ticks_length;
    uint8_t *status = statuses + (most - part->statuses_length), *status_fence = part->statuses_length + FENCE_BYTES > most ? statuses : status - FENCE_BYTES;
    int32_t *tick = ticks + (most - part->ticks_length), *tick_fence = part->ticks_length + FENCE_BYTES > most ? ticks : tick - FENCE_BYTES;
    memset(status_fence, MARK, (size_t)(statuses + most - status_fence));
    memset(tick_fence, MARK, (size_t)(ticks + most - tick_fence) * sizeof *ticks);
    *words = *reader;
    *sequence = part->sequence;
    int64_t answer = hornetpewter_feedback_next(lent, lent_length, words, sequence, part->statuses_length > 0 ? status : NULL, part->statuses_length,
                                                part->ticks_length > 0 ? tick : NULL, part->ticks_length);
    size_t count = answer > 0 ? (size_t)answer : 0;
    wrong = NULL;
    if (answer < 0 || count > room)
        wrong = "more packets than the lists have places for, or a refusal";
    else if (!fences_whole() || !marked(status_fence, status) || !marked(tick_fence, tick))
        wrong = "memory beside a lent place changed";
    else if (!marked(status + count, statuses + most) || !marked(tick + count, ticks + most))
        wrong = "a place of a list changed after the packets";
    else if (answer == 0 && memcmp(words, reader, sizeof *words) != 0)
        wrong = "a word changed where no packet was handed out";
    else if (answer == 0 && *sequence != part->sequence)
        wrong = "the sequence number changed where no packet was handed out";
    else
        wrong = odd_packets(status, tick, count);
    *reader = *words;
    part->sequence = *sequence;
    part->statuses = status;
    part->ticks = tick;
    return answer;
}

/* ---- what document 02 says */
static unsigned symbols_of(unsigned chunk)
{
    return chunk < 0x8000 ? chunk & 0x1fff : chunk < 0xc000 ? 14 : 7;
}

static unsigned symbol_of(unsigned chunk, unsigned place)
{
    return chunk < 0x8000 ? chunk >> 13 : chunk < 0xc000 ? chunk >> (13 - place) & 1 : chunk >> (12 - 2 * place) & 3;
}

/* The symbols up to the count, and where the deltas begin. */
static int64_t read_chunks(const uint8_t *message, size_t length, uint8_t *symbols, size_t count, size_t *at)
{
    for (size_t n = 0; n < count; *at += 2) {
        if (length - *at < 2)
            return -HORNETPEWTER_CUT_SHORT; /* and a chunk of one byte has no symbols */
        unsigned chunk = (unsigned)message[*at] << 8 | message[*at + 1];
        for (unsigned place = 0; place < symbols_of(chunk) && n < count; place++, n++) {
            symbols[n] = (uint8_t)symbol_of(chunk, place);
            if (symbols[n] == 3)
                return -HORNETPEWTER_RESERVED;
        }
    }
    return 0;
}

static int64_t read_deltas(const uint8_t *message, size_t length, const uint8_t *symbols, size_t at, feedback_reading *r)
{
    int32_t sum = 0;
    for (size_t n = 0; n < r->header.status_count; at += symbols[n], n++) {
        if (length - at < symbols[n])
            return -HORNETPEWTER_CUT_SHORT;
        int32_t large = symbols[n] == 2 ? message[at] * 256 + message[at + 1] : 0;
        sum += symbols[n] == 1 ? message[at] : large < 32768 ? large : large - 65536;
        r->statuses[n] = symbols[n] > 0;
        r->ticks[n] = symbols[n] > 0 ? sum : 0;
    }
    return 0;
}

void feedback_by_document(const uint8_t *message, size_t length, feedback_reading *r)
{
    static uint8_t symbols[HORNETPEWTER_MOST_STATUSES];
    size_t at = 8;
    r->answer = -HORNETPEWTER_CUT_SHORT;
    if (length < 8)
        return;
    int32_t reference = message[4] * 65536 + message[5] * 256 + message[6];
    r->header.base_seq = (uint16_t)(message[0] * 256 + message[1]);
    r->header.status_count = (uint16_t)(message[2] * 256 + message[3]);
    r->header.reference_time = reference < 8388608 ? reference : reference - 16777216;
    r->header.feedback_count = message[7];
    r->answer = r->header.status_count == 0 ? -HORNETPEWTER_NO_STATUS : read_chunks(message, length, symbols, r->header.status_count, &at);
    if (r->answer == 0)
        r->answer = read_deltas(message, length, symbols, at, r);
}

/* ---- whole messages */
/* What is wrong with the next packets, from a place on, or NULL. */
static const char *part_differs(const feedback_reading *expected, size_t from, const feedback_part *part, size_t count)
{
    if (part->sequence != (uint16_t)(expected->header.base_seq + from))
        return "another sequence number";
    if (memcmp(part->statuses, expected->statuses + from, count * sizeof *part->statuses) != 0)
        return "another status";
    if (memcmp(part->ticks, expected->ticks + from, count * sizeof *part->ticks) != 0)
        return "another tick";
    return NULL;
}

/* Reads the lent message with lists of these lengths; what is wrong, or NULL. */
static const char *reading_differs(const feedback_reading *expected, size_t statuses_length, size_t ticks_length)
{
    hornetpewter_feedback_reader reader;
    feedback_header header = {7, 7, 7, 7};
    size_t count = expected->header.status_count, room = statuses_length < ticks_length ? statuses_length : ticks_length;
    memset(&reader, 0x77, sizeof reader);
    int64_t answer = lent_feedback_start(&reader, &header);
    if (wrong || answer != expected->answer)
        return wrong ? wrong : "another answer";
    if (answer != 0)
        return NULL;
    if (!same_header(&header, &expected->header))
        return "another header";
    for (size_t from = 0, due = room; due > 0; from += due) {
        feedback_part part = {statuses_length, ticks_length, 7, NULL, NULL};
        due = count - from < room ? count - from : room;
        answer = lent_feedback_next(&reader, &part);
        if (wrong || answer != (int64_t)due)
            return wrong ? wrong : "another number of packets";
        const char *fault = due > 0 ? part_differs(expected, from, &part, due) : NULL;
        if (fault)
            return fault;
    }
    return NULL;
}

int feedback_differs(const uint8_t *message, size_t length, const feedback_reading *expected)
{
    const size_t all = expected->answer == 0 ? expected->header.status_count : 1, lists[][2] = {{all, all}, {1, 1}, {3, 3}, {15, 7}, {14, 500}};
    feedback_lend(message, length);
    for (size_t i = 0; i < sizeof lists / sizeof *lists; i++) {
        const char *fault = reading_differs(expected, lists[i][0], lists[i][1]);
        if (!fault && !feedback_message_whole(message, length))
            fault = "the message changed";
        if (fault) {
            fprintf(stderr, "read with lists of %zu and %zu: %s\n", lists[i][0], lists[i][1], fault);
            return 1;
        }
    }
    return 0;
}
