/* Feedback messages on fenced memory, and what document 02 says of them, for tests. */
#ifndef FEEDBACK_H
#define FEEDBACK_H

#include "hornetpewter.h"

#define MOST_MESSAGE (1 << 20) /* bytes that can be lent */

typedef struct {
    uint16_t base_seq, status_count;
    int32_t reference_time;
    uint8_t feedback_count;
} feedback_header;

/* The lists that are lent to hornetpewter_feedback_next, and what it told. */
typedef struct {
    size_t statuses_length, ticks_length;
    uint16_t sequence;       /* comes in as what the place held */
    const uint8_t *statuses; /* in fenced memory, until the next call */
    const int32_t *ticks;
} feedback_part;

/* A whole message: a refusal's answer, or 0, the header and the packets. */
typedef struct {
    int64_t answer;
    feedback_header header;
    uint8_t statuses[HORNETPEWTER_MOST_STATUSES];
    int32_t ticks[HORNETPEWTER_MOST_STATUSES];
} feedback_reading;

/*
 * Copies a message to where a page begins that cannot be touched. The two calls are as those of hornetpewter.h, on that copy and on fenced memory;
 * `wrong` (lent.h) is NULL, or says what a call did that it may not. Whether the message is still as it was is asked apart, as it may be long.
 */
void feedback_lend(const uint8_t *message, size_t length);
int64_t lent_feedback_start(hornetpewter_feedback_reader *reader, feedback_header *header);
int64_t lent_feedback_next(hornetpewter_feedback_reader *reader, feedback_part *part);
int feedback_message_whole(const uint8_t *message, size_t length);

/* What document 02 says of a message. */
void feedback_by_document(const uint8_t *message, size_t length, feedback_reading *reading);

/*
 * Reads a message at once, packet by packet, in threes, and with lists of unequal length. Gives 0 where each time it is the expected reading and none is
 * left after it, else 1, with what differs on standard error.
 */
int feedback_differs(const uint8_t *message, size_t length, const feedback_reading *expected);

#endif
