/* Calls on fenced memory, each checked for what a call may write, for tests. */
#ifndef LENT_H
#define LENT_H

#include "hornetpewter.h"

/* What a call's places hold. */
typedef struct {
    double bitrate, threshold;
    uint32_t hypothesis;
    uint64_t next_timeout;
} results;

/* A report's packets; a list of each length, so that unequal ones can be lent. */
enum { SEQUENCES, SIZES, SENDS, REMOTES, RECEIVES, LISTS };
typedef struct {
    const uint64_t *list[LISTS];
    size_t length[LISTS];
} packets;

/*
 * As the calls of hornetpewter.h. `link` is copied into fenced memory before a call and back after it, and so are the
 * results, which come in as what the places held. `wrong` is NULL, or says what the call did that it may not: an answer
 * of no question that it puts, a place or a word changed by a refused call, memory beside a place changed.
 */
extern const char *wrong;
int64_t lent_open(hornetpewter_link *link, double start_bitrate, uint64_t initial_window, uint64_t window);
int64_t lent_report(hornetpewter_link *link, const packets *p, uint32_t has_probe, double probe, uint64_t now, results *r);
int64_t lent_timeout(hornetpewter_link *link, uint64_t now, results *r);
int64_t lent_read(const hornetpewter_link *link, results *r);

/*
 * As hornetpewter_list, with a copy of the file and an output of so many bytes in fenced memory. `*listing` is that output,
 * until the next file is listed.
 */
int64_t lent_list(const uint8_t *file, size_t file_length, size_t out_length, const uint8_t **listing);

#endif
