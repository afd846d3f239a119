/*
 * Drives the live calls (tools/live):
 *
 *   live passes               cases of pass files from standard input, as tools/oracle/pass_files.rs writes them: each file through the live calls
 *   live damaged SEED COUNT   so many random and damaged links, with a call on each (damaged.h)
 *
 * Exits with 1 where something is not as it must be, with 2 where it cannot run.
 */
#include "damaged.h"
#include "hornetpewter.h"
#include "listing.h"

#include <inttypes.h>
#include <stdio.h>
#include <stdlib.h>
#include <string.h>

/* A case: length of the file, length of the output, number, length of the listing, linked packets. */
enum { FILE_LENGTH, OUT_LENGTH, NUMBER, LISTING_LENGTH, PACKETS, HEAD };
#define MOST_BYTES 4194304 /* more than the longest file and its output */

static uint8_t file[MOST_BYTES], expected[MOST_BYTES], out[MOST_BYTES];

/* Whether a file's listing is not the Rust's, or the live calls' is not that; how many lines are added to *lines. */
static int case_differs(const uint32_t *head, uint64_t *lines)
{
    int64_t due = head[NUMBER] == 0 ? (int64_t)head[LISTING_LENGTH] : -(int64_t)head[NUMBER];
    int64_t answer = hornetpewter_list(file, head[FILE_LENGTH], out, head[OUT_LENGTH]);
    if (answer != due || (answer > 0 && memcmp(out, expected, (size_t)answer) != 0)) {
        fprintf(stderr, "hornetpewter_list gave %" PRId64 ", the case has %" PRId64 ", or the listings differ\n", answer, due);
        return 1;
    }
    if (answer == -HORNETPEWTER_SHORT_OUTPUT) {
        int64_t room = hornetpewter_room(head[FILE_LENGTH]);
        answer = room > 0 && room <= MOST_BYTES ? hornetpewter_list(file, head[FILE_LENGTH], out, (size_t)room) : -1;
        if (answer < 0) {
            fprintf(stderr, "hornetpewter_room gave %" PRId64 ", and with that much output there is no listing\n", room);
            return 1;
        }
    }
    return answer < 0 ? 0 : listing_differs(file, out, (size_t)answer, lines);
}

static int passes(void)
{
    uint32_t head[HEAD];
    uint64_t files = 0, refused = 0, packets = 0, lines = 0, differ = 0;
    while (fread(head, sizeof head, 1, stdin) == 1) {
        if (head[FILE_LENGTH] > MOST_BYTES || head[OUT_LENGTH] > MOST_BYTES || head[LISTING_LENGTH] > MOST_BYTES
            || fread(file, 1, head[FILE_LENGTH], stdin) != head[FILE_LENGTH] || fread(expected, 1, head[LISTING_LENGTH], stdin) != head[LISTING_LENGTH]) {
            fputs("a case cannot be read\n", stderr);
            return 2;
        }
        files++;
        refused += head[NUMBER] != 0;
        packets += head[PACKETS];
        if (case_differs(head, &lines) && differ++ == 0)
            fprintf(stderr, "the first file that differs is number %" PRIu64 "\n", files);
    }
    printf("%" PRIu64 " files, %" PRIu64 " differ: %" PRIu64 " refused, %" PRIu64 " packets, %" PRIu64 " lines\n", files, differ, refused, packets, lines);
    return differ != 0 || lines == 0;
}

int main(int argc, char **argv)
{
    if (argc == 2 && strcmp(argv[1], "passes") == 0)
        return passes();
    if (argc == 4 && strcmp(argv[1], "damaged") == 0)
        return damaged(strtoull(argv[2], NULL, 10), strtoull(argv[3], NULL, 10));
    fputs("usage: live passes | live damaged SEED COUNT\n", stderr);
    return 2;
}
