#define _DEFAULT_SOURCE
#include "stack.h"

#include "hornetpewter.h"

#include <pthread.h>
#include <string.h>
#include <sys/mman.h>

#define STACK_SIZE (1 << 20)
#define PAINT 0x5a
#define MS UINT64_C(1000000)

const char *const stack_call[STACK_CALLS] = {"hornetpewter_open", "hornetpewter_report", "hornetpewter_timeout",
                                             "hornetpewter_read", "hornetpewter_list",   "hornetpewter_room",
                                             "hornetpewter_feedback_start", "hornetpewter_feedback_next"};

/* What the calls are given. */
static hornetpewter_link link_;
static uint64_t lists[5][HORNETPEWTER_MOST_PACKETS], next_timeout;
static uint8_t file[HORNETPEWTER_MOST_RECORDS * HORNETPEWTER_RECORD_BYTES], out[HORNETPEWTER_MOST_OUTPUT];
static double bitrate, threshold;
static uint32_t hypothesis;
static uint8_t message[8 + 4 * HORNETPEWTER_MOST_STATUSES], statuses[HORNETPEWTER_MOST_STATUSES], feedback_count;
static int32_t reference_time, ticks[HORNETPEWTER_MOST_STATUSES];
static uint16_t base_seq, status_count, sequence;
static hornetpewter_feedback_reader reader;

/* 1,024 packets, the last received first, with a queue that grows and drains. */
static void fill_lists(void)
{
    const size_t n = HORNETPEWTER_MOST_PACKETS;
    for (size_t i = 0; i < n; i++) {
        uint64_t queue = (i % 200 < 100 ? i % 200 : 200 - i % 200) * MS;
        lists[0][n - 1 - i] = i;
        lists[1][n - 1 - i] = 1200;
        lists[2][n - 1 - i] = 1000 * MS + 10 * MS * i;
        lists[3][n - 1 - i] = 1020 * MS + 10 * MS * i + queue;
        lists[4][n - 1 - i] = 12000 * MS;
    }
}

/* A pass of those packets, then its report, then timeouts. */
static void fill_file(void)
{
    const uint32_t packets = HORNETPEWTER_MOST_PACKETS, records = HORNETPEWTER_MOST_RECORDS;
    for (uint32_t k = 0; k < records; k++) {
        uint8_t *record = file + (size_t)HORNETPEWTER_RECORD_BYTES * k;
        uint32_t next = k + 1 == records ? 0 : k + 2;
        uint16_t size = 1200;
        uint64_t now = 12000 * MS;
        memcpy(record, &next, sizeof next);
        record[4] = k < packets ? 1 : k == packets ? 2 : 3;
        memcpy(record + 6, &size, sizeof size);
        for (int l = 0; l < 3 && k < packets; l++)
            memcpy(record + 16 + 8 * l, &lists[2 + l][k], 8);
        if (k >= packets)
            memcpy(record + 32, &now, sizeof now);
    }
}

/* A feedback message of 65,535 packets, each in a chunk of its own and with a large delta. */
static void fill_message(void)
{
    message[2] = message[3] = 0xff;
    for (size_t i = 0; i < HORNETPEWTER_MOST_STATUSES; i++) {
        message[8 + 2 * i] = 0x40;
        message[9 + 2 * i] = 1;
    }
}

static int64_t call(int which)
{
    const size_t n = HORNETPEWTER_MOST_PACKETS;
    switch (which) {
    case 0:
        return hornetpewter_open(&link_, 1000000, 500 * MS, 150 * MS);
    case 1:
        return hornetpewter_report(&link_, lists[0], n, lists[1], n, lists[2], n, lists[3], n, lists[4], n, 0, 0, 12000 * MS, &bitrate, &hypothesis, &next_timeout);
    case 2:
        return hornetpewter_timeout(&link_, 12025 * MS, &bitrate, &hypothesis, &next_timeout);
    case 3:
        return hornetpewter_read(&link_, &bitrate, &hypothesis, &next_timeout, &threshold);
    case 4:
        return hornetpewter_list(file, sizeof file, out, sizeof out) > 0 ? 0 : -1;
    case 5:
        return hornetpewter_room(sizeof file) == sizeof out ? 0 : -1;
    case 6:
        return hornetpewter_feedback_start(message, sizeof message, &reader, &base_seq, &status_count, &reference_time, &feedback_count);
    default:
        return hornetpewter_feedback_next(message, sizeof message, &reader, &sequence, statuses, sizeof statuses, ticks, HORNETPEWTER_MOST_STATUSES)
                == HORNETPEWTER_MOST_STATUSES ? 0 : -1;
    }
}

/* A thread makes one call, on a stack of ours. */
static uintptr_t frame;

static void *thread_run(void *which)
{
    unsigned char here;
    frame = (uintptr_t)&here;
    return call(*(int *)which) == 0 ? which : NULL;
}

/* How far below the thread's own frame the paint is gone after a call; 0 where it was not made. */
static size_t depth(int which, unsigned char *stack)
{
    pthread_attr_t attributes;
    pthread_t thread;
    void *done = NULL;
    size_t painted = 0;
    memset(stack, PAINT, STACK_SIZE);
    if (pthread_attr_init(&attributes) != 0 || pthread_attr_setstack(&attributes, stack, STACK_SIZE) != 0
        || pthread_create(&thread, &attributes, thread_run, &which) != 0 || pthread_join(thread, &done) != 0 || !done)
        return 0;
    pthread_attr_destroy(&attributes);
    while (stack[painted] == PAINT)
        painted++;
    return frame - (uintptr_t)(stack + painted);
}

int stack_needs(size_t need[STACK_CALLS])
{
    unsigned char *stack = mmap(NULL, STACK_SIZE, PROT_READ | PROT_WRITE, MAP_PRIVATE | MAP_ANONYMOUS, -1, 0);
    if (stack == MAP_FAILED)
        return 1;
    fill_lists();
    fill_file();
    fill_message();
    for (int k = 0; k < STACK_CALLS; k++)
        need[k] = depth(k, stack);
    for (int k = 0; k < STACK_CALLS; k++) /* again, now that the loader has looked up what the calls need of the C library */
        need[k] = depth(k, stack);
    return munmap(stack, STACK_SIZE);
}
