/* Tests of reading feedback messages: test_feedback MESSAGES prints a line a test and exits with 1 where one failed. (bindings/c/test runs it.) */
#include "check.h"
#include "feedback.h"
#include "lent.h"

#include <ctype.h>
#include <stdlib.h>
#include <string.h>

static uint8_t message[MOST_MESSAGE];
static feedback_reading expected;

/* The bytes of a text in hexadecimal, up to its end or a quotation mark. */
static size_t bytes_of(const char *text)
{
    size_t digits = 0;
    for (; *text && *text != '"'; text++) {
        if (*text == ' ')
            continue;
        unsigned digit = (unsigned)(isdigit((unsigned char)*text) ? *text - '0' : *text - 'a' + 10);
        message[digits / 2] = (uint8_t)(digits % 2 == 0 ? digit << 4 : message[digits / 2] | digit);
        digits++;
    }
    return digits / 2;
}

static void put16(uint8_t *place, unsigned value)
{
    place[0] = (uint8_t)(value >> 8);
    place[1] = (uint8_t)value;
}

static void check_message(const char *name, size_t length)
{
    if (feedback_differs(message, length, &expected)) {
        fprintf(stderr, "message %s\n", name);
        failures++;
    }
}

/* As document 02 says it. */
static void check_by_document(const char *name, size_t length)
{
    feedback_by_document(message, length, &expected);
    check_message(name, length);
}

/* ---- worked messages */
/* Ticks are in order, '-' where not received; the packets after them are not received. */
static const struct {
    const char *message;
    int64_t answer;
    feedback_header header;
    const char *ticks;
} worked[] = {
    /* the header */
    {"", -14, {0, 0, 0, 0}, ""},
    {"0000 0000 0000 00", -14, {0, 0, 0, 0}, ""},
    {"0000 0001 0000 00", -14, {0, 0, 0, 0}, ""},
    {"0000 0000 000000 00", -16, {0, 0, 0, 0}, ""},
    {"0000 0000 000000 00 6001", -16, {0, 0, 0, 0}, ""},
    {"1234 0001 123456 78 2001 05", 0, {4660, 1, 1193046, 120}, "5"},
    {"0000 0001 ffffff 00 2001 05", 0, {0, 1, -1, 0}, "5"},
    {"ffff 0001 7fffff 80 2001 ff", 0, {65535, 1, 8388607, 128}, "255"},
    {"fffe 0005 800000 ff 2005 0001020304", 0, {65534, 5, -8388608, 255}, "0 1 3 6 10"},
    /* the reserved symbol, and what is cut short */
    {"0000 0001 000000 00", -14, {0, 0, 0, 0}, ""},
    {"0000 0001 000000 00 60", -14, {0, 0, 0, 0}, ""},
    {"0000 0001 000000 00 6001", -15, {0, 0, 0, 0}, ""},
    {"0000 0002 000000 00 6001", -15, {0, 0, 0, 0}, ""},
    {"0000 0002 000000 00 2001 60", -14, {0, 0, 0, 0}, ""},
    {"0000 0002 000000 00 2001 6001", -15, {0, 0, 0, 0}, ""},
    {"0000 0001 000000 00 2001", -14, {0, 0, 0, 0}, ""},
    {"0000 0001 000000 00 4001 05", -14, {0, 0, 0, 0}, ""},
    {"0000 0002 000000 00 4001 2001 0506", -14, {0, 0, 0, 0}, ""},
    /* padding that is left on stands in for a delta */
    {"0000 0002 000000 00 2002 05", -14, {0, 0, 0, 0}, ""},
    {"0000 0002 000000 00 2002 05 00", 0, {0, 2, 0, 0}, "5 5"},
    {"0000 0001 000000 00 2001 05 ffffff", 0, {0, 1, 0, 0}, "5"},
    /* the draft's chunks */
    {"0000 00dd 000000 00 00dd", 0, {0, 221, 0, 0}, ""},
    {"0000 00de 000000 00 00dd", -14, {0, 0, 0, 0}, ""},
    {"0000 0018 000000 00 6018", -15, {0, 0, 0, 0}, ""},
    {"000a 000e 000001 02 9f1c 0102030405060708", 0, {10, 14, 1, 2}, "- 1 3 6 10 15 - - - 21 28 36 - -"},
    {"000a 000e 000001 02 9f1c 01020304050607", -14, {0, 0, 0, 0}, ""},
    {"0000 0001 000000 00 cd50", 0, {0, 1, 0, 0}, ""},
    {"0000 0002 000000 00 cd50 0102030405", -15, {0, 0, 0, 0}, ""},
    {"0000 0007 000000 00 d258 0a fffe 03 04 8000", 0, {0, 7, 0, 0}, "10 - 8 11 15 -32753 -"},
    /* spare symbols, runs past the count and of no packets */
    {"0000 0003 000000 00 bfff 010203", 0, {0, 3, 0, 0}, "1 3 6"},
    {"0000 0001 000000 00 dfff 09", 0, {0, 1, 0, 0}, "9"},
    {"0000 0002 000000 00 dfff 09", -15, {0, 0, 0, 0}, ""},
    {"0000 0001 000000 00 2002 05", 0, {0, 1, 0, 0}, "5"},
    {"0000 0002 000000 00 3fff 0102", 0, {0, 2, 0, 0}, "1 3"},
    {"0000 0002 000000 00 2002 6001", 0, {0, 2, 0, 0}, "96 97"},
    {"0000 0001 000000 00 0000", -14, {0, 0, 0, 0}, ""},
    {"0000 0001 000000 00 0000 2001 05", 0, {0, 1, 0, 0}, "5"},
    {"0000 0001 000000 00 4000 2001 05", 0, {0, 1, 0, 0}, "5"},
    {"0000 0001 000000 00 6000 2001 05", 0, {0, 1, 0, 0}, "5"},
    {"0000 0003 000000 00 2001 6000 0000 4002 05 fffb 0001", 0, {0, 3, 0, 0}, "5 0 1"},
    /* small and large deltas */
    {"0000 0002 000000 00 2002 80ff", 0, {0, 2, 0, 0}, "128 383"},
    {"0000 0001 000000 00 4001 00ff", 0, {0, 1, 0, 0}, "255"},
    {"0000 0001 000000 00 4001 ffff", 0, {0, 1, 0, 0}, "-1"},
    {"0000 0002 000000 00 4002 7fff7fff", 0, {0, 2, 0, 0}, "32767 65534"},
    {"0000 0002 000000 00 4002 80008000", 0, {0, 2, 0, 0}, "-32768 -65536"},
    {"0000 0002 000000 00 4001 2001 0506 07", 0, {0, 2, 0, 0}, "1286 1293"},
    {"0000 0005 000000 00 2001 0002 2002 010203", 0, {0, 5, 0, 0}, "1 - - 3 6"},
};
#define WORKED (sizeof worked / sizeof *worked)

static void expect_worked(size_t i)
{
    char *text = (char *)(uintptr_t)worked[i].ticks;
    memset(&expected, 0, sizeof expected);
    expected.answer = worked[i].answer;
    expected.header = worked[i].header;
    for (size_t n = 0; *text; n++) {
        expected.statuses[n] = text[0] != '-' || isdigit((unsigned char)text[1]);
        expected.ticks[n] = expected.statuses[n] ? (int32_t)strtol(text, &text, 10) : 0;
        text += strcspn(text, " ");
        text += strspn(text, " ");
    }
}

static void worked_messages(void)
{
    static feedback_reading by_hand;
    for (size_t i = 0; i < WORKED; i++) {
        size_t length = bytes_of(worked[i].message);
        expect_worked(i);
        check_message(worked[i].message, length);
        by_hand = expected;
        feedback_by_document(message, length, &expected);
        CHECK(expected.answer == by_hand.answer);
        if (expected.answer == 0) {
            size_t count = expected.header.status_count;
            CHECK(memcmp(expected.statuses, by_hand.statuses, count) == 0 && memcmp(expected.ticks, by_hand.ticks, count * sizeof *by_hand.ticks) == 0);
        }
    }
}

static void cut_at_every_byte(void)
{
    for (size_t i = 0; i < WORKED; i++)
        for (size_t length = bytes_of(worked[i].message); length > 0; length--)
            check_by_document(worked[i].message, length - 1);
}

/* Each of the 65,536, before a run that covers the rest and deltas of every size. */
static void every_chunk(void)
{
    for (unsigned chunk = 0; chunk < 65536; chunk++)
        for (unsigned count = 1; count <= 14; count += 13) {
            char name[32];
            size_t length = bytes_of("fff8 0000 8000ff 00 0000 3fff 01 0280 04ff 0610 8000 0aff 7fff 0304 0506 0708 090a 0b0c 0d0e 0f10 1112");
            put16(message + 2, count);
            put16(message + 8, chunk);
            snprintf(name, sizeof name, "with chunk %04x", chunk);
            check_by_document(name, length);
        }
}

/* ---- as many packets as a message can tell of */
/* A message of 65,535 packets: so many chunks of one kind, and the same bytes as deltas. */
static size_t longest(unsigned base, unsigned chunk, size_t chunks, unsigned delta, size_t deltas)
{
    size_t length = 8;
    put16(message, base);
    put16(message + 2, 65535);
    memset(message + 4, 0, 4);
    for (size_t i = 0; i < chunks; i++, length += 2)
        put16(message + length, chunk);
    for (size_t i = 0; i < deltas; i++, length += 2)
        put16(message + length, delta);
    return length;
}

static void the_longest_messages(void)
{
    const size_t most = HORNETPEWTER_MOST_STATUSES, last = most - 1;
    check_by_document("the highest tick", longest(1, 0x5fff, 9, 0x7fff, most));
    CHECK(expected.answer == 0 && expected.ticks[last] == 2147385345);
    check_by_document("the lowest tick", longest(65535, 0x5fff, 9, 0x8000, most));
    CHECK(expected.answer == 0 && expected.ticks[last] == -2147450880);
    check_by_document("the highest, a delta short", longest(1, 0x5fff, 9, 0x7fff, most - 1));
    CHECK(expected.answer == -HORNETPEWTER_CUT_SHORT);
    check_by_document("none received, in runs", longest(0, 0x1fff, 9, 0, 0));
    CHECK(expected.answer == 0 && expected.statuses[last] == 0);
    check_by_document("none received, one bit each", longest(0, 0x8000, 4682, 0, 0));
    CHECK(expected.answer == 0);
    check_by_document("none received, a chunk short", longest(0, 0x8000, 4681, 0, 0));
    CHECK(expected.answer == -HORNETPEWTER_CUT_SHORT);
    check_by_document("one bit each", longest(40000, 0xb555, 4682, 0xff01, 18725));
    CHECK(expected.answer == 0);
    check_by_document("two bits each", longest(40000, 0xe492, 9363, 0x8001, most));
    CHECK(expected.answer == 0);
    check_by_document("the reserved symbol last", longest(0, 0x0001, 65534, 0x6001, 1));
    CHECK(expected.answer == -HORNETPEWTER_RESERVED);
    check_by_document("runs of no packets", longest(0, 0x6000, 100000, 0x1fff, 9));
    CHECK(expected.answer == 0);
}

/* ---- lists and readers */
static hornetpewter_feedback_reader started(const char *text)
{
    hornetpewter_feedback_reader reader = {{0}};
    feedback_header header = {0, 0, 0, 0};
    feedback_lend(message, bytes_of(text));
    ANSWERS(lent_feedback_start(&reader, &header), 0);
    return reader;
}

static feedback_part lists(size_t statuses_length, size_t ticks_length)
{
    feedback_part part = {statuses_length, ticks_length, 7, NULL, NULL};
    return part;
}

/* Sequence numbers 65,534 to 2. */
static const char five[] = "fffe 0005 000000 00 9a00 0a0b0c";

static void lists_without_room(void)
{
    const size_t lengths[][2] = {{0, 0}, {0, 1}, {1, 0}, {0, 65535}, {65535, 0}};
    hornetpewter_feedback_reader reader = started(five);
    for (size_t i = 0; i < sizeof lengths / sizeof *lengths; i++) {
        feedback_part part = lists(lengths[i][0], lengths[i][1]);
        ANSWERS(lent_feedback_next(&reader, &part), 0);
    }
    feedback_part part = lists(65535, 4);
    ANSWERS(lent_feedback_next(&reader, &part), 4);
    CHECK(part.sequence == 65534 && part.ticks[0] == 0 && part.ticks[1] == 10 && part.ticks[2] == 21 && part.ticks[3] == 0);
    part = lists(2, 65535);
    ANSWERS(lent_feedback_next(&reader, &part), 1);
    CHECK(part.sequence == 2 && part.statuses[0] == 1 && part.ticks[0] == 33);
}

static void none_left_for_ever(void)
{
    hornetpewter_feedback_reader reader = started(five);
    feedback_part part = lists(5, 5);
    ANSWERS(lent_feedback_next(&reader, &part), 5);
    CHECK(part.sequence == 65534);
    for (size_t i = 0; i < 70000; i++) {
        part = lists(1 + i % 3, 2);
        ANSWERS(lent_feedback_next(&reader, &part), 0);
    }
}

/* A reader stored as bytes and loaded again goes on as the one that stayed, and neither is seen by the other. */
static void copies_of_a_reader(void)
{
    hornetpewter_feedback_reader stayed = started(five), loaded;
    unsigned char stored[sizeof stayed];
    feedback_part part = lists(2, 2);
    ANSWERS(lent_feedback_next(&stayed, &part), 2);
    memcpy(stored, &stayed, sizeof stored);
    for (int turn = 0; turn < 3; turn++) {
        memcpy(&loaded, stored, sizeof loaded);
        part = lists(3, 3);
        ANSWERS(lent_feedback_next(&loaded, &part), 3);
        CHECK(part.sequence == 0 && part.ticks[0] == 21 && part.statuses[1] == 0 && part.ticks[2] == 33);
    }
    part = lists(1, 1);
    ANSWERS(lent_feedback_next(&stayed, &part), 1);
    CHECK(part.sequence == 0 && part.ticks[0] == 21);
}

/* A refused start leaves a reader that goes on with its own message. */
static void refused_and_on(void)
{
    const char *const refused[] = {"0000 0001 0000 00", "0000 0001 000000 00 6001", "0000 0000 000000 00"};
    for (int k = 0; k < 3; k++) {
        hornetpewter_feedback_reader reader = started(five);
        feedback_header header = {1, 2, 3, 4};
        feedback_part part = lists(2, 2);
        ANSWERS(lent_feedback_next(&reader, &part), 2);
        feedback_lend(message, bytes_of(refused[k]));
        ANSWERS(lent_feedback_start(&reader, &header), -HORNETPEWTER_CUT_SHORT - k);
        feedback_lend(message, bytes_of(five));
        part = lists(9, 9);
        ANSWERS(lent_feedback_next(&reader, &part), 3);
        CHECK(part.sequence == 0 && part.ticks[0] == 21 && part.ticks[2] == 33);
    }
}

/* ---- random messages and damaged readers (splitmix64) */
static uint64_t state;

static uint64_t next(void)
{
    uint64_t z = state += UINT64_C(0x9e3779b97f4a7c15);
    z = (z ^ z >> 30) * UINT64_C(0xbf58476d1ce4e5b9);
    z = (z ^ z >> 27) * UINT64_C(0x94d049bb133111eb);
    return z ^ z >> 31;
}

static uint64_t below(uint64_t n)
{
    return next() % n;
}

/* A chunk, of which one in 64 may have the reserved symbol. */
static unsigned random_chunk(void)
{
    unsigned chunk = (unsigned)next() & 0xffff;
    if (chunk < 0x8000)
        chunk = (chunk & 0x6000) | (unsigned)below(20);
    if (below(64) > 0 && (chunk < 0x8000 ? chunk >= 0x6000 : chunk >= 0xc000))
        chunk &= chunk < 0x8000 ? 0x5fff : 0xd555;
    return chunk;
}

static size_t random_message(void)
{
    size_t count = below(20) == 0 ? below(2000) : 1 + below(40), covered = 0, length = 8;
    for (size_t i = 0; i < 8; i++)
        message[i] = (uint8_t)next();
    put16(message + 2, (unsigned)count);
    for (; covered < count; length += 2) {
        unsigned chunk = random_chunk();
        put16(message + length, chunk);
        covered += chunk < 0x8000 ? chunk & 0x1fff : chunk < 0xc000 ? 14 : 7;
    }
    size_t deltas = below(8) == 0 ? below(count + 1) : 2 * count;
    for (size_t i = 0; i < deltas; i++)
        message[length++] = (uint8_t)next();
    return length;
}

static void random_messages(void)
{
    uint64_t answers[3] = {0};
    state = 1;
    for (int i = 0; i < 30000; i++) {
        char name[32];
        size_t length = random_message();
        if (below(8) == 0)
            message[below(length)] = (uint8_t)next();
        snprintf(name, sizeof name, "%d of the random ones", i);
        check_by_document(name, length);
        if (expected.answer >= -HORNETPEWTER_RESERVED)
            answers[expected.answer == 0 ? 0 : -expected.answer - 13]++;
    }
    CHECK(answers[0] > 10000 && answers[1] > 1000 && answers[2] > 1000);
}

static uint64_t odd_word(size_t length)
{
    static const uint64_t limits[] = {0, 8, 14, 8191, 0x6001, 0x8000, 0xbfff, 0xffff, UINT64_C(1) << 31, UINT64_C(1) << 32, UINT64_C(1) << 63, UINT64_MAX};
    switch (below(4)) {
    case 0:
        return next();
    case 1:
        return below(65536);
    case 2:
        return length + below(7) - 3;
    default:
        return limits[below(sizeof limits / sizeof *limits)] + below(3) - 1;
    }
}

/* A reader some way into the message, or of another one, with words replaced; or one of random words. */
static hornetpewter_feedback_reader damaged(const hornetpewter_feedback_reader *good, size_t length)
{
    hornetpewter_feedback_reader reader = *good;
    uint64_t count = below(8) == 0 ? 0 : 1 + below(3), all = below(8) == 0;
    for (size_t i = 0; i < HORNETPEWTER_READER_WORDS && all; i++)
        reader.words[i] = below(2) ? next() : odd_word(length);
    for (; count > 0; count--) {
        uint64_t *word = &reader.words[below(HORNETPEWTER_READER_WORDS)];
        *word = below(4) == 0 ? *word ^ UINT64_C(1) << below(64) : below(4) == 0 ? *word + below(7) - 3 : odd_word(length);
    }
    return reader;
}

/* Each call answers, and writes what it may and nothing else, whatever the words are. */
static void damaged_readers(void)
{
    hornetpewter_feedback_reader good = {{0}};
    uint64_t packets = 0, none = 0;
    size_t length = 0;
    state = 2;
    for (uint64_t call = 0; call < 1000000; call++) {
        feedback_part part = lists(below(40), below(40));
        if (call % 20 == 0) {
            feedback_header header = {0, 0, 0, 0};
            length = below(50) == 0 ? below(10) : random_message();
            feedback_lend(message, length);
            lent_feedback_start(&good, &header); /* refused, it leaves the reader of another message */
        }
        hornetpewter_feedback_reader reader = damaged(&good, length);
        int64_t answer = lent_feedback_next(&reader, &part);
        if (wrong || !feedback_message_whole(message, length)) {
            fprintf(stderr, "call %" PRIu64 " gave %" PRId64 ": %s\n", call, answer, wrong ? wrong : "the message changed");
            failures++;
            return;
        }
        packets += (uint64_t)answer;
        none += answer == 0;
        if (below(20) == 0)
            good = reader;
    }
    CHECK(packets > 100000 && none > 100000);
}

/* ---- messages of real receivers */
static const char *samples;

static const char *after(const char *line, const char *key)
{
    const char *at = strstr(line, key);
    return at ? at + strlen(key) : NULL;
}

/* The reading in a line: "refused": N, or "header": [..] and "packets": [[sequence, ticks], ..], null where not received. Gives 0 where it has one. */
static int expect_line(const char *line)
{
    const char *refused = after(line, "\"refused\": "), *header = after(line, "\"header\": ["), *packets = after(line, "\"packets\": [");
    long numbers[4];
    size_t count = 0;
    char *text = (char *)(uintptr_t)packets;
    if (refused)
        expected.answer = -strtol(refused, NULL, 10);
    if (refused || !header || !packets || sscanf(header, "%ld, %ld, %ld, %ld]", &numbers[0], &numbers[1], &numbers[2], &numbers[3]) != 4)
        return !refused;
    expected.answer = 0;
    expected.header = (feedback_header){(uint16_t)numbers[0], (uint16_t)numbers[1], (int32_t)numbers[2], (uint8_t)numbers[3]};
    for (; *text == '[' && count < HORNETPEWTER_MOST_STATUSES; text += strspn(text, "], "), count++) {
        if (strtol(text + 1, &text, 10) != (long)((numbers[0] + (long)count) % 65536))
            return 1;
        text += strspn(text, ", ");
        expected.statuses[count] = *text != 'n';
        expected.ticks[count] = *text == 'n' ? 0 : (int32_t)strtol(text, &text, 10);
        text += strcspn(text, "]");
    }
    return count != expected.header.status_count;
}

static void messages_of_real_receivers(void)
{
    static char line[1 << 17];
    int read = 0, refused = 0;
    FILE *f = fopen(samples, "r");
    CHECK(f != NULL);
    while (f && fgets(line, sizeof line, f)) {
        char name[32];
        const char *text = after(line, "\"message\": \"");
        CHECK(text != NULL && expect_line(line) == 0);
        if (!text)
            continue;
        size_t length = bytes_of(text);
        snprintf(name, sizeof name, "on line %d", ++read);
        check_message(name, length);
        refused += expected.answer != 0;
        for (size_t cut = 0; cut < length; cut += 1 + length / 50)
            check_by_document(name, cut);
    }
    if (f)
        fclose(f);
    CHECK(read == 143 && refused == 1);
}

static const test tests[] = {
    TEST(worked_messages),    TEST(cut_at_every_byte),  TEST(every_chunk),    TEST(the_longest_messages), TEST(lists_without_room),
    TEST(none_left_for_ever), TEST(copies_of_a_reader), TEST(refused_and_on), TEST(random_messages),      TEST(damaged_readers),
    TEST(messages_of_real_receivers),
};

int main(int argc, char **argv)
{
    if (argc != 2) {
        fputs("usage: test_feedback MESSAGES\n", stderr);
        return 2;
    }
    samples = argv[1];
    return run_tests(tests, sizeof tests / sizeof *tests);
}
