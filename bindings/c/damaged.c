#include "damaged.h"

#include "lent.h"

#include <inttypes.h>
#include <math.h>
#include <stdio.h>
#include <string.h>

#define MS UINT64_C(1000000)
#define POOL 64

/* ---- random numbers (splitmix64) */
static uint64_t state;

static uint64_t next(void)
{
    uint64_t z = state += UINT64_C(0x9e3779b97f4a7c15);
    z = (z ^ z >> 30) * UINT64_C(0xbf58476d1ce4e5b9);
    z = (z ^ z >> 27) * UINT64_C(0x94d049bb133111eb);
    return z ^ z >> 31;
}

static uint64_t below(uint64_t n)
{
    return next() % n;
}

static uint64_t bits(double x)
{
    uint64_t b;
    memcpy(&b, &x, sizeof b);
    return b;
}

static double float_of(uint64_t b)
{
    double x;
    memcpy(&x, &b, sizeof x);
    return x;
}

/* ---- links that calls reached, each with a sender and a line of its own */
typedef struct {
    hornetpewter_link link;
    uint64_t sequence, now, queue, calls;
} source;

static source pool[POOL];
static uint64_t lists[LISTS][HORNETPEWTER_MOST_PACKETS + 1];

static packets lists_of(size_t count)
{
    packets p;
    for (int k = 0; k < LISTS; k++) {
        p.list[k] = lists[k];
        p.length[k] = count;
    }
    return p;
}

/* The packets of the source's next report, which comes at its new now. */
static packets send_packets(source *s)
{
    size_t count = below(64) == 0 ? HORNETPEWTER_MOST_PACKETS : below(20);
    uint64_t send = s->now;
    for (size_t i = 0; i < count; i++) {
        uint64_t drift = below(5) * MS;
        send += below(12) * MS / 2;
        s->queue = below(3) > 0 ? s->queue + drift : s->queue < drift ? 0 : s->queue - drift;
        s->queue = below(200) == 0 ? 0 : s->queue;
        lists[SEQUENCES][i] = s->sequence++;
        lists[SIZES][i] = 1 + below(1500);
        lists[SENDS][i] = send;
        lists[REMOTES][i] = send + 20 * MS + s->queue;
        lists[RECEIVES][i] = send + 40 * MS + s->queue;
    }
    s->now = (send + 40 * MS + s->queue) / MS * MS;
    return lists_of(count);
}

static int open_source(source *s)
{
    memset(s, 0, sizeof *s);
    s->now = (1000 + below(1000000)) * MS;
    return lent_open(&s->link, 40000 + (double)below(10000000), (1 + below(600)) * MS, (1 + below(600)) * MS) == 0 && !wrong;
}

/* One more call on a source, as a gateway makes it; a link has up to 500. */
static int go_on(source *s)
{
    results r = {0, 0, HORNETPEWTER_NORMAL, 0};
    int64_t answer;
    if (s->calls++ > 0 && below(500) == 0)
        return open_source(s);
    if (below(3) == 0) {
        s->now += 25 * MS;
        answer = lent_timeout(&s->link, s->now, &r);
    } else {
        packets p = send_packets(s);
        answer = lent_report(&s->link, &p, below(50) == 0, (double)below(5000000), s->now, &r);
    }
    return answer == 0 && !wrong;
}

/* ---- damage */
static const uint64_t limits[] = {0, 1, 2, 3, 4, 20, 21, 60, 1000000, 25000000, 2147483647, 10000000000, 1000000000000000000, 1000000001000000000,
                                  2000000000000000000, 4000000000000000000, UINT64_C(1) << 63, UINT64_MAX};
static const double floats[] = {0, -0.0, 5e-324, 0.8, 1, 6, 12.5, 600, 40000, 1e6, 1e9, 1e10, 1e12, -1e12, 1e14, 1e30, -1e30, 1e31, -1e31,
                                1e308, INFINITY, -INFINITY, NAN};

static uint64_t odd_word(void)
{
    switch (below(3)) {
    case 0:
        return next();
    case 1:
        return limits[below(sizeof limits / sizeof *limits)] + below(3) - 1;
    default:
        return bits(floats[below(sizeof floats / sizeof *floats)]) + below(3) - 1;
    }
}

static uint64_t damaged_word(uint64_t word)
{
    switch (below(5)) {
    case 0:
        return word + below(7) - 3;
    case 1:
        return word ^ UINT64_C(1) << below(64);
    case 2:
        return pool[below(POOL)].link.words[below(HORNETPEWTER_LINK_WORDS)];
    default:
        return odd_word();
    }
}

/* A link whose words are random, but for its format and, of half of them, its tags. */
static void random_words(hornetpewter_link *link)
{
    static const unsigned tags[] = {3, 8, 10, 12, 17, 22, 70, 72, 74, 76, 77, 81, 84, 88, 90, 93, 98};
    uint64_t tagged = below(2);
    for (size_t i = 0; i < HORNETPEWTER_LINK_WORDS; i++)
        link->words[i] = below(2) ? next() : odd_word();
    for (size_t i = 0; tagged && i < sizeof tags / sizeof *tags; i++)
        link->words[tags[i]] = below(2);
    link->words[0] = HORNETPEWTER_FORMAT;
}

static void damage(hornetpewter_link *link)
{
    static const uint64_t most[] = {1, 1, 2, 8};
    uint64_t count = 1 + below(most[below(4)]);
    for (uint64_t i = 0; i < count; i++) {
        size_t place = 1 + below(HORNETPEWTER_LINK_WORDS - 1);
        link->words[place] = damaged_word(link->words[place]);
    }
    if (below(100) == 0)
        link->words[0] = odd_word();
}

/* ---- calls */
/* Arguments of which one may be odd. */
static int64_t odd_report(hornetpewter_link *link, packets p, uint64_t now, results *r)
{
    uint32_t has_probe = below(8) == 0;
    double probe = (double)below(5000000);
    size_t count = p.length[0];
    switch (below(24)) {
    case 0:
        p.length[below(LISTS)] = below(HORNETPEWTER_MOST_PACKETS + 2);
        break;
    case 1:
        now = odd_word();
        break;
    case 2:
        probe = float_of(odd_word());
        break;
    case 3:
    case 4:
        if (count > 0)
            lists[below(LISTS)][below(count)] = odd_word();
        break;
    default:
        break;
    }
    return lent_report(link, &p, has_probe, probe, now, r);
}

static int64_t odd_call(hornetpewter_link *link, const source *s, results *r)
{
    source then = *s;
    uint64_t kind = below(4);
    if (kind == 0)
        return lent_read(link, r);
    if (kind == 1)
        return lent_timeout(link, below(16) == 0 ? odd_word() : s->now + 25 * MS, r);
    packets p = send_packets(&then);
    return odd_report(link, p, then.now, r);
}

/* What the calls of one state gave: the first answer, and whether an accepted call left a link that is out of range. */
typedef struct {
    int64_t answer;
    int out;
} outcome;

static outcome one_state(source *s)
{
    hornetpewter_link link = s->link;
    results told = {float_of(odd_word()), float_of(odd_word()), (uint32_t)next(), odd_word()}, held = told;
    outcome o = {0, 0};
    if (below(8) == 0)
        random_words(&link);
    else
        damage(&link);
    int known = link.words[0] == HORNETPEWTER_FORMAT;
    o.answer = odd_call(&link, s, &told);
    if (!wrong && !known && o.answer != -HORNETPEWTER_OUT_OF_RANGE)
        wrong = "words of another format were taken";
    if (wrong || o.answer != 0)
        return o;
    o.out = lent_read(&link, &held) != 0;
    if (!wrong && !o.out && (bits(held.bitrate) != bits(told.bitrate) || held.hypothesis != told.hypothesis || held.next_timeout != told.next_timeout))
        wrong = "reading tells something else than the call";
    if (!wrong)
        odd_call(&link, s, &told);
    return o;
}

int damaged(uint64_t seed, uint64_t count)
{
    uint64_t answers[10] = {0}, out = 0, bad = 0;
    state = seed;
    for (size_t k = 0; k < POOL; k++)
        if (!open_source(&pool[k]))
            bad++;
    for (uint64_t k = 1; k <= count; k++) {
        if (k % 8 == 1 && !go_on(&pool[below(POOL)])) {
            fprintf(stderr, "a call on an undamaged link, before state %" PRIu64 ": %s\n", k, wrong ? wrong : "refused");
            bad++;
        }
        outcome o = one_state(&pool[below(POOL)]);
        if (wrong && bad++ == 0)
            fprintf(stderr, "state %" PRIu64 " of seed %" PRIu64 ": %s (answer %" PRId64 ")\n", k, seed, wrong, o.answer);
        if (o.answer <= 0 && o.answer > -10)
            answers[-o.answer]++;
        out += o.out != 0;
    }
    printf("%" PRIu64 " states, %" PRIu64 " wrong: %" PRIu64 " accepted (%" PRIu64 " of these out of range after)", count, bad, answers[0], out);
    for (int k = 1; k < 10; k++)
        if (answers[k] > 0)
            printf(", %" PRIu64 " refused with %d", answers[k], k);
    printf("\n");
    return bad != 0 || answers[0] == 0 || answers[1] == 0;
}
