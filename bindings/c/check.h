/* What the tests are made of. */
#ifndef CHECK_H
#define CHECK_H

#include <inttypes.h>
#include <stddef.h>
#include <stdio.h>

extern int failures; /* of the test that runs */

#define CHECK(holds) \
    do { \
        if (!(holds)) { \
            fprintf(stderr, "%s:%d: %s\n", __FILE__, __LINE__, #holds); \
            failures++; \
        } \
    } while (0)

/* An answer, and that the call wrote what it may and nothing else (`wrong`, lent.h and feedback.h). */
#define ANSWERS(call, expected) \
    do { \
        int64_t told = (call); \
        if (told != (expected) || wrong) { \
            fprintf(stderr, "%s:%d: %s gave %" PRId64 ": %s\n", __FILE__, __LINE__, #call, told, wrong ? wrong : "not as expected"); \
            failures++; \
        } \
    } while (0)

typedef struct {
    const char *name;
    void (*run)(void);
} test;

#define TEST(name) {#name, name}

/* Prints a line a test; gives 1 where one failed, else 0. */
int run_tests(const test *tests, size_t count);

#endif
