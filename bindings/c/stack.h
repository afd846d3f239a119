/* How much stack each call uses, for tests. */
#ifndef STACK_H
#define STACK_H

#include <stddef.h>

enum { STACK_CALLS = 8 };
extern const char *const stack_call[STACK_CALLS];

/*
 * The bytes below the caller's frame down to the last that each call wrote, by painting a thread's stack; 0 where a call could not be
 * made. The report has 1,024 packets; the file that is listed has such a report too, and as many records as a file may have; the feedback
 * message has as many packets as one can have, handed out at once. Gives 0, or something else where there is no memory.
 */
int stack_needs(size_t need[STACK_CALLS]);

#endif
