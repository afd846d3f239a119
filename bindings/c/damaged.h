/* Calls on random and damaged links, for tests. */
#ifndef DAMAGED_H
#define DAMAGED_H

#include <stdint.h>

/*
 * Makes so many links from a seed, one in eight of random words and the others links that calls reached with one to eight words replaced, and makes a call on
 * each. Prints how many answers of each kind there were. Gives 0 where each was an answer of a question that the call puts, wrote what it may, and
 * where it was accepted left words that the next calls answer too; else 1, with the first that did not on standard error.
 */
int damaged(uint64_t seed, uint64_t count);

#endif
