/* Pass files through the live calls, for tests. */
#ifndef LISTING_H
#define LISTING_H

#include <stddef.h>
#include <stdint.h>

/*
 * Lists a pass file, whose chain is whole, by live calls on one link, and holds it against hornetpewter_list's listing.
 * Gives 0 where every line is equal and every call wrote only what it may, else 1, with what differs on standard error.
 * Adds the lines to *lines.
 */
int listing_differs(const uint8_t *file, const uint8_t *listing, size_t listing_length, uint64_t *lines);

#endif
