/* Memory to lend, for tests: nobody may touch the page after it, and the bytes before it are known. */
#ifndef FENCE_H
#define FENCE_H

#include <stddef.h>

#define FENCE_BYTES 64

/* A block of so many bytes that ends where a page begins that cannot be read or written. Never given back. */
void *fenced(size_t bytes);

/* Whether the FENCE_BYTES before a block are as they were. */
int fence_whole(const void *block);

#endif
