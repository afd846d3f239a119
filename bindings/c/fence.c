#define _DEFAULT_SOURCE
#include "fence.h"

#include <stdio.h>
#include <stdlib.h>
#include <string.h>
#include <sys/mman.h>
#include <unistd.h>

#define FENCE_BYTE 0xa5

void *fenced(size_t bytes)
{
    size_t page = (size_t)sysconf(_SC_PAGESIZE);
    size_t inside = (bytes + FENCE_BYTES + page - 1) / page * page;
    char *start = mmap(NULL, inside + 2 * page, PROT_NONE, MAP_PRIVATE | MAP_ANONYMOUS, -1, 0);
    if (start == MAP_FAILED || mprotect(start + page, inside, PROT_READ | PROT_WRITE) != 0) {
        perror("memory to lend");
        exit(2);
    }
    memset(start + page, FENCE_BYTE, inside);
    return start + page + inside - bytes;
}

int fence_whole(const void *block)
{
    static unsigned char known[FENCE_BYTES];
    if (known[0] == 0)
        memset(known, FENCE_BYTE, sizeof known);
    return memcmp((const char *)block - FENCE_BYTES, known, sizeof known) == 0;
}
