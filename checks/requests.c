/* Writes down each request for memory of a process. `memory.py` loads it before the C library: for
 * each block that is asked for or given back it writes three numbers to the descriptor
 * REQUESTS_TOLD, the block that was there before or 0, the one that is there now or 0, and how many
 * bytes were asked for. */

#include "preloaded.h"

static void *(*real_malloc)(unsigned long size);
static void *(*real_calloc)(unsigned long count, unsigned long size);
static void *(*real_realloc)(void *block, unsigned long size);
static void (*real_free)(void *block);
static int told;

__attribute__((constructor)) static void begin(void)
{
    real_malloc = dlsym(NEXT, "malloc");
    real_calloc = dlsym(NEXT, "calloc");
    real_realloc = dlsym(NEXT, "realloc");
    real_free = dlsym(NEXT, "free");
    told = (int)atol(getenv("REQUESTS_TOLD"));
}

static void *note(void *before, void *now, unsigned long size)
{
    unsigned long line[] = {(unsigned long)before, (unsigned long)now, size};
    write(told, line, sizeof line);
    return now;
}

void *malloc(unsigned long size)
{
    if (!real_malloc)
        begin();
    return note(0, real_malloc(size), size);
}

void *calloc(unsigned long count, unsigned long size)
{
    if (!real_calloc)
        begin();
    return note(0, real_calloc(count, size), count * size);
}

void *realloc(void *block, unsigned long size)
{
    if (!real_realloc)
        begin();
    return note(block, real_realloc(block, size), size);
}

void free(void *block)
{
    if (!real_free)
        begin();
    if (block)
        note(block, 0, 0);
    real_free(block);
}
