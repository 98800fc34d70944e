/* Refuses a process some of its requests for memory. `refusals.py` loads it before the C library:
 * it counts the calls of malloc and realloc from 1, refuses those from REFUSE_FROM to REFUSE_TO,
 * and writes a byte to the descriptor REFUSE_TOLD for each that it refuses. */

#include "preloaded.h"

static void *(*real_malloc)(unsigned long size);
static void *(*real_realloc)(void *block, unsigned long size);
static long from, to, requests;
static int told;

__attribute__((constructor)) static void begin(void)
{
    real_malloc = dlsym(NEXT, "malloc");
    real_realloc = dlsym(NEXT, "realloc");
    from = atol(getenv("REFUSE_FROM"));
    to = atol(getenv("REFUSE_TO"));
    told = (int)atol(getenv("REFUSE_TOLD"));
}

static int is_refused(void)
{
    long number = __atomic_add_fetch(&requests, 1, __ATOMIC_SEQ_CST);
    int refused = from <= number && number <= to;
    if (refused)
        write(told, "!", 1);
    return refused;
}

void *malloc(unsigned long size)
{
    if (!real_malloc)
        begin();
    return is_refused() ? 0 : real_malloc(size);
}

void *realloc(void *block, unsigned long size)
{
    if (!real_realloc)
        begin();
    return is_refused() ? 0 : real_realloc(block, size);
}
