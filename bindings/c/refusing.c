/* Stands before C's memory in a program or a shared library, and refuses requests: those of new blocks, larger and
 * smaller ones. Linked in with -Wl,--wrap=malloc,--wrap=realloc. */
#include "refusing.h"
#include <stddef.h>

void *__real_malloc(size_t size);
void *__real_realloc(void *block, size_t size);
void *__wrap_malloc(size_t size);
void *__wrap_realloc(void *block, size_t size);

/* How many requests are left to grant, below 0 where all are; whether one alone is refused; how many were. */
static long left = -1;
static bool is_one;
static unsigned long refused;

unsigned long refuse_requests(long granted, bool one_alone)
{
    const unsigned long before = refused;
    left = granted;
    is_one = one_alone;
    refused = 0;
    return before;
}

static bool is_refused(void)
{
    if (left < 0)
        return false;
    if (left > 0) {
        left--;
        return false;
    }
    if (is_one)
        left = -1;
    refused++;
    return true;
}

void *__wrap_malloc(size_t size)
{
    return is_refused() ? NULL : __real_malloc(size);
}

void *__wrap_realloc(void *block, size_t size)
{
    return is_refused() ? NULL : __real_realloc(block, size);
}
