/* Refuses one request for memory of a program that it is loaded before (LD_PRELOAD): the one whose
 * number, counted from 1, is in REFUSE. At the end it appends how many requests there were to the
 * file that REQUESTS names. */
#define _GNU_SOURCE
#include <dlfcn.h>
#include <fcntl.h>
#include <stdbool.h>
#include <stdio.h>
#include <stdlib.h>
#include <unistd.h>

static unsigned long requests;

static bool is_refused(void)
{
    static unsigned long refused;
    if (requests == 0) {
        const char *number = getenv("REFUSE");
        refused = number ? strtoul(number, NULL, 10) : 0;
    }
    return ++requests == refused;
}

void *malloc(size_t size)
{
    static void *(*next)(size_t);
    if (!next)
        next = (void *(*)(size_t))dlsym(RTLD_NEXT, "malloc");
    return is_refused() ? NULL : next(size);
}

void *realloc(void *old, size_t size)
{
    static void *(*next)(void *, size_t);
    if (!next)
        next = (void *(*)(void *, size_t))dlsym(RTLD_NEXT, "realloc");
    return is_refused() ? NULL : next(old, size);
}

__attribute__((destructor)) static void tell(void)
{
    const char *name = getenv("REQUESTS");
    char line[32];
    int file = name ? open(name, O_WRONLY | O_CREAT | O_TRUNC, 0600) : -1;
    if (file < 0)
        return;
    int len = snprintf(line, sizeof line, "%lu\n", requests);
    if (write(file, line, len) != len)
        _exit(1);
    close(file);
}
