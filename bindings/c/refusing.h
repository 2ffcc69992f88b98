/* Requests for memory that are refused, by refusing.c. */
#ifndef REFUSING_H
#define REFUSING_H

#include <stdbool.h>

/* Grants so many requests and then refuses one, or all; with -1 it grants all. How many it refused since it was
 * called last. */
unsigned long refuse_requests(long granted, bool one_alone);

#endif
