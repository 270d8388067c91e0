/* Cases of the master fed with recorded levels, and where they come from. */
#ifndef FEED_H
#define FEED_H

#include "search.h"

#include <stddef.h>
#include <stdint.h>

enum { FEED_ROOM = MOST_SEARCH_EVENTS + 300 };

/* What a drive is given. */
struct feed_case {
    size_t length;
    uint8_t levels[FEED_ROOM];
    size_t trace, codes; /* bytes of room */
    unsigned expected;   /* the number to be returned, or ANY_NUMBER */
    int null;            /* whether an empty buffer is a null pointer */
};

/* The room that so many levels can need. */
size_t feed_trace_room(size_t levels);
size_t feed_code_room(size_t levels);

/* The small cases; NULL and 0 past the last, as in struct subject. */
const char *feed_small_group(size_t group);
int feed_small_case(struct feed_case *c, size_t group, size_t number);

void feed_generated_case(struct feed_case *c, uint64_t seed, uint64_t number);

#endif
