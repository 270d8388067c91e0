/* Cases of the search, where they come from, and what is claimed of each. */
#ifndef SEARCH_H
#define SEARCH_H

#include "bench.h"
#include "subject.h"

#include <stddef.h>
#include <stdint.h>

enum {
    PASS_EVENTS = 201, /* a reset and 200 slots */
    MOST_CODE_BYTES = MOST_DEVICES * CODE_BYTES,
    MOST_SEARCH_EVENTS = MOST_DEVICES * PASS_EVENTS,
    SPARE_ROOM = 64
};

/* What a search is given.  The image is the bytes and length of the bench. */
struct search_case {
    struct bench bench;
    size_t codes, trace; /* bytes of room */
    unsigned expected;   /* the number to be returned, or ANY_NUMBER */
    int null;            /* whether an empty buffer is a null pointer */
};

/* What a search gave. */
struct search_found {
    const uint8_t *codes, *trace;
    uint64_t passes, resets, slots;
};

/* The room that the search of so many devices needs. */
size_t search_code_room(size_t devices);
size_t search_trace_room(size_t devices);

/*
 * What does not hold of a search that was answered: NULL, or a claim about the
 * whole of it.
 */
const char *search_claim_broken(const struct bench *b,
                                const struct search_found *found);

/* The small cases; NULL and 0 past the last, as in struct subject. */
const char *search_small_group(size_t group);
int search_small_case(struct search_case *c, size_t group, size_t number);

void search_generated_case(struct search_case *c, uint64_t seed,
                           uint64_t number);

#endif
