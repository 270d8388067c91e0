/* Cases of the run of a trace, and where they come from. */
#ifndef RUN_H
#define RUN_H

#include "bench.h"
#include "digit.h"
#include "subject.h"
#include "trace.h"

#include <stddef.h>
#include <stdint.h>

/* The refusals of a run, in the order in which they are looked for. */
enum { RUN_REFUSALS = 8, LAST_NUMBER = 11 };
extern const unsigned run_refusals[RUN_REFUSALS];

/* What a run is given.  The image is the bytes and the length of the bench. */
struct run_case {
    struct bench bench;
    struct trace trace;
    size_t answers;    /* bytes of room for them */
    unsigned expected; /* the number to be returned, or ANY_NUMBER */
    int null;          /* whether an empty buffer is a null pointer */
};

/*
 * Benches of the small cases, whose registers a copy can act on.  One device
 * is of edition 1, of edition 2 and good, or of edition 2 and flat if it can.
 */
enum { BATTERIES_OF_ONE = 3 };
void bench_of(struct run_case *c, const enum kind *kinds, size_t count);
void bench_of_one_with(struct run_case *c, enum kind kind, size_t batteries);

/* The small cases; NULL and 0 past the last, as in struct subject. */
const char *run_small_group(size_t group);
int run_small_case(struct run_case *c, size_t group, size_t number);

/*
 * A case of a group that a function makes.  What that does not say: the call
 * is answered, there is room for the answers and at times a little more, empty
 * buffers are null in every other case.
 */
int run_case_of(struct run_case *c, int (*make)(struct run_case *, size_t),
                size_t number);

void run_generated_case(struct run_case *c, uint64_t seed, uint64_t number);

#endif
