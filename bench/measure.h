/* Times of both programs on the same input. */
#ifndef MEASURE_H
#define MEASURE_H

#include "bench.h"
#include "trace.h"

#include <stddef.h>

enum program { LIBRARY, SECOND, PROGRAMS };

/* Seconds of processor time that one call took, the best of several. */
struct times {
    double of[PROGRAMS];
};

/*
 * Each ends the program with a message where an output of the two differs or
 * a call is refused.
 */
struct times measure_run(const struct bench *b, const struct trace *t);
struct times measure_search(const struct bench *b);

/* Of a session that was recorded as it is run, and is found careful. */
struct times measure_judge(const struct bench *b, const struct trace *t);

#endif
