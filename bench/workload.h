/* What the benchmark runs: benches of devices, and sessions on them. */
#ifndef WORKLOAD_H
#define WORKLOAD_H

#include "bench.h"
#include "trace.h"

#include <stddef.h>

/* Devices that fit an image: many that are small, few DS1996. */
enum { SIZES = 3 };
extern const size_t many_devices[SIZES], few_devices[SIZES];

/* What is done with a bench: a session on it is run or judged, or a search. */
enum task { RUN, JUDGE, SEARCH };

struct workload {
    const char *name;
    enum task task;
    const size_t *devices; /* how many, ending at 0 or after SIZES */
    void (*kinds)(enum kind *kinds, size_t count);
    void (*session)(struct trace *t, const struct bench *b); /* or NULL */
};

/* All of them; the last has no name. */
extern const struct workload workloads[];

/* Makes the bench of so many devices, and a trace of so many events on it. */
void workload_make(const struct workload *w, size_t devices, size_t events,
                   struct bench *b, struct trace *t);

#endif
