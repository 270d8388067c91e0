/*
 * A line on standard error about long work, where that is a terminal. Work that is done within half a second has none.
 */
#ifndef PROGRESS_H
#define PROGRESS_H

#include <stdbool.h>
#include <stddef.h>
#include <time.h>

struct progress {
    const char *what;
    size_t total;
    long shown; /* the half second for which the last line was written */
    struct timespec start;
    bool terminal, written;
};

struct progress progress_start(const char *what, size_t total);
void progress_at(struct progress *p, size_t done);
void progress_end(struct progress *p);

#endif
