#include "progress.h"

#include <stdio.h>
#include <unistd.h>

struct progress progress_start(const char *what, size_t total)
{
    struct progress p = { .what = what, .total = total, .terminal = isatty(STDERR_FILENO) };

    clock_gettime(CLOCK_MONOTONIC, &p.start);
    return p;
}

static long milliseconds_since(const struct timespec *start)
{
    struct timespec now;

    clock_gettime(CLOCK_MONOTONIC, &now);
    return (long)(now.tv_sec - start->tv_sec) * 1000 + (now.tv_nsec - start->tv_nsec) / 1000000;
}

/* The line is written over itself, at most twice a second. */
void progress_at(struct progress *p, size_t done)
{
    if (!p->terminal)
        return;

    const long half_seconds = milliseconds_since(&p->start) / 500;

    if (half_seconds <= p->shown)
        return;
    p->shown = half_seconds;
    p->written = true;
    fprintf(stderr, "\r%s: %zu of %zu\033[K", p->what, done, p->total);
    fflush(stderr);
}

void progress_end(struct progress *p)
{
    if (p->written)
        fputs("\r\033[K", stderr);
}
