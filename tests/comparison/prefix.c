#define _POSIX_C_SOURCE 200809L /* for clock_gettime */

#include "prefix.h"

#include <time.h>

static double seconds(void)
{
    struct timespec now;

    clock_gettime(CLOCK_MONOTONIC, &now);
    return (double)now.tv_sec + (double)now.tv_nsec * 1e-9;
}

/* A prefix that differs, where one element less is alike, by halving. */
static size_t by_halving(int (*differs)(void *, size_t), void *state,
                         size_t length)
{
    size_t alike = 0;

    if (differs(state, 0))
        return 0;
    while (length - alike > 1) {
        const size_t middle = alike + (length - alike) / 2;

        if (differs(state, middle))
            length = middle;
        else
            alike = middle;
    }
    return length;
}

struct prefix prefix_that_differs(int (*differs)(void *, size_t), void *state,
                                  size_t length)
{
    const size_t found = by_halving(differs, state, length);
    const double until = seconds() + 2;
    size_t shorter = 0;

    while (shorter < found && seconds() < until && !differs(state, shorter))
        shorter++;
    if (shorter < found && differs(state, shorter))
        return (struct prefix){ shorter, 1 };
    return (struct prefix){ found, shorter == found };
}
