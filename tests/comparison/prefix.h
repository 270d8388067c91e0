/* Cutting a sequence that differs to a prefix that still does. */
#ifndef PREFIX_H
#define PREFIX_H

#include <stddef.h>

struct prefix {
    size_t length;
    int shortest; /* whether all shorter ones are alike */
};

/*
 * The whole sequence differs.  A difference can come and go with the length,
 * so all shorter prefixes are tried, for a few seconds at most.
 */
struct prefix prefix_that_differs(int (*differs)(void *state, size_t length),
                                  void *state, size_t length);

#endif
