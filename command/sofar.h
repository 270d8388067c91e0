/* What the line answered and what the devices hold after the events so far of a session that is being read. */
#ifndef SOFAR_H
#define SOFAR_H

#include "bytes.h"

#include <stdbool.h>

struct sofar {
    struct bytes image;   /* the devices after the last event */
    struct bytes answers; /* to every event */
    struct bytes base;    /* the devices after the reset that the rest begins with */
    size_t start;         /* that reset, or 0 */
    size_t done;          /* events */
    bool refused;         /* the library does not run them, and will say so of the whole session */
};

/* Starts with the devices of an image. */
void sofar_start(struct sofar *f, const struct bytes *image);

/* Goes on to the end of the events, which begin with those of the last call. Returns whether the library runs them. */
bool sofar_reach(struct sofar *f, const struct bytes *events);

void sofar_free(struct sofar *f);

#endif
