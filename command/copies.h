/* What the accepted copies of a session did, found by runs of the library. */
#ifndef COPIES_H
#define COPIES_H

#include "bytes.h"

struct copy {
    size_t event;     /* the last of its pattern */
    size_t device;    /* its index in the image */
    unsigned address; /* of the first byte */
    uint64_t bytes;
};

struct copies {
    struct copy *list; /* in the order of the events */
    size_t count, room;
};

/* The copies of events that the library runs on an image, where the line answered so. */
struct copies copies_of(const struct bytes *image, const struct bytes *events, const uint8_t *answers);

void copies_free(struct copies *c);

#endif
