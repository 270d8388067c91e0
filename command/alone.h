/*
 * A device alone on the line, for which the library is asked what it does among the others. Where the events are the
 * levels that the line had, it receives what it received there, as a device that listens takes the level.
 */
#ifndef ALONE_H
#define ALONE_H

#include "image.h"

/* Where its body is in the image of it alone. */
enum { ALONE = TABLE + ENTRY_SIZE };

struct alone {
    struct bytes image;   /* of the device alone */
    struct bytes trace;   /* that is run on it */
    struct bytes answers; /* that it gives */
};

/* Puts the device on the line as it is in an image, and no event. */
void alone_put(struct alone *a, const struct bytes *image, size_t index);

/* Adds events as it received them, of which the first is a reset, where the line answered so. */
void alone_receive(struct alone *a, const uint8_t *events, const uint8_t *levels, size_t count);

/* Adds one event so many times. */
void alone_add(struct alone *a, uint8_t event, size_t count);

/* Runs the trace; copied is what the library tells of it. Returns false where the library refuses it. */
bool alone_run(struct alone *a, uint64_t *copied);

void alone_free(struct alone *a);

#endif
