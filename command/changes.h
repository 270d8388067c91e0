/* What differs in the devices between two images of the same bench. */
#ifndef CHANGES_H
#define CHANGES_H

#include "bytes.h"
#include "image.h"

/* A register, or bytes of a field that differ one after another. */
struct change {
    const struct device *device; /* as it was */
    const char *field;
    int digits; /* of the address; 0 for a register, which has none */
    size_t address;
    const uint8_t *before, *after; /* of TA its low byte first */
    size_t count;
};

/* Calls a function for each change, of at most so many bytes, in the order of the devices and their fields. */
void changes_each(const struct bytes *before, const struct bytes *after, size_t most,
                  void (*found)(void *context, const struct change *change), void *context);

bool image_differs(const struct bytes *before, const struct bytes *after);

#endif
