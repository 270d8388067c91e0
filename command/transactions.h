/* The devices as each transaction of a session leaves them, from one reset to the next. */
#ifndef TRANSACTIONS_H
#define TRANSACTIONS_H

#include "bytes.h"

#include <stdbool.h>

struct transactions {
    struct bytes before, after; /* the image at the start of the last transaction, and at its end */
    struct bytes answers;       /* room for those of one transaction */
    const uint8_t *events;
    size_t start; /* the event that the next transaction starts with */
};

/* The transactions of events that the library runs on an image. */
struct transactions transactions_of(const struct bytes *image, const struct bytes *events);

/*
 * Goes on by the transaction that ends at a place: after a reset, which is its last event, as it is this reset that
 * sets PF, and the first of the next one; or at the end of all events. Returns whether it changed a device.
 */
bool transactions_next(struct transactions *t, size_t end);

void transactions_free(struct transactions *t);

#endif
