/*
 * What a device showed of its scratchpad before it accepted a copy, found by runs of the library. That something is
 * missing is the library's word; here it is only looked for, to be named.
 */
#ifndef READBACK_H
#define READBACK_H

#include "parts.h"

/* TA1, TA2 and E/S, and then bytes of the scratchpad. */
enum { REGISTERS = 3, MOST_SHOWN = REGISTERS + PAGE_SIZE };

struct readback {
    uint8_t needed[MOST_SHOWN]; /* as they stand just before the copy is accepted */
    size_t needed_count;
    bool written; /* by a write scratchpad; its 16th address bit is the event write */
    size_t write;
    bool cut; /* not written, but there are writes that end before that bit, the last of them with the event cut_at */
    size_t cut_at;
    bool read; /* by a read scratchpad after it; the command of the nearest is complete with the event command */
    size_t command;
    uint8_t shown[MOST_SHOWN]; /* whole bytes that the line had in it */
    size_t shown_count;
};

/* Of a device, before the copy that it accepts with an event. */
struct readback readback_of(const struct carried *c, size_t device, size_t event);

/* The first byte that is needed and that the nearest read did not show, or the number of those needed. */
size_t readback_missing(const struct readback *r);

/* The reset at regular speed that the transaction of an event begins with. */
size_t transaction_start(const struct carried *c, size_t event);

#endif
