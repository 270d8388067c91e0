/*
 * What a careful master sends to change a device's memory: the bytes written
 * to the scratchpad, read back, and copied.
 */
#ifndef CAREFUL_H
#define CAREFUL_H

#include "bench.h"
#include "trace.h"

#include <stddef.h>
#include <stdint.h>

/* A write of so many data bits, which a number selects, to a target. */
struct update {
    size_t device;
    uint16_t target;
    size_t bits;
    uint64_t data;
};

/*
 * How a device is come to: alone, or with all the others; at regular speed, or
 * by a command that brings it to overdrive, or at overdrive after a short
 * reset.
 */
enum addressing {
    BY_MATCH,
    BY_SEARCH,
    BY_SKIP,
    BY_OVERDRIVE_MATCH,
    BY_OVERDRIVE_SKIP,
    BY_SHORT_MATCH,
    BY_SHORT_SKIP
};

int is_fast(enum addressing way);

/* The same speed, but with all the others. */
enum addressing with_all(enum addressing way);

void careful_address(struct trace *t, const struct bench *b, size_t device,
                     enum addressing way);

/* The address of a write and its data, at regular speed. */
void update_send(struct trace *t, const struct update *u);

/* Each is a transaction from its reset on, to the end of what it names. */
void careful_write(struct trace *t, const struct bench *b,
                   const struct update *u, enum addressing way);
void careful_read(struct trace *t, const struct bench *b, size_t device,
                  enum addressing way, size_t slots);
void careful_move(struct trace *t, const struct bench *b, size_t device,
                  enum addressing way, uint16_t target);

/* A copy, and a few slots after it.  Gives the event of the last pattern bit. */
size_t careful_copy(struct trace *t, const struct bench *b, size_t device,
                    enum addressing way, const uint8_t *pattern);

/* TA1, TA2 and E/S as the write and a reset after it leave them. */
void update_registers(const struct update *u, uint8_t *registers);

/* The bytes that the device sends from T4:T0 through the ending offset. */
size_t shown_bytes(const uint8_t *registers);

/* Slots that show the registers and these bytes. */
size_t slots_to_show(const uint8_t *registers);

/* Makes registers and scratchpad what they are after the write and a reset. */
void update_preset(struct bench *b, const struct update *u);

#endif
