/*
 * Serial adapters between a program and the line: what a program's bytes do on the line, and what is sent back for
 * them. None of them has a rule of a device in it.
 */
#ifndef ADAPTER_H
#define ADAPTER_H

#include "live.h"

/* Of the DS2480B: what it is in the middle of. */
struct ds2480b {
    bool awake;    /* the first byte, which tells it the speed of the serial line, has come */
    bool data;     /* in data mode; else in command mode */
    bool escaped;  /* in data mode the last byte was the one that leads back to command mode */
    bool searches; /* the search accelerator is on */
    size_t taken;  /* bytes of a search that have come */
    uint8_t search[16];
    uint8_t parameters[8];
};

struct adapter {
    const char *name;
    /* A program has opened the serial line. */
    void (*open)(struct adapter *a);
    /* A byte that came at a speed of the serial line, in baud; what is sent back is added to the reply. */
    void (*take)(struct adapter *a, struct live *l, unsigned baud, uint8_t byte, struct bytes *reply);
    struct ds2480b ds2480b;
};

/* The adapter of a name, or false. */
bool adapter_named(struct adapter *a, const char *name);

void ds9097_take(struct adapter *a, struct live *l, unsigned baud, uint8_t byte, struct bytes *reply);
void ds2480b_open(struct adapter *a);
void ds2480b_take(struct adapter *a, struct live *l, unsigned baud, uint8_t byte, struct bytes *reply);

#endif
