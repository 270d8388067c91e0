/*
 * Devices on a line that a program drives while it runs: those of an image that are attached now, what has happened on
 * the line since the last reset, and what is recorded of it.
 */
#ifndef LIVE_H
#define LIVE_H

#include "../examples/line.h"
#include "bytes.h"

#include <stdbool.h>

/* What is told of each event, once the line has answered it. */
struct listener {
    void (*event)(void *self, uint8_t event, uint8_t answer);
    /* The devices on the line are others from here on; the image is the one that the next run starts with. */
    void (*bench)(void *self, const struct bytes *image);
    void *self;
};

struct live {
    struct bytes image; /* every device, attached or not */
    bool attached[TROUGHIRON_MOST_DEVICES];
    struct {
        bool attached, flat;
    } next[TROUGHIRON_MOST_DEVICES]; /* as the next reset finds them */
    bool changed; /* that is not as it is now */
    struct line line;
    struct listener listener;
    uint64_t resets, slots, pulses, lost; /* lost: what the library would not take */
};

/* Puts every device of an accepted image on the line. */
void live_open(struct live *l, const struct bytes *image, struct listener listener);

/* A reset: whether a device answers. A slot, at the speed of the line: its level. A pulse. */
bool live_reset(struct live *l);
bool live_overdrive_reset(struct live *l);
bool live_slot(struct live *l, bool one);
void live_pulse(struct live *l);

/*
 * What a tester does takes effect with the next reset at regular speed: a device that goes does not hear it, so that
 * its line state is lost and its memory kept as it was; one that comes is there for it.
 */
void live_attach(struct live *l, size_t index, bool attached);
void live_flat(struct live *l, size_t index, bool flat);

/* The image with every device as it is now. */
const struct bytes *live_image(struct live *l);

size_t live_count(const struct live *l); /* of devices that are attached */

void live_free(struct live *l);

#endif
