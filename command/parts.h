/*
 * A session for one of its devices: the parts from one reset that it hears to the next. Where no event is at overdrive
 * these are the transactions of the session, and the same for every device.
 */
#ifndef PARTS_H
#define PARTS_H

#include "alone.h"

/* A session as the line carried it. */
struct carried {
    const struct bytes *image; /* of the devices, before the first event */
    const struct bytes *events;
    const uint8_t *levels; /* that the line answered */
};

/* The first event of a part is a reset; the end is the next one, or that of all events. */
struct part {
    size_t first, end;
};

struct parts {
    struct part *list;
    size_t count, room;
};

/* The most events that alone_put_part adds before those of a part. */
enum { PART_START = 9 };

struct parts parts_of(const struct carried *c, size_t device);

/* Whether the device, which heard a reset at the event first and is followed from there, is at overdrive at a place. */
bool is_at_overdrive(const struct carried *c, size_t device, size_t first, size_t place);

/* The part that an event is in. */
struct part part_at(const struct parts *p, size_t event);

/* The end of the events of one speed in a part, of which the first is given. */
size_t same_speed_end(const struct carried *c, const struct part *part, size_t first);

/* The byte that the last eight slots before a place spell: those at the speed of its last event, as a device hears. */
uint8_t byte_before(const struct carried *c, size_t place);

/* Puts the device of a part on the line alone, as it is in an image, with the part's events up to a place. */
void alone_put_part(struct alone *a, const struct bytes *image, size_t index, const struct carried *c, size_t first,
                    size_t end);

void parts_free(struct parts *p);

#endif
