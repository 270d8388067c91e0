#include "copies.h"

#include "event.h"
#include "parts.h"
#include "troughiron.h"

#include <stdlib.h>
#include <string.h>

/*
 * The library tells the sum of a run. What one device copied is the sum of a run with that device alone. That it
 * accepted a copy is seen as a master sees it: it answers zeros until a reset, longer than it has bits to read. So that
 * these are few, its memory is filled with ones: what a device receives does not depend on it.
 */
enum {
    READS = 8 * (3 + PAGE_SIZE + 1), /* one byte more than the registers and the scratchpad */
    MOST_LOOKED_AT = TROUGHIRON_MOST_EVENTS - PART_START - READS /* of a part, so that the reads have room after them */
};

struct search {
    const struct carried *carried;
    struct copies *found;
    struct bytes image; /* of the device alone, at the reset that the part begins with */
    size_t device;
    struct part part;
};

static void fill_memory(struct bytes *alone)
{
    const struct device device = image_device(alone, 0);

    memset(alone->data + ALONE + device.kind->memory, 0xFF, device.kind->memory_size);
}

/* Whether the device has accepted a copy by an event of its part, and what that did. */
static bool accepts(const struct search *s, size_t end, struct copy *copy)
{
    const bool overdrive = is_overdrive(s->carried->events->data[end - 1]);
    struct alone alone = { 0 };
    bool zeros = false;

    alone_put_part(&alone, &s->image, 0, s->carried, s->part.first, end);
    fill_memory(&alone.image);
    alone_add(&alone, slot_of(true, overdrive), READS);
    if (alone.trace.length <= TROUGHIRON_MOST_EVENTS && alone_run(&alone, &copy->bytes))
        zeros = !memchr(alone.answers.data + alone.answers.length - READS, 1, READS);
    copy->device = s->device;
    copy->event = end - 1;
    copy->address = alone.image.data[ALONE + TA1] + 256u * alone.image.data[ALONE + TA2];
    alone_free(&alone);
    return zeros;
}

static void add(struct copies *c, struct copy copy)
{
    if (c->count == c->room) {
        c->room = 2 * c->room + 8;
        c->list = grown(c->list, c->room, sizeof *c->list);
    }
    c->list[c->count++] = copy;
}

/* The first of some events with which the device accepts a copy, where it has accepted none before them. */
static bool find_copy(const struct search *s, size_t without, size_t with)
{
    struct copy copy, probe;

    if (!accepts(s, with, &copy))
        return false;
    while (with - without > 1) {
        const size_t middle = without + (with - without) / 2;

        if (accepts(s, middle, &probe)) {
            with = middle;
            copy = probe;
        } else
            without = middle;
    }
    add(s->found, copy);
    return true;
}

/*
 * A device copies once between two resets, and long before a trace is full, unless it does not hear nearly all of it.
 * What it answers then it answers at its own speed alone.
 */
static void part_copies(const struct search *s)
{
    struct part part = s->part;

    if (part.end - part.first > MOST_LOOKED_AT)
        part.end = part.first + MOST_LOOKED_AT;
    for (size_t from = part.first, end; from < part.end; from = end) {
        end = same_speed_end(s->carried, &part, from);
        if (find_copy(s, from, end))
            return;
    }
}

/* Goes on to the next part: the reset that ends this one may set PF. */
static void next_part(struct search *s)
{
    const size_t events = s->carried->events->length, end = s->part.end < events ? s->part.end + 1 : events;
    struct alone alone = { 0 };
    uint64_t copied;

    alone_put_part(&alone, &s->image, 0, s->carried, s->part.first, end);
    if (alone.trace.length <= TROUGHIRON_MOST_EVENTS && alone_run(&alone, &copied))
        memcpy(s->image.data, alone.image.data, s->image.length);
    alone_free(&alone);
}

static void device_copies(struct search *s)
{
    struct parts parts = parts_of(s->carried, s->device);
    struct alone alone = { 0 };

    alone_put(&alone, s->carried->image, s->device);
    s->image = alone.image;
    for (size_t i = 0; i < parts.count; i++) {
        s->part = parts.list[i];
        part_copies(s);
        next_part(s);
    }
    alone_free(&alone);
    parts_free(&parts);
}

static int by_event(const void *a, const void *b)
{
    const struct copy *const one = a, *const other = b;

    if (one->event != other->event)
        return one->event < other->event ? -1 : 1;
    return one->device < other->device ? -1 : 1;
}

struct copies copies_of(const struct bytes *image, const struct bytes *events, const uint8_t *answers)
{
    const struct carried carried = { image, events, answers };
    struct copies found = { 0 };

    for (size_t i = 0; i < image_count(image); i++) {
        struct search s = { .carried = &carried, .found = &found, .device = i };

        if (!image_device(image, i).kind->add_only)
            device_copies(&s);
    }
    if (found.count > 1)
        qsort(found.list, found.count, sizeof *found.list, by_event);
    return found;
}

void copies_free(struct copies *c)
{
    free(c->list);
    *c = (struct copies){ 0 };
}
