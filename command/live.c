#include "live.h"

#include "event.h"
#include "image.h"

#include <string.h>

/* ------------------------------------------------------------------ */
/* The image of those that are attached                                */

static void add_attached(struct bytes *image, const struct live *l)
{
    struct device list[TROUGHIRON_MOST_DEVICES];
    size_t count = 0;

    for (size_t i = 0; i < image_count(&l->image); i++)
        if (l->attached[i])
            list[count++] = image_device(&l->image, i);
    image_of(image, list, count);
}

/* The bodies on the line are where the table of contents has them, in the order of the devices. */
static void take_bodies(struct live *l)
{
    size_t at = TABLE + ENTRY_SIZE * l->line.image[0];

    for (size_t i = 0; i < image_count(&l->image); i++)
        if (l->attached[i]) {
            const struct device device = image_device(&l->image, i);
            const size_t size = kind_body_size(device.kind);

            memcpy(l->image.data + (device.body - l->image.data), l->line.image + at, size);
            at += size;
        }
}

/* Part of an accepted image is one too, so the line takes it. */
static void open_line(struct live *l)
{
    struct bytes image = { 0 };

    add_attached(&image, l);
    (void)line_open(&l->line, image.data, image.length);
    l->changed = false;
    l->listener.bench(l->listener.self, &image);
    bytes_free(&image);
}

void live_open(struct live *l, const struct bytes *image, struct listener listener)
{
    *l = (struct live){ .listener = listener };
    bytes_add(&l->image, image->data, image->length);
    for (size_t i = 0; i < image_count(image); i++) {
        l->attached[i] = l->next[i].attached = true;
        l->next[i].flat = image_device(image, i).flat;
    }
    open_line(l);
}

/* ------------------------------------------------------------------ */
/* Devices that come and go                                            */

/* A device that goes does not hear the reset: its body is the one from before it. */
static void keep_those_that_go(struct live *l, const struct bytes *before)
{
    for (size_t i = 0; i < image_count(&l->image); i++)
        if (l->attached[i] && !l->next[i].attached) {
            const struct device device = image_device(&l->image, i);
            const size_t place = (size_t)(device.body - l->image.data);

            memcpy(l->image.data + place, before->data + place, kind_body_size(device.kind));
        }
}

/* Edition 2 says which devices are flat, and is needed only where one is. */
static void take_next(struct live *l)
{
    for (size_t i = 0; i < image_count(&l->image); i++) {
        l->attached[i] = l->next[i].attached;
        if (l->next[i].flat)
            l->image.data[1] = EDITION_WITH_FLAT;
        l->image.data[TABLE + ENTRY_SIZE * i + 1] = l->next[i].flat ? TROUGHIRON_FLAT : TROUGHIRON_GOOD;
    }
}

/* Those that stay hear the reset in the transaction that it ends, where it may set PF; then the bench is another. */
static void change_bench(struct live *l)
{
    struct bytes before = { 0 };

    take_bodies(l);
    bytes_add(&before, l->image.data, l->image.length);
    (void)line_reset(&l->line);
    take_bodies(l);
    keep_those_that_go(l, &before);
    bytes_free(&before);
    take_next(l);
    open_line(l);
}

void live_attach(struct live *l, size_t index, bool attached)
{
    l->next[index].attached = attached;
    l->changed = true;
}

void live_flat(struct live *l, size_t index, bool flat)
{
    l->next[index].flat = flat;
    l->changed = true;
}

/* ------------------------------------------------------------------ */
/* The line                                                            */

static void tell(struct live *l, uint8_t event, bool level)
{
    l->listener.event(l->listener.self, event, level);
}

bool live_reset(struct live *l)
{
    if (l->changed)
        change_bench(l);

    const bool presence = line_reset(&l->line) == 1;

    l->resets++;
    tell(l, TROUGHIRON_RESET, !presence);
    return presence;
}

/* One before the first reset at regular speed is none that the library runs, and nobody answers it. */
bool live_overdrive_reset(struct live *l)
{
    const int presence = line_overdrive_reset(&l->line);

    if (presence < 0) {
        l->lost++;
        return false;
    }
    l->resets++;
    tell(l, TROUGHIRON_OVERDRIVE_RESET, !presence);
    return presence;
}

/*
 * A slot before the first reset, and one past the longest trace, is none that the library runs. Nobody answers it: the
 * line is as the master leaves it.
 */
bool live_slot(struct live *l, bool one)
{
    const int level = line_bit(&l->line, one);

    if (level < 0) {
        l->lost++;
        return one;
    }
    l->slots++;
    tell(l, slot_of(one, l->line.overdrive), level);
    return level;
}

/* A pulse that some device on the line does not stand is not sent. */
void live_pulse(struct live *l)
{
    if (line_pulse(&l->line) < 0) {
        l->lost++;
        return;
    }
    l->pulses++;
    tell(l, TROUGHIRON_PULSE, true);
}

const struct bytes *live_image(struct live *l)
{
    take_bodies(l);
    return &l->image;
}

size_t live_count(const struct live *l)
{
    size_t count = 0;

    for (size_t i = 0; i < image_count(&l->image); i++)
        count += l->attached[i];
    return count;
}

void live_free(struct live *l)
{
    bytes_free(&l->image);
}
