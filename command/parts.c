#include "parts.h"

#include "event.h"

#include <stdlib.h>

/*
 * A run starts with a reset at regular speed. A device that hears one at overdrive is brought to overdrive before it: a
 * reset leads it to the ROM command from any stage, so that nothing else of what came before is needed.
 */
void alone_put_part(struct alone *a, const struct bytes *image, size_t index, const struct carried *c, size_t first,
                    size_t end)
{
    enum { OVERDRIVE_SKIP = 0x3C };

    alone_put(a, image, index);
    if (is_overdrive(c->events->data[first])) {
        alone_add(a, TROUGHIRON_RESET, 1);
        for (unsigned bit = 0; bit < 8; bit++)
            alone_add(a, slot_of(OVERDRIVE_SKIP >> bit & 1, false), 1);
    }
    alone_receive(a, c->events->data + first, c->levels + first, end - first);
}

/* Then it hears a reset at overdrive, and answers it. A trace that is full has no room for one, and is not asked. */
bool is_at_overdrive(const struct carried *c, size_t device, size_t first, size_t place)
{
    struct alone alone = { 0 };
    uint64_t copied;

    alone_put_part(&alone, c->image, device, c, first, place);
    alone_add(&alone, TROUGHIRON_OVERDRIVE_RESET, 1);

    const bool heard = alone_run(&alone, &copied) && alone.answers.data[alone.answers.length - 1] == 0;

    alone_free(&alone);
    return heard;
}

static void add(struct parts *p, size_t first)
{
    if (p->count == p->room) {
        p->room = 2 * p->room + 16;
        p->list = grown(p->list, p->room, sizeof *p->list);
    }
    p->list[p->count++].first = first;
}

/* The library ran the session, so that its first event is a reset at regular speed. */
struct parts parts_of(const struct carried *c, size_t device)
{
    const bool fast = image_device(c->image, device).kind->overdrive;
    struct parts p = { 0 };

    for (size_t i = 0; i < c->events->length; i++) {
        const uint8_t event = c->events->data[i];

        if (is_regular_reset(event))
            add(&p, i);
        else if (fast && is_reset(event) && is_at_overdrive(c, device, p.list[p.count - 1].first, i))
            add(&p, i);
    }
    for (size_t i = 0; i < p.count; i++)
        p.list[i].end = i + 1 < p.count ? p.list[i + 1].first : c->events->length;
    return p;
}

struct part part_at(const struct parts *p, size_t event)
{
    size_t i = 0;

    while (i + 1 < p->count && p->list[i + 1].first <= event)
        i++;
    return p->list[i];
}

size_t same_speed_end(const struct carried *c, const struct part *part, size_t first)
{
    const uint8_t *const events = c->events->data;
    size_t end = first + 1;

    while (end < part->end && is_overdrive(events[end]) == is_overdrive(events[first]))
        end++;
    return end;
}

uint8_t byte_before(const struct carried *c, size_t place)
{
    const bool overdrive = is_overdrive(c->events->data[place - 1]);
    uint8_t levels[8] = { 0 };
    size_t left = 8;

    for (size_t i = place; i > 0 && left > 0; i--)
        if (is_slot(c->events->data[i - 1]) && is_overdrive(c->events->data[i - 1]) == overdrive)
            levels[--left] = c->levels[i - 1];
    return byte_of_levels(levels);
}

void parts_free(struct parts *p)
{
    free(p->list);
    *p = (struct parts){ 0 };
}
