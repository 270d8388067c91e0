#include "readback.h"

#include "event.h"

#include <string.h>

/*
 * The parts of the session before the copy are each run with the device alone, with registers that tell what it does:
 * whether it has taken the address of a write scratchpad, and where it begins to send the registers.
 */
struct search {
    const struct carried *carried;
    size_t device;
    struct parts parts;
    size_t last; /* the part with the copy */
    struct alone alone;
};

enum { READ_SCRATCHPAD = 0xAA, ADDRESS_BITS = 16 };

size_t transaction_start(const struct carried *c, size_t event)
{
    while (event > 0 && !is_regular_reset(c->events->data[event]))
        event--;
    return event;
}

/* The device alone, with the events of a part up to a place. */
static void put(struct search *s, size_t first, size_t end)
{
    alone_put_part(&s->alone, s->carried->image, s->device, s->carried, first, end);
}

/* Adds slots at the speed of the last event before a place. */
static void add_slots(struct search *s, size_t place, bool one, size_t count)
{
    alone_add(&s->alone, slot_of(one, is_overdrive(s->carried->events->data[place - 1])), count);
}

/* ------------------------------------------------------------------ */
/* The last write                                                      */

/*
 * Whether a write scratchpad has its whole address in a part, with some more slots after it: that clears AA, and
 * nothing else in a part does.
 */
static bool writes(struct search *s, size_t first, size_t end, size_t more)
{
    uint64_t copied;

    put(s, first, end);
    add_slots(s, end, false, more);
    s->alone.image.data[ALONE + ES] = TROUGHIRON_ES_AA;
    return alone_run(&s->alone, &copied) && !(s->alone.image.data[ALONE + ES] & TROUGHIRON_ES_AA);
}

/* The event of a part that completes the address of its write scratchpad. */
static size_t address_event(struct search *s, size_t first, size_t end)
{
    size_t without = first;

    while (end - without > 1) {
        const size_t middle = without + (end - without) / 2;

        if (writes(s, first, middle, 0))
            end = middle;
        else
            without = middle;
    }
    return end - 1;
}

/* The last write before the part with the copy. */
static void find_write(struct search *s, struct readback *r)
{
    for (size_t i = s->last; i > 0 && !r->written; i--) {
        const struct part part = s->parts.list[i - 1];

        r->written = writes(s, part.first, part.end, 0);
        if (r->written)
            r->write = address_event(s, part.first, part.end);
    }
}

/*
 * Whether a write scratchpad of a part is cut, and the last event of it that the device heard: slots at the speed of
 * that event would complete its address.
 */
static bool is_cut(struct search *s, const struct part *part, size_t *last)
{
    bool cut = false;

    for (size_t from = part->first, end; from < part->end; from = end) {
        end = same_speed_end(s->carried, part, from);
        if (writes(s, part->first, end, ADDRESS_BITS)) {
            cut = true;
            *last = end - 1;
        }
    }
    return cut;
}

/* The last write that is cut, where no other comes before the copy. */
static void find_cut(struct search *s, struct readback *r)
{
    for (size_t i = s->last; i > 0 && !r->cut; i--)
        r->cut = is_cut(s, &s->parts.list[i - 1], &r->cut_at);
}

/* ------------------------------------------------------------------ */
/* Reads after it                                                      */

/* Whether the device, given some registers, sends them in the slots after a place. */
static bool sends(struct search *s, size_t first, size_t place, uint8_t mask)
{
    const uint8_t registers[REGISTERS] = { 0xA5 ^ mask, 0x5A ^ mask, 0x3C ^ mask };
    uint8_t sent[REGISTERS];
    uint64_t copied;

    put(s, first, place);
    add_slots(s, place, true, 8 * REGISTERS);
    memcpy(s->alone.image.data + ALONE + TA1, registers, REGISTERS);
    if (!alone_run(&s->alone, &copied))
        return false;
    for (size_t i = 0; i < REGISTERS; i++)
        sent[i] = byte_of_levels(s->alone.answers.data + s->alone.answers.length - 8 * (REGISTERS - i));
    return memcmp(sent, registers, REGISTERS) == 0;
}

/* The place after the command of a read scratchpad in a part, where registers are sent whatever they are. */
static bool find_read(struct search *s, size_t first, size_t end, size_t *from)
{
    for (*from = first + 9; *from <= end; ++*from)
        if (byte_before(s->carried, *from) == READ_SCRATCHPAD && sends(s, first, *from, 0x00) &&
            sends(s, first, *from, 0xFF))
            return true;
    return false;
}

/* How many bytes that are needed stand in their places. */
static size_t right(const struct readback *r, const uint8_t *shown, size_t count)
{
    size_t number = 0;

    for (size_t i = 0; i < count; i++)
        number += shown[i] == r->needed[i];
    return number;
}

/*
 * The whole bytes that the line had in it from a place on, in slots that the device hears. At regular speed it passes
 * over what is at overdrive; at overdrive a slot at regular speed ends its read.
 */
static size_t show(const struct search *s, size_t from, size_t end, uint8_t *shown, size_t most)
{
    const uint8_t *const events = s->carried->events->data;
    const bool overdrive = is_overdrive(events[from - 1]);
    uint8_t levels[8];
    size_t bits = 0;

    for (size_t i = from; i < end && bits < 8 * most; i++) {
        if (is_overdrive(events[i]) == overdrive) {
            levels[bits++ % 8] = s->carried->levels[i];
            if (bits % 8 == 0)
                shown[bits / 8 - 1] = byte_of_levels(levels);
        } else if (overdrive)
            break;
    }
    return bits / 8;
}

/* Takes the read of a part where it shows more of what is needed than those after it. */
static void look_at_read(struct search *s, struct readback *r, size_t first, size_t end)
{
    uint8_t shown[MOST_SHOWN];
    size_t from;

    if (!find_read(s, first, end, &from))
        return;

    const size_t count = show(s, from, end, shown, r->needed_count);

    if (r->read && right(r, shown, count) <= right(r, r->shown, r->shown_count))
        return;
    r->read = true;
    r->command = from - 1;
    r->shown_count = count;
    memcpy(r->shown, shown, count);
}

static void find_reads(struct search *s, struct readback *r)
{
    for (size_t i = s->last; i > 0 && s->parts.list[i - 1].end > r->write; i--)
        look_at_read(s, r, s->parts.list[i - 1].first, s->parts.list[i - 1].end);
}

/* ------------------------------------------------------------------ */
/* Both                                                                */

/* The registers and the bytes from T4:T0 through the ending offset, after the events up to a place. */
static void put_needed(struct readback *r, const struct carried *c, size_t device, size_t end)
{
    struct bytes image = { 0 }, answers = { 0 };
    uint64_t copied;

    bytes_add(&image, c->image->data, c->image->length);
    bytes_repeat(&answers, 0, end);
    (void)troughiron_run(image.data, image.length, c->events->data, end, answers.data, end, &copied);

    const uint8_t *const body = image_device(&image, device).body;

    memcpy(r->needed, body + TA1, REGISTERS);
    r->needed_count = REGISTERS;
    for (size_t i = body[TA1] % PAGE_SIZE; i <= (body[ES] & TROUGHIRON_ES_ENDING); i++)
        r->needed[r->needed_count++] = body[SCRATCHPAD + i];
    bytes_free(&image);
    bytes_free(&answers);
}

struct readback readback_of(const struct carried *c, size_t device, size_t event)
{
    struct search s = { .carried = c, .device = device, .parts = parts_of(c, device) };
    struct readback r = { 0 };

    put_needed(&r, c, device, event);
    while (s.last + 1 < s.parts.count && s.parts.list[s.last + 1].first <= event)
        s.last++;
    find_write(&s, &r);
    if (r.written)
        find_reads(&s, &r);
    else
        find_cut(&s, &r);
    alone_free(&s.alone);
    parts_free(&s.parts);
    return r;
}

size_t readback_missing(const struct readback *r)
{
    size_t i = 0;

    while (i < r->shown_count && r->shown[i] == r->needed[i])
        i++;
    return i;
}
