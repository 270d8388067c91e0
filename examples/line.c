/* line.c: the library runs whole traces, so each call runs that since the regular reset again. */
#include "line.h"

#include <string.h>

/* One event less than a trace can have, so that the reset that ends it has its place. */
enum { MOST = TROUGHIRON_MOST_EVENTS - 1 };

/* Runs so many events on the image at the regular reset. Returns the level after the last. */
static int run(struct line *l, size_t count)
{
    uint8_t image[LINE_IMAGE];
    uint64_t copied;

    memcpy(image, l->start, l->length);

    uint32_t refusal = troughiron_run(image, l->length, l->events, count, l->answers,
                                      sizeof l->answers, &copied);

    if (refusal != TROUGHIRON_ANSWERED)
        return -(int)refusal;
    memcpy(l->image, image, l->length);
    l->count = count;
    l->copied = l->copied_before + copied;
    return l->answers[count - 1];
}

static int one_more(struct line *l, uint8_t event)
{
    if (l->count >= MOST)
        return -TROUGHIRON_REFUSED_TRACE;
    l->events[l->count] = event;
    return run(l, l->count + 1);
}

/* The byte that the levels of eight slots spell, least significant bit first. */
static uint8_t spelled(const uint8_t *levels)
{
    uint8_t byte = 0;

    for (int bit = 0; bit < 8; bit++)
        byte |= (uint8_t)(levels[bit] << bit);
    return byte;
}

/*
 * A reset ends what was before it, where it may set PF, so it is the last event of one trace. It is
 * the first of the next one too, as every device waits for a reset at the start of a run.
 */
int line_reset(struct line *l)
{
    l->events[l->count] = TROUGHIRON_RESET;

    int level = run(l, l->count + 1);

    if (level < 0)
        return level;
    memcpy(l->start, l->image, l->length);
    l->copied_before = l->copied;
    l->overdrive = 0;
    l->events[0] = TROUGHIRON_RESET;
    l->count = 1;
    return level == 0;
}

/* No run starts with it, so it goes on with the trace. */
int line_overdrive_reset(struct line *l)
{
    int level = one_more(l, TROUGHIRON_OVERDRIVE_RESET);

    return level < 0 ? level : level == 0;
}

static uint8_t slot(const struct line *l, int bit)
{
    if (l->overdrive)
        return bit ? TROUGHIRON_OVERDRIVE_ONE : TROUGHIRON_OVERDRIVE_ZERO;
    return bit ? TROUGHIRON_WRITE_ONE : TROUGHIRON_WRITE_ZERO;
}

int line_bit(struct line *l, int bit)
{
    return one_more(l, slot(l, bit));
}

int line_byte(struct line *l, uint8_t byte)
{
    if (l->count > MOST - 8)
        return -TROUGHIRON_REFUSED_TRACE;
    for (int bit = 0; bit < 8; bit++)
        l->events[l->count + (size_t)bit] = slot(l, byte >> bit & 1);

    int level = run(l, l->count + 8);

    return level < 0 ? level : spelled(l->answers + l->count - 8);
}

int line_read(struct line *l, uint8_t *bytes, size_t count)
{
    size_t from = l->count;

    if (count > (MOST - from) / 8)
        return -TROUGHIRON_REFUSED_TRACE;
    if (count == 0)
        return 0;
    memset(l->events + from, slot(l, 1), 8 * count);

    int level = run(l, from + 8 * count);

    for (size_t i = 0; i < count && level >= 0; i++)
        bytes[i] = spelled(l->answers + from + 8 * i);
    return level < 0 ? level : 0;
}

int line_pulse(struct line *l)
{
    return one_more(l, TROUGHIRON_PULSE);
}

/* A run of no events changes nothing, and is refused where the image is. */
int line_open(struct line *l, const uint8_t *image, size_t length)
{
    l->length = length;
    if (length > LINE_IMAGE)
        l->length = LINE_IMAGE;
    l->count = 0;
    l->copied = l->copied_before = 0;
    l->overdrive = 0;
    if (l->length > 0)
        memcpy(l->start, image, l->length);

    uint64_t copied;
    uint32_t refusal = troughiron_run(l->start, l->length, NULL, 0, NULL, 0, &copied);

    if (length > LINE_IMAGE && refusal != TROUGHIRON_REFUSED_TABLE)
        refusal = TROUGHIRON_REFUSED_LAYOUT; /* no bench is so long */
    if (refusal != TROUGHIRON_ANSWERED)
        l->length = 0; /* then every call is refused too */
    memcpy(l->image, l->start, l->length);
    return -(int)refusal;
}
