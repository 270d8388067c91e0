#include "damage.h"

#include "bench_damage.h"
#include "digit.h"

#include <string.h>

const unsigned run_refusals[RUN_REFUSALS] = { 1, 2, 3, 4, 5, 11, 6, 7 };

static int trace_too_long(struct run_case *c, size_t choice)
{
    const size_t length =
        MOST_EVENTS + 1 + digit(&choice, TRACE_ROOM - MOST_EVENTS);

    memset(c->trace.events + c->trace.length, WRITE_ONE,
           length - c->trace.length);
    c->trace.length = length;
    if (digit(&choice, 4) != 0)
        c->answers = length; /* mostly there is room for the answers */
    return 1;
}

/* Often the first byte that is no event. */
static int byte_over_6(struct run_case *c, size_t choice)
{
    size_t place;

    if (c->trace.length == 0)
        return 0;
    place = digit(&choice, c->trace.length);
    c->trace.events[place] = NO_EVENT;
    if (digit(&choice, 3) != 0)
        c->trace.events[place] += (uint8_t)digit(&choice, 249);
    return 1;
}

static int no_reset_first(struct run_case *c, size_t choice)
{
    static const enum event events[] = { WRITE_ZERO,     WRITE_ONE,
                                         PULSE,          OVERDRIVE_ZERO,
                                         OVERDRIVE_ONE,  OVERDRIVE_RESET };
    const size_t count = sizeof events / sizeof *events;

    if (c->trace.length == 0)
        return 0;
    c->trace.events[0] = (uint8_t)events[digit(&choice, count)];
    return 1;
}

/* The first event stays: a pulse there would be no reset first. */
static int pulse_refused(struct run_case *c, size_t choice)
{
    if (c->trace.length < 2 || bench_takes_pulses(&c->bench))
        return 0;
    c->trace.events[1 + digit(&choice, c->trace.length - 1)] = PULSE;
    return 1;
}

static int answers_short(struct run_case *c, size_t choice)
{
    if (c->trace.length == 0)
        return 0;
    c->answers = c->trace.length - 1 - digit(&choice, c->trace.length);
    return 1;
}

/* ------------------------------------------------------------------ */

/* These come after those of the image. */
static const struct {
    unsigned number;
    int (*act)(struct run_case *, size_t);
} damages[] = {
    { 5, trace_too_long },
    { 5, byte_over_6 },
    { 11, no_reset_first },
    { 6, pulse_refused },
    { 7, answers_short },
};

size_t damage_count(void)
{
    return bench_damage_count() + sizeof damages / sizeof *damages;
}

unsigned damage_number(size_t damage)
{
    const size_t of_image = bench_damage_count();

    return damage < of_image ? bench_damage_number(damage)
                             : damages[damage - of_image].number;
}

int damage_do(size_t damage, struct run_case *c, size_t choice)
{
    const size_t of_image = bench_damage_count();

    return damage < of_image ? bench_damage_do(damage, &c->bench, choice)
                             : damages[damage - of_image].act(c, choice);
}
