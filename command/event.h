/* Events of a trace. */
#ifndef EVENT_H
#define EVENT_H

#include "troughiron.h"

#include <stdbool.h>
#include <stddef.h>

/* A reset at regular speed, which every device hears: a run can start with it, and with no other. */
static inline bool is_regular_reset(uint8_t event)
{
    return event == TROUGHIRON_RESET;
}

/* A reset at either speed. */
static inline bool is_reset(uint8_t event)
{
    return is_regular_reset(event) || event == TROUGHIRON_OVERDRIVE_RESET;
}

/* Of a slot: what the master sends in it. */
static inline bool sends_one(uint8_t event)
{
    return event == TROUGHIRON_WRITE_ONE || event == TROUGHIRON_OVERDRIVE_ONE;
}

static inline bool is_slot(uint8_t event)
{
    return sends_one(event) || event == TROUGHIRON_WRITE_ZERO || event == TROUGHIRON_OVERDRIVE_ZERO;
}

static inline bool is_overdrive(uint8_t event)
{
    return event >= TROUGHIRON_OVERDRIVE_ZERO && event <= TROUGHIRON_OVERDRIVE_RESET;
}

/* Of a slot or a reset: the same at a speed. */
static inline uint8_t at_speed(uint8_t event, bool overdrive)
{
    if (is_reset(event))
        return overdrive ? TROUGHIRON_OVERDRIVE_RESET : TROUGHIRON_RESET;
    if (sends_one(event))
        return overdrive ? TROUGHIRON_OVERDRIVE_ONE : TROUGHIRON_WRITE_ONE;
    return overdrive ? TROUGHIRON_OVERDRIVE_ZERO : TROUGHIRON_WRITE_ZERO;
}

/* A slot in which the master sends a level. */
static inline uint8_t slot_of(bool one, bool overdrive)
{
    return at_speed(one ? TROUGHIRON_WRITE_ONE : TROUGHIRON_WRITE_ZERO, overdrive);
}

/* Whether the line answered slots as the master sent them. */
static inline bool is_as_sent(const uint8_t *events, const uint8_t *answers, size_t count)
{
    for (size_t i = 0; i < count; i++)
        if (sends_one(events[i]) != (answers[i] & 1))
            return false;
    return true;
}

/* The byte that eight levels, or eight slots, spell: its lowest bit comes first. */
static inline uint8_t byte_of_levels(const uint8_t *levels)
{
    unsigned byte = 0;

    for (unsigned i = 0; i < 8; i++)
        byte |= (levels[i] & 1u) << i;
    return (uint8_t)byte;
}

#endif
