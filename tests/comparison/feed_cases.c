/*
 * Cases of the fed master: small ones in groups that are gone through whole,
 * whose number selects what varies, and ones that a seed and a number
 * determine.  The levels of a search are made here, from the codes.
 */
#include "feed.h"

#include "dice.h"
#include "digit.h"
#include "probe.h"
#include "room.h"
#include "trace.h"

#include <stdlib.h>
#include <string.h>

/* ------------------------------------------------------------------ */
/* The levels of a search                                              */

enum { MOST_CODES = 70 };

/* Codes in the order that they are found in. */
struct codes {
    size_t count;
    uint8_t bytes[MOST_CODES][CODE_BYTES];
};

static unsigned code_bit(const uint8_t *code, size_t bit)
{
    return code[bit / 8] >> bit % 8 & 1;
}

static void add_level(struct feed_case *c, unsigned level)
{
    if (c->length < FEED_ROOM)
        c->levels[c->length++] = (uint8_t)level;
}

/* Whether a code has a bit, of those that share the bits before it. */
static int some_code_has(const struct codes *codes, const uint8_t *way,
                         size_t bit, unsigned value)
{
    for (size_t i = 0; i < codes->count; i++) {
        size_t shared = 0;

        while (shared < bit
               && code_bit(codes->bytes[i], shared) == code_bit(way, shared))
            shared++;
        if (shared == bit && code_bit(codes->bytes[i], bit) == value)
            return 1;
    }
    return 0;
}

/* The pass that finds a code: presence, the command, and the code's bits. */
static void add_pass(struct feed_case *c, const struct codes *codes,
                     const uint8_t *way)
{
    add_level(c, 0);
    for (size_t i = 0; i < 8; i++)
        add_level(c, SEARCH_ROM >> i & 1);
    for (size_t i = 0; i < CODE_BITS; i++) {
        add_level(c, !some_code_has(codes, way, i, 0));
        add_level(c, !some_code_has(codes, way, i, 1));
        add_level(c, code_bit(way, i));
    }
}

/* As many passes as there are codes; none present: one level. */
static void add_search(struct feed_case *c, struct codes *codes)
{
    if (codes->count == 0)
        add_level(c, 1);
    else
        qsort(codes->bytes, codes->count, CODE_BYTES, code_order);
    for (size_t i = 0; i < codes->count && i < MOST_DEVICES; i++)
        add_pass(c, codes, codes->bytes[i]);
}

/* ------------------------------------------------------------------ */
/* Codes                                                               */

/* Codes of any family, with serial numbers in a row or a long way apart. */
static void some_codes(struct codes *codes, size_t count, uint64_t number)
{
    struct dice dice = dice_for(8, number);
    const uint64_t base = dice_roll(&dice);
    const size_t shift = dice_below(&dice, 48 - 6);
    const int apart = dice_once_in(&dice, 2);

    codes->count = count;
    for (size_t i = 0; i < count; i++)
        code_write(codes->bytes[i], apart ? (uint8_t)(3 * i) : 0x08,
                   apart ? dice_roll(&dice) : base + ((uint64_t)i << shift));
}

/* ------------------------------------------------------------------ */
/* Small cases                                                         */

/* Every byte's worth of levels again and again, up to two passes of them. */
static int patterns(struct feed_case *c, size_t number)
{
    const size_t pattern = digit(&number, 256);
    const size_t length = digit(&number, 2 * PASS_EVENTS + 10);

    for (size_t i = 0; i < length; i++)
        add_level(c, pattern >> i % 8 & 1);
    return number == 0;
}

/* Both levels of each of the first six bits in every way, then a way on. */
static int first_bits(struct feed_case *c, size_t number)
{
    const size_t tail = digit(&number, 3);
    unsigned pairs = (unsigned)digit(&number, 4096);

    add_level(c, 0);
    for (size_t i = 0; i < 8; i++)
        add_level(c, SEARCH_ROM >> i & 1);
    for (size_t bit = 0; bit < 6; bit++, pairs >>= 2) {
        add_level(c, pairs & 1);
        add_level(c, pairs >> 1 & 1);
        add_level(c, 0);
    }
    for (size_t i = 0; tail > 0 && i < 400; i++)
        add_level(c, tail == 1 ? 0 : i % 3 == 1);
    return number == 0;
}

/* Searches of up to 70 codes, and a level more or less. */
static int searches(struct feed_case *c, size_t number)
{
    const size_t change = digit(&number, 3);
    const size_t count = digit(&number, MOST_CODES + 1);
    struct codes codes;

    some_codes(&codes, count, MOST_CODES * digit(&number, 3) + count);
    add_search(c, &codes);
    c->expected = count > MOST_DEVICES ? 10 : 0;
    if (change == 1)
        add_level(c, 0);
    if (change == 2) {
        c->length--;
        c->expected = PROBE_UNFINISHED;
    }
    return number == 0;
}

/* The levels of three codes, cut at every place. */
static int cuts(struct feed_case *c, size_t number)
{
    struct codes codes;
    size_t length;

    some_codes(&codes, 3, digit(&number, 6));
    add_search(c, &codes);
    length = digit(&number, c->length + 1);
    c->expected = length < c->length ? PROBE_UNFINISHED : 0;
    c->length = length;
    return number == 0;
}

/* One level the other way, at every place. */
static int one_wrong_level(struct feed_case *c, size_t number)
{
    struct codes codes;

    some_codes(&codes, 4, digit(&number, 6));
    add_search(c, &codes);
    c->levels[digit(&number, c->length)] ^= 1;
    c->expected = ANY_NUMBER;
    return number == 0;
}

/* Any byte that is not zero counts as 1. */
static int values(struct feed_case *c, size_t number)
{
    const uint8_t value = (uint8_t)(1 + digit(&number, 255));
    struct codes codes;

    some_codes(&codes, digit(&number, 4), value);
    add_search(c, &codes);
    for (size_t i = 0; i < c->length; i++)
        if (c->levels[i] != 0)
            c->levels[i] = value;
    c->expected = 0;
    return number == 0;
}

/* One code with a wrong CRC: among a few, and the 64th of 65. */
static int wrong_crc(struct feed_case *c, size_t number)
{
    static const size_t counts[] = { 1, 2, 3, 5, 65 };
    const size_t count = counts[digit(&number, 5)];
    struct codes codes;
    size_t which;

    some_codes(&codes, count, digit(&number, 4));
    qsort(codes.bytes, count, CODE_BYTES, code_order);
    which = count == 65 ? 63 : digit(&number, 5) % count;
    codes.bytes[which][7] ^= (uint8_t)(1u << digit(&number, 8));
    add_search(c, &codes);
    c->expected = 9;
    return number == 0;
}

/* No presence on one of the passes: the first, or a later one. */
static int no_presence(struct feed_case *c, size_t number)
{
    const size_t count = 1 + digit(&number, 6);
    const size_t pass = digit(&number, 6) % count;
    struct codes codes;

    some_codes(&codes, count, digit(&number, 4));
    add_search(c, &codes);
    c->levels[PASS_EVENTS * pass] = 1;
    c->expected = pass == 0 ? 0 : 8;
    return number == 0;
}

/* Room around what is needed: for few levels, a search, and the most. */
static int rooms(struct feed_case *c, size_t number)
{
    static const size_t lengths[] = { 0,
                                      1,
                                      PASS_EVENTS - 1,
                                      PASS_EVENTS,
                                      2 * PASS_EVENTS,
                                      MOST_SEARCH_EVENTS - 1,
                                      MOST_SEARCH_EVENTS,
                                      MOST_SEARCH_EVENTS + 1 };
    const size_t length = lengths[digit(&number, 8)];
    struct codes codes;

    c->trace = room_around(&number, feed_trace_room(length));
    c->codes = room_around(&number, feed_code_room(length));
    some_codes(&codes, digit(&number, 2) == 0 ? 2 : MOST_CODES, length);
    add_search(c, &codes);
    while (c->length < length)
        add_level(c, 1);
    c->length = length;
    c->expected = c->trace < feed_trace_room(length)
                          || c->codes < feed_code_room(length)
                      ? 7
                      : ANY_NUMBER;
    return number == 0;
}

static const struct {
    const char *name;
    int (*make)(struct feed_case *, size_t);
} groups[] = {
    { "feed_searches", searches },
    { "feed_cuts", cuts },
    { "feed_one_wrong_level", one_wrong_level },
    { "feed_values", values },
    { "feed_wrong_crc", wrong_crc },
    { "feed_no_presence", no_presence },
    { "feed_rooms", rooms },
    { "feed_first_bits", first_bits },
    { "feed_patterns", patterns },
};

const char *feed_small_group(size_t group)
{
    return GROUP_NAME(groups, group);
}

int feed_small_case(struct feed_case *c, size_t group, size_t number)
{
    c->length = 0;
    c->trace = c->codes = ENOUGH;
    c->expected = ANY_NUMBER;
    c->null = number % 2 == 0;
    if (!groups[group].make(c, number))
        return 0;
    c->trace = room_or_enough(c->trace, feed_trace_room(c->length),
                              number % 3);
    c->codes = room_or_enough(c->codes, feed_code_room(c->length),
                              number % 5);
    return 1;
}

/* ------------------------------------------------------------------ */
/* Generated cases                                                     */

/* Few codes mostly, at times about as many as can be found. */
static size_t some_code_count(struct dice *dice)
{
    switch (dice_below(dice, 20)) {
    case 0:
        return 60 + dice_below(dice, MOST_CODES - 60 + 1);
    case 1:
        return dice_below(dice, 30);
    default:
        return dice_below(dice, 6);
    }
}

/* A wrong bit in any code, or in the CRC of the last that is come to. */
static void spoil_code(struct dice *dice, struct codes *codes)
{
    const size_t last =
        (codes->count < MOST_DEVICES ? codes->count : MOST_DEVICES) - 1;
    const int of_last = dice_once_in(dice, 2);
    const size_t which = of_last ? last : dice_below(dice, codes->count);
    const size_t bit = of_last ? CODE_BITS - 8 + dice_below(dice, 8)
                               : dice_below(dice, CODE_BITS);

    codes->bytes[which][bit / 8] ^= (uint8_t)(1u << bit % 8);
}

/* The levels of a search, at times of one where a code is not valid. */
static void search_levels(struct dice *dice, struct feed_case *c)
{
    struct codes codes;

    some_codes(&codes, some_code_count(dice), dice_roll(dice));
    if (codes.count > 0 && dice_once_in(dice, 6)) {
        qsort(codes.bytes, codes.count, CODE_BYTES, code_order);
        spoil_code(dice, &codes);
    }
    add_search(c, &codes);
}

/* Whether the last level was that of a bit's first read slot, and 1. */
static int read_a_one(const struct feed_case *c)
{
    const size_t in_pass = c->length % PASS_EVENTS;

    return in_pass >= 10 && in_pass % 3 == 1 && c->levels[c->length - 1] != 0;
}

/* Any levels; mostly never two ones in the read slots of a bit. */
static void any_levels(struct dice *dice, struct feed_case *c)
{
    const size_t length = dice_below(dice, 4 * PASS_EVENTS);
    const int any = dice_once_in(dice, 4);

    while (c->length < length)
        if (c->length % PASS_EVENTS == 0)
            add_level(c, dice_once_in(dice, 8) ? 1 : 0); /* mostly presence */
        else if (read_a_one(c) && !any)
            add_level(c, 0);
        else
            add_level(c, dice_roll(dice) & 1);
}

/* Fewer levels, more of them, other values, no presence, or a wrong level. */
static void disturb(struct dice *dice, struct feed_case *c)
{
    const size_t place = c->length > 0 ? dice_below(dice, c->length) : 0;

    switch (dice_below(dice, 7)) {
    case 0:
        c->length = place;
        break;
    case 1:
        for (size_t i = dice_below(dice, 300); i > 0; i--)
            add_level(c, dice_roll(dice) & 1);
        break;
    case 2:
        for (size_t i = 0; i < c->length; i++)
            if (c->levels[i] != 0)
                c->levels[i] = (uint8_t)(1 + dice_below(dice, 255));
        break;
    case 3:
        c->levels[place / PASS_EVENTS * PASS_EVENTS] = 1;
        break;
    case 4:
        break;
    default:
        c->levels[place] = c->levels[place] == 0;
    }
}

void feed_generated_case(struct feed_case *c, uint64_t seed, uint64_t number)
{
    struct dice dice = dice_for(seed + 4, ~number);

    c->length = 0;
    if (dice_once_in(&dice, 4))
        any_levels(&dice, c);
    else
        search_levels(&dice, c);
    disturb(&dice, c);
    c->trace = room_by_dice(&dice, feed_trace_room(c->length));
    c->codes = room_by_dice(&dice, feed_code_room(c->length));
    c->expected = ANY_NUMBER;
    c->null = dice_once_in(&dice, 2);
}
