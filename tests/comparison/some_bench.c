#include "some_bench.h"

#include "large_bench.h"

#include <string.h>

/* Few devices mostly, at times as many as there can be. */
size_t some_count(struct dice *dice)
{
    switch (dice_below(dice, 16)) {
    case 0:
        return dice_below(dice, 2) * MOST_DEVICES;
    case 1:
        return 17 + dice_below(dice, MOST_DEVICES - 16);
    case 2:
    case 3:
        return 5 + dice_below(dice, 12);
    case 4:
    case 5:
    case 6:
    case 7:
    case 8:
        return 2 + dice_below(dice, 3);
    default:
        return 1;
    }
}

/*
 * Any kinds, no DS1982, or one kind only: pulses need DS1982 only.  Mostly the
 * DS1996 are no more than an image can hold, at times there is one too many.
 */
static void some_kinds(struct dice *dice, enum kind *kinds, size_t count)
{
    static const enum kind only[] = { DS1982, DS1982, DS1982,
                                      DS1992, DS1993, DS1996 };
    const size_t ways = sizeof only / sizeof *only;
    const size_t way = dice_below(dice, ways + 4);

    for (size_t i = 0; i < count; i++)
        if (way < ways)
            kinds[i] = only[way];
        else if (way < ways + 2)
            kinds[i] = (enum kind)dice_below(dice, SRAM_KINDS);
        else
            kinds[i] = (enum kind)dice_below(dice, KINDS);
    kinds_within(kinds, count,
                 dice_once_in(dice, 50) ? BENCH_ROOM - 1024 : MOST_IMAGE_BYTES);
}

/* Edition 1, edition 2 with all good, some flat, or all. */
static void some_batteries(struct dice *dice, struct bench *b)
{
    const size_t way = dice_below(dice, 8);

    if (way < 3)
        return;
    bench_to_edition_2(b);
    for (size_t i = 0; i < b->count; i++)
        if (way == 7 || (way > 3 && dice_once_in(dice, 3)))
            bench_flatten(b, i);
}

/* Any serial numbers, or some that share their first or their last bits. */
static void some_codes(struct dice *dice, struct bench *b)
{
    const size_t way = dice_below(dice, 5);
    const uint64_t base = dice_once_in(dice, 4) ? 0 : dice_roll(dice);
    const size_t shift = dice_below(dice, 48 - 6);

    for (size_t i = 0; i < b->count; i++)
        switch (way) {
        case 0: /* one after the other */
            bench_give_code(b, i, base + i);
            break;
        case 1: /* long common prefixes: the last six bits vary */
            bench_give_code(b, i, base ^ (uint64_t)i << (48 - 6));
            break;
        case 2: /* and common ends as well */
            bench_give_code(b, i, base ^ (uint64_t)i << shift);
            break;
        case 3: /* one bit after the other */
            bench_give_code(b, i, base ^ (uint64_t)1 << i % 48);
            break;
        default:
            bench_give_code(b, i, dice_roll(dice));
        }
}

static void some_bytes(struct dice *dice, uint8_t *bytes, size_t count)
{
    switch (dice_below(dice, 6)) {
    case 0:
        memset(bytes, 0x00, count);
        break;
    case 1:
        memset(bytes, 0xFF, count);
        break;
    default:
        dice_fill(dice, bytes, count);
    }
}

/* Any registers, or such that a copy has somewhere to go. */
static void some_registers(struct dice *dice, struct bench *b, size_t i)
{
    uint8_t *const registers = bench_at(b, i, TA1);
    const size_t target = dice_below(dice, kind_memory_bytes(b->kinds[i]));

    if (dice_once_in(dice, 4))
        return;
    registers[0] = (uint8_t)target;
    registers[1] = (uint8_t)(target >> 8);
    if (dice_once_in(dice, 2))
        registers[2] &= 0x1F;
}

static void some_body(struct dice *dice, struct bench *b, size_t i)
{
    if (b->kinds[i] == DS1982) {
        some_bytes(dice, bench_at(b, i, STATUS), STATUS_BYTES);
        some_bytes(dice, bench_at(b, i, DATA), DATA_BYTES);
    } else {
        some_bytes(dice, bench_at(b, i, TA1), 3);
        some_registers(dice, b, i);
        some_bytes(dice, bench_at(b, i, SCRATCHPAD), PAGE_BYTES);
        some_bytes(dice, bench_at(b, i, MEMORY),
                   kind_memory_bytes(b->kinds[i]));
    }
}

/* One of the longest images, or one that is just too long. */
static void some_large_bench(struct dice *dice, struct bench *b)
{
    const size_t about_the_longest = 4 * 33 + dice_below(dice, 4 * 6);

    large_bench(b, dice_once_in(dice, 3) ? dice_below(dice, LARGE_BENCHES)
                                         : about_the_longest,
                dice_once_in(dice, 2));
    some_batteries(dice, b);
}

void some_bench(struct dice *dice, struct bench *b, size_t count)
{
    enum kind kinds[MOST_DEVICES];

    if (count > 0 && dice_once_in(dice, 40)) {
        some_large_bench(dice, b);
        return;
    }
    some_kinds(dice, kinds, count);
    bench_lay_out(b, kinds, count);
    some_batteries(dice, b);
    some_codes(dice, b);
    for (size_t i = 0; i < count; i++)
        some_body(dice, b, i);
}
