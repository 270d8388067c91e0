/*
 * Cases of the search: small ones in groups that are gone through whole, whose
 * number selects what varies, and ones that a seed and a number determine.
 */
#include "search.h"

#include "bench_damage.h"
#include "dice.h"
#include "digit.h"
#include "large_bench.h"
#include "room.h"
#include "some_bench.h"

/* ------------------------------------------------------------------ */
/* Small cases: how many devices, and their codes                      */

enum { SERIAL_BITS = 48 };

/* The kinds of a bench by one digit: all of one kind, or of every kind. */
static void bench_of_kinds(struct bench *b, size_t way, size_t count)
{
    enum kind kinds[MOST_ENTRIES] = { DS1992 };

    /* more than 64: small ones only */
    kinds_of_crowd(kinds, count, count > MOST_DEVICES ? DS1982 : way);
    bench_make(b, kinds, count, count);
}

/*
 * Editions and batteries by one digit: edition 1, edition 2 with all good, some
 * flat, or all.
 */
enum { WAYS_OF_BATTERIES = 4 };

static void set_batteries(struct bench *b, size_t way)
{
    static const size_t sets[WAYS_OF_BATTERIES] = { 0, 1, 0xA5C3972D6B,
                                                    SIZE_MAX };

    bench_set_batteries(b, sets[way]);
}

/* Every number of devices that a count can say, good and flat. */
static int counts(struct search_case *c, size_t number)
{
    const size_t way = digit(&number, KINDS + 1);
    const size_t batteries = digit(&number, WAYS_OF_BATTERIES);
    const size_t count = digit(&number, MOST_ENTRIES + 1);

    bench_of_kinds(&c->bench, way, count);
    set_batteries(&c->bench, batteries);
    c->expected = count > MOST_DEVICES ? 1 : 0;
    return number == 0;
}

/* Serial numbers that go on from any one, in either order of the devices. */
static int serials_in_a_row(struct search_case *c, size_t number)
{
    static const uint64_t bases[] = { 0, 0xFFFFFFFFFFF0, 0x0000FFFFFFF8,
                                      0x123456789ABC };
    const size_t bases_count = sizeof bases / sizeof *bases;
    const int falling = digit(&number, 2) == 1;
    const size_t batteries = digit(&number, WAYS_OF_BATTERIES);
    const uint64_t base = bases[digit(&number, bases_count)];
    const size_t count = 2 + digit(&number, 20);

    bench_of_kinds(&c->bench, DS1992, count);
    set_batteries(&c->bench, batteries);
    for (size_t i = 0; i < count; i++)
        bench_give_code(&c->bench, i, base + (falling ? count - i : i));
    return number == 0;
}

/*
 * Codes that share all bits but one or two: each pair of bits of the serial
 * number, on which three devices of a kind differ.
 */
static int long_prefixes(struct search_case *c, size_t number)
{
    static const uint64_t bases[] = { 0, 0xFFFFFFFFFFFF, 0xA5C39600F1E7 };
    const uint64_t base = bases[digit(&number, 3)];
    const size_t kind = digit(&number, KINDS);
    const size_t low = digit(&number, SERIAL_BITS);
    const size_t high = digit(&number, SERIAL_BITS);

    bench_of_kinds(&c->bench, kind, low == high ? 2 : 3);
    bench_give_code(&c->bench, 0, base);
    bench_give_code(&c->bench, 1, base ^ UINT64_C(1) << low);
    if (low != high)
        bench_give_code(&c->bench, 2, base ^ UINT64_C(1) << high);
    return number == 0;
}

/* A full subtree: codes that take all values of five bits, and no other. */
static int full_subtrees(struct search_case *c, size_t number)
{
    enum { BITS = 5 };
    const size_t shift = digit(&number, SERIAL_BITS - BITS + 1);
    const size_t way = digit(&number, 2) == 0 ? DS1982 : KINDS;
    const size_t batteries = digit(&number, WAYS_OF_BATTERIES);
    struct dice dice = dice_for(5, shift);
    const uint64_t base = dice_roll(&dice) & ~(UINT64_C(31) << shift);

    bench_of_kinds(&c->bench, way, 1 << BITS);
    set_batteries(&c->bench, batteries);
    for (size_t i = 0; i < 1 << BITS; i++)
        bench_give_code(&c->bench, i, base | (uint64_t)(i * 13 % 32) << shift);
    return number == 0;
}

/* Images about as long as they can be, with all the DS1996 that fit. */
static int large_images(struct search_case *c, size_t number)
{
    const int reversed = digit(&number, 2) == 1;
    const size_t which = digit(&number, LARGE_BENCHES);

    c->expected = large_bench(&c->bench, which, reversed) ? 0 : 2;
    return number == 0;
}

/* ------------------------------------------------------------------ */
/* Small cases: room, lengths and refusals                             */

/* Room for codes and trace around what is needed. */
static int room(struct search_case *c, size_t number)
{
    static const size_t some[] = { 0, 1, 2, 3, 8 };
    const size_t count = some[digit(&number, 5)];

    bench_of_kinds(&c->bench, KINDS, count);
    c->codes = room_around(&number, search_code_room(count));
    c->trace = room_around(&number, search_trace_room(count));
    c->expected = c->codes < search_code_room(count)
                          || c->trace < search_trace_room(count)
                      ? 7
                      : 0;
    return number == 0;
}

/* Every room for codes, then every room for the trace, of two devices. */
static int every_room(struct search_case *c, size_t number)
{
    const size_t codes_room = search_code_room(2);
    const size_t trace_room = search_trace_room(2);
    const size_t place = digit(&number, codes_room + trace_room);

    bench_of_kinds(&c->bench, KINDS, 2);
    c->codes = place < codes_room ? place : codes_room;
    c->trace = place < codes_room ? trace_room : place - codes_room;
    c->expected = 7;
    return number == 0;
}

/* No bytes and few, in each buffer. */
static int lengths(struct search_case *c, size_t number)
{
    const int null = digit(&number, 2) == 0;
    const size_t kind = digit(&number, KINDS + 1);
    const size_t length = digit(&number, 9);

    bench_of_kinds(&c->bench, kind, kind < KINDS);
    if (length < c->bench.length)
        c->bench.length = length;
    c->codes = digit(&number, 3);
    c->trace = digit(&number, 4);
    c->null = null;
    c->expected = ANY_NUMBER;
    return number == 0;
}

/* Too little room, in a way that a choice selects. */
static int too_little_room(struct search_case *c, size_t choice)
{
    const size_t count = c->bench.count;

    if (digit(&choice, 2) == 0 && count > 0)
        c->codes = digit(&choice, search_code_room(count));
    else
        c->trace = digit(&choice, search_trace_room(count));
    return 1;
}

/* The damages of an image, and last too little room. */
static size_t damages(void)
{
    return bench_damage_count() + 1;
}

static int damage(struct search_case *c, size_t which, size_t choice)
{
    return which < bench_damage_count()
               ? bench_damage_do(which, &c->bench, choice)
               : too_little_room(c, choice);
}

static unsigned number_of(size_t which)
{
    return which < bench_damage_count() ? bench_damage_number(which) : 7;
}

enum { BENCHES_TO_DAMAGE = 2 * WAYS_OF_BATTERIES };

static void bench_to_damage(struct search_case *c, size_t which)
{
    const size_t count = which % 2 == 0 ? 4 : 8;

    bench_of_kinds(&c->bench, KINDS, count);
    set_batteries(&c->bench, which / 2);
    c->codes = search_code_room(count);
    c->trace = search_trace_room(count);
}

/* Each cause alone, in many ways. */
static int refusals(struct search_case *c, size_t number)
{
    const size_t bench = digit(&number, BENCHES_TO_DAMAGE);
    const size_t which = digit(&number, damages());
    const size_t choice = digit(&number, 1024);

    bench_to_damage(c, bench);
    if (damage(c, which, choice))
        c->expected = number_of(which);
    return number == 0;
}

/* Two causes at once, in some ways: the lower number wins. */
static int refusals_in_pairs(struct search_case *c, size_t number)
{
    struct dice dice = dice_for(6, number);
    const size_t bench = digit(&number, BENCHES_TO_DAMAGE);
    const size_t later = digit(&number, damages());
    const size_t sooner = digit(&number, damages());

    digit(&number, 48); /* ways, which the dice choose */
    bench_to_damage(c, bench);
    if (damage(c, later, dice_below(&dice, 10000)))
        c->expected = number_of(later);
    if (sooner < later && damage(c, sooner, dice_below(&dice, 10000)))
        c->expected = number_of(sooner);
    return number == 0;
}

/* ------------------------------------------------------------------ */

static const struct {
    const char *name;
    int (*make)(struct search_case *, size_t);
} groups[] = {
    { "search_counts", counts },
    { "search_serials_in_a_row", serials_in_a_row },
    { "search_full_subtrees", full_subtrees },
    { "search_large_images", large_images },
    { "search_room", room },
    { "search_every_room", every_room },
    { "search_lengths", lengths },
    { "search_refusals", refusals },
    { "search_refusals_in_pairs", refusals_in_pairs },
    { "search_long_prefixes", long_prefixes },
};

const char *search_small_group(size_t group)
{
    return GROUP_NAME(groups, group);
}

static size_t devices_of(const struct search_case *c)
{
    return c->bench.count < MOST_DEVICES ? c->bench.count : MOST_DEVICES;
}

/*
 * What a group does not say: the search is answered, there is room, empty
 * buffers are null in every other case.
 */
int search_small_case(struct search_case *c, size_t group, size_t number)
{
    c->codes = c->trace = ENOUGH;
    c->expected = 0;
    c->null = number % 2 == 0;
    if (!groups[group].make(c, number))
        return 0;
    c->codes = room_or_enough(c->codes, search_code_room(devices_of(c)),
                              number % 3);
    c->trace = room_or_enough(c->trace, search_trace_room(devices_of(c)),
                              number % 5);
    return 1;
}

/* ------------------------------------------------------------------ */
/* Generated cases                                                     */

/* Mostly just enough, at times more. */
static size_t some_room(struct dice *dice, size_t needed)
{
    return dice_once_in(dice, 3) ? needed + dice_below(dice, SPARE_ROOM)
                                 : needed;
}

/* One damage or two; or some byte near the start, where the table is. */
static void some_damage(struct dice *dice, struct search_case *c)
{
    const size_t bytes = c->bench.length < 300 ? c->bench.length : 300;
    const size_t first = dice_below(dice, damages());
    const size_t second = dice_below(dice, damages());

    if (dice_once_in(dice, 4))
        c->bench.bytes[dice_below(dice, bytes)] = (uint8_t)dice_roll(dice);
    else
        damage(c, first > second ? first : second,
               (size_t)(dice_roll(dice) >> 20));
    if (first != second && dice_once_in(dice, 2))
        damage(c, first < second ? first : second,
               (size_t)(dice_roll(dice) >> 20));
}

/* A search costs the square of the devices: many of them only at times. */
static size_t some_devices(struct dice *dice)
{
    const size_t count = some_count(dice);

    return count <= 16 || dice_once_in(dice, 4) ? count : count % 16;
}

void search_generated_case(struct search_case *c, uint64_t seed,
                           uint64_t number)
{
    struct dice dice = dice_for(seed + 1, ~number);

    some_bench(&dice, &c->bench, some_devices(&dice));
    c->codes = some_room(&dice, search_code_room(c->bench.count));
    c->trace = some_room(&dice, search_trace_room(c->bench.count));
    c->expected = ANY_NUMBER;
    c->null = dice_once_in(&dice, 2);
    if (dice_once_in(&dice, 6))
        some_damage(&dice, c);
}
